#!/usr/bin/env python3
"""Asks incus_run for lists by filters, and compares each reply with a reader of filters written here.

    tests/filters.py [--program FILE] [--filters N] [--mutated N] [--seed N] [--dialect plain|client]

The reader goes down the grammar of docs/RULES.md by recursion, and takes the values of fields from the objects that a list with recursion
shows. One session makes projects, profiles, networks, pools, volumes, instances and snapshots, and shows the list of each kind whole. The
next asks for the same lists:

1. by each member of each object as a field, by `eq` and by `ne` and its own value, and by members that are lists or objects;
2. by N random filters (100,000), with recursion and without;
3. by N filters of which a byte was changed, taken out or put in (10,000), which get rule A3 or the list, as the reader says.

The program is made by `rt try` (unproved, checked at run time), or is FILE. It prints how many came to what, and ends with status 1 where a
reply is otherwise.
"""
import argparse
import collections
import json
import random
import re
import subprocess
import sys
import urllib.parse
from pathlib import Path

TOP = Path(__file__).resolve().parent.parent
MOST_BYTES, MOST_NESTED = 4096, 64
TOKEN = re.compile(rb'\(|\)|"[^"]*"|"|[^ "()]+')

MADE = [
    ("POST", "/1.0/storage-pools", {"name": "p0", "driver": "dir", "description": "the first"}),
    ("POST", "/1.0/storage-pools", {"name": "p1", "driver": "zfs", "config": {"user.x": "1"}}),
    ("POST", "/1.0/projects", {"name": "lab", "config": {"features.profiles": "false", "limits.instances": "20", "user.a.b": "c"}}),
    ("POST", "/1.0/networks", {"name": "n0", "config": {"user.x": "2"}}),
    ("POST", "/1.0/networks", {"name": "n1", "description": "two words"}),
    ("POST", "/1.0/profiles", {"name": "web", "config": {"user.p": "w"}, "description": "true"}),
    ("PUT", "/1.0/profiles/default", {"devices": {"root": {"type": "disk", "path": "/", "pool": "p0"}}}),
    ("POST", "/1.0/storage-pools/p0/volumes/custom", {"name": "v0", "config": {"size": "1GiB"}}),
    ("POST", "/1.0/storage-pools/p0/volumes/custom", {"name": "v1", "description": "name"}),
    ("POST", "/1.0/instances", {"name": "a", "config": {"user.x": "1"}, "source": {"type": "none"}}),
    ("POST", "/1.0/instances", {"name": "b", "config": {"user.x": "2", "user.x.y": "Z"}, "source": {"type": "none"}}),
    ("POST", "/1.0/instances", {"name": "c", "description": "not", "profiles": ["default", "web"], "source": {"type": "none"}}),
    ("POST", "/1.0/instances", {"name": "d", "type": "virtual-machine", "ephemeral": True, "source": {"type": "none"}}),
    ("POST", "/1.0/instances/a/snapshots", {"name": "s0"}),
    ("POST", "/1.0/instances/a/snapshots", {"name": "s1", "expires_at": "2031-01-01T00:00:00Z"}),
    ("PUT", "/1.0/instances/b/state", {"action": "start"}),
]
LISTS = ["/1.0/projects", "/1.0/profiles", "/1.0/networks", "/1.0/storage-pools", "/1.0/storage-pools/p0/volumes/custom", "/1.0/instances",
         "/1.0/instances/a/snapshots"]


class Fault(Exception):
    """A text is no filter, from this place on."""


def tokens_of(text):
    return [(match.start(), match.group()) for match in TOKEN.finditer(text)]


class Reader:
    """Reads a filter as a tree: `("eq", field, value)`, `("ne", field, value)`, `("not", f)`, `("and", f, g)`, `("or", f, g)`."""

    def __init__(self, text):
        if len(text) > MOST_BYTES:
            raise Fault(MOST_BYTES)
        self.rest = collections.deque(tokens_of(text))
        self.end = len(text)

    def next(self):
        if not self.rest:
            raise Fault(self.end)
        return self.rest.popleft()

    def factor(self, depth):
        place, token = self.next()
        if token in (b"(", b"not") and depth == MOST_NESTED:
            raise Fault(place)
        if token == b"not":
            return ("not", self.factor(depth + 1))
        if token == b"(":
            return self.filter(depth + 1, closed=True)
        if token[:1] in b'")':
            raise Fault(place)
        place, comparison = self.next()
        if comparison not in (b"eq", b"ne"):
            raise Fault(place)
        place, value = self.next()
        if value in (b"(", b")", b'"'):
            raise Fault(place)
        return (comparison.decode(), token, value[1:-1] if value[:1] == b'"' else value)

    def filter(self, depth, closed=False):
        tree = self.factor(depth)
        while True:
            if not self.rest and not closed:
                return tree
            place, token = self.next()
            if token == b")" and closed:
                return tree
            if token not in (b"and", b"or"):
                raise Fault(place)
            tree = (token.decode(), tree, self.factor(depth))


def read(text):
    return Reader(text).filter(0)


def text_of(value):
    if isinstance(value, bool):
        return b"true" if value else b"false"
    if isinstance(value, (int, str)):
        return str(value).encode()
    return None


def value_of(shown, field):
    for front, member in ((b"config.", "config"), (b"expanded_config.", "expanded_config")):
        if field.startswith(front):
            settings = shown.get(member, {})
            return text_of(settings.get(field[len(front):].decode("utf8", "replace")))
    return text_of(shown.get(field.decode("utf8", "replace")))


def lower(text):
    return bytes(byte + 32 if 65 <= byte <= 90 else byte for byte in text)


def holds(tree, shown, client):
    if tree[0] in ("eq", "ne"):
        found, wanted = value_of(shown, tree[1]), tree[2]
        same = found is not None and (lower(found) == lower(wanted) if client else found == wanted)
        return same == (tree[0] == "eq")
    if tree[0] == "not":
        return not holds(tree[1], shown, client)
    left, right = holds(tree[1], shown, client), holds(tree[2], shown, client)
    return left and right if tree[0] == "and" else left or right


def request(method, target, body=None):
    body = b"" if body is None else json.dumps(body).encode()
    return f"{method} {target} HTTP/1.1\r\nContent-Length: {len(body)}\r\n\r\n".encode() + body


def answers(program, dialect, requests):
    """The codes and bodies of the replies to a session."""
    words = ["run", "--now", "0", *(["--dialect", "client"] if dialect == "client" else [])]
    command = [program, *words] if program else ["rt", "try", "--seconds", "3000", "--", *words]
    done = subprocess.run(command, input=b"".join(requests), capture_output=True, check=False,
                          cwd=None if program else TOP / "crates/incus_run")
    text, at, found = done.stdout, 0, []
    while at < len(text):
        end = text.index(b"\r\n\r\n", at) + 4
        head = text[at:end]
        length = int(re.search(rb"Content-Length: (\d+)", head)[1])
        found.append((int(head[9:12]), text[end:end + length]))
        at = end + length
    if len(found) != len(requests):
        sys.exit(f"{len(requests)} requests and {len(found)} replies; status {done.returncode}: {done.stderr[-300:]!r}")
    return found


def making():
    """What is made. What takes time is done while the program waits for the next request."""
    return [request(method, target, body) for method, target, body in MADE]


class Random:
    """Filters at random over what the objects have."""

    def __init__(self, seed, lists):
        self.random = random.Random(seed)
        self.fields, self.values, self.found = {}, {}, collections.defaultdict(set)
        for path, shown in lists.items():
            fields, values = {b"nothing", b"config.user.none"}, {b"x", b"", b"not", b"eq", b"("}
            for each in shown:
                for name, value in each.items():
                    fields.add(name.encode())
                    self.found[path, name.encode()].add(text_of(value))
                    if isinstance(value, dict):
                        fields.update(f"{name}.{key}".encode() for key in value)
                        for key, inner in value.items():
                            self.found[path, f"{name}.{key}".encode()].add(text_of(inner))
                        values.update(text_of(inner) for inner in value.values() if isinstance(inner, str))
                    elif text_of(value) is not None:
                        values.add(text_of(value))
            self.fields[path] = sorted(field for field in fields if not set(field) & set(b' "()'))
            self.values[path] = sorted(values)

    def value(self, path, field):
        own = sorted(self.found[path, field] - {None})
        value = self.random.choice(own if own and self.random.random() < 0.7 else self.values[path])
        if self.random.random() < 0.05:
            value = value.swapcase()
        if not value or set(value) & set(b' ()') or self.random.random() < 0.3:
            return b'"' + value + b'"'
        return value

    def blank(self):
        return b" " * self.random.choice((1, 1, 1, 2))

    def factor(self, path, size):
        if size > 1 and self.random.random() < 0.5:
            return b"(" + self.filter(path, size) + b")"
        if self.random.random() < 0.25:
            return b"not" + self.blank() + self.factor(path, size)
        field = self.random.choice(self.fields[path])
        return self.blank().join((field, self.random.choice((b"eq", b"ne")), self.value(path, field)))

    def filter(self, path, size):
        parts = [self.factor(path, size // 2)]
        for _ in range(self.random.randrange(size + 1)):
            parts += [self.random.choice((b"and", b"or")), self.factor(path, size // 2)]
        return self.blank().join(parts)

    def mutated(self, text):
        at = self.random.randrange(len(text) + 1)
        byte = bytes([self.random.choice(b' ()"anotreqx.\xc3\x00')])
        return self.random.choice((text[:at] + byte + text[at:], text[:at] + text[at + 1:], text[:at] + byte + text[at + 1:]))


def asked(path, text, whole):
    return request("GET", f"{path}?{'recursion=1&' if whole else ''}filter={urllib.parse.quote_plus(text)}")


def due(path, text, whole, lists, links, dialect):
    """The code of the reply that is due, and what it tells."""
    text = text.decode("utf8", "replace").encode()
    if not text and dialect == "client":
        return 200, lists[path] if whole else links[path]
    try:
        tree = read(text)
    except Fault:
        return 400, None
    chosen = [holds(tree, shown, dialect == "client") for shown in lists[path]]
    return 200, [one for one, taken in zip(lists[path] if whole else links[path], chosen) if taken]


def by_members(lists):
    for path, shown in lists.items():
        for each in shown:
            for name, value in each.items():
                text = text_of(value)
                for comparison in (b"eq", b"ne"):
                    yield path, name.encode() + b" " + comparison + b' "' + (b"x" if text is None else text.replace(b'"', b"")) + b'"'
                if isinstance(value, dict):
                    for key in value:
                        if isinstance(value[key], str):
                            yield path, f'{name}.{key} eq "{value[key]}"'.encode()


def main():
    parser = argparse.ArgumentParser(description=__doc__, formatter_class=argparse.RawDescriptionHelpFormatter)
    parser.add_argument("--program")
    parser.add_argument("--filters", type=int, default=100_000)
    parser.add_argument("--mutated", type=int, default=10_000)
    parser.add_argument("--seed", type=int, default=1)
    parser.add_argument("--dialect", choices=("plain", "client"), default="plain")
    words = parser.parse_args()
    made = making()
    first = answers(words.program, words.dialect, made + [request("GET", path + rest) for path in LISTS for rest in ("?recursion=1", "")])
    for code, body in first[:len(made)]:
        if code not in (200, 202):
            sys.exit(f"nothing is made: {body!r}")
    told = [json.loads(body)["metadata"] for _, body in first[len(made):]]
    lists, links = dict(zip(LISTS, told[0::2])), dict(zip(LISTS, told[1::2]))
    at_random = Random(words.seed, lists)
    cases = [("members", path, text, True) for path, text in by_members(lists)]
    cases += [("members", path, b"", False) for path in LISTS]
    for number in range(words.filters + words.mutated):
        path, size = at_random.random.choice(LISTS), at_random.random.choice((0, 1, 2, 4, 8))
        text = at_random.filter(path, size)
        kind = "random"
        if number >= words.filters:
            kind, text = "mutated", at_random.mutated(text)
        cases.append((kind, path, text, number % 8 == 0))
    replies = answers(words.program, words.dialect, made + [asked(path, text, whole) for _, path, text, whole in cases])[len(made):]
    counts, wrong = collections.Counter(), 0
    for (kind, path, text, whole), (code, body) in zip(cases, replies):
        wanted, tells = due(path, text, whole, lists, links, words.dialect)
        told = json.loads(body)["metadata"]
        good = code == wanted and (told == tells if code == 200 else told == {"key": "filter", "rule": "A3"} or words.dialect == "client")
        counts[kind, code, "all" if code == 200 and len(told) == len(lists[path]) else "some" if code == 200 and told else "none"] += 1
        if not good:
            wrong += 1
            if wrong <= 10:
                print(f"otherwise: {path} {text!r}: {code} {body[:300]!r}, due {wanted} {str(tells)[:300]}")
    for (kind, code, taken), count in sorted(counts.items()):
        print(f"{kind}: {count} answered with {code}" + (f", {taken} of the objects" if code == 200 else ""))
    if wrong:
        sys.exit(f"{wrong} of {len(cases)} are otherwise")
    print(f"{len(cases)} filters: each is answered as it has to be")


if __name__ == "__main__":
    main()
