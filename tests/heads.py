#!/usr/bin/env python3
"""Puts another byte at each place of the first two heads of a session, and compares what incus_run answers with a reader of its own.

    tests/heads.py [--program FILE] [--runs FILE]

The session is the run "A day of a user" of crates/tests_sessions/stdin. Each byte of its first two heads is set to 0x00 and to 0x0a in turn,
and all of the session is sent. A reader written here, from RFC 9112 and the rules H1 to H4 of docs/RULES.md, says which messages that is:
where each begins, what its method, its target and its body are, and how the text ends. The program has to answer each message by one reply
and a malformed place by 400 with its rule, and to end with the status that is due.

The program is made by `rt try` (unproved, checked at run time), or is FILE. It prints how many of the texts came to what, and ends with
status 1 where an answer is otherwise.
"""
import argparse
import collections
import re
import sys
from pathlib import Path

sys.dont_write_bytecode = True
from out_of_memory import run_all, run_program  # noqa: E402
from session_runs import DAY, RUNS, request, run_of  # noqa: E402

TOKEN = rb"[!#$%&'*+.^_`|~0-9A-Za-z-]+"
# A target is any byte above the blank but DEL, as most servers take it.
LINE = re.compile(rb"(" + TOKEN + rb") ([\x21-\x7e\x80-\xff]+) HTTP/1\.([01])\Z")
FIELD = re.compile(rb"(" + TOKEN + rb"):[ \t]*([\t\x20-\x7e\x80-\xff]*?)[ \t]*\Z")
MOST_HEAD, MOST_BODY, MOST_FIELDS = 16384, 1048576, 64


def head_of(lines):
    """The method, the target, the length of the body and whether it is the last request; or the rule that the head breaks."""
    first = LINE.match(lines[0])
    fields = [FIELD.match(line) for line in lines[1:]]
    if not first or not all(fields) or len(fields) > MOST_FIELDS:
        return None, "H1"
    values = collections.defaultdict(list)
    for field in fields:
        values[field[1].lower()].append(field[2])
    if values[b"transfer-encoding"] or len(values[b"content-length"]) > 1:
        return None, "H3"
    length = (values[b"content-length"] or [b"0"])[0]
    if not re.fullmatch(rb"[0-9]{1,19}", length):
        return None, "H3"
    if int(length) > MOST_BODY:
        return None, "H4"
    listed = [word.strip(b" \t").lower() for value in values[b"connection"] for word in value.split(b",")]
    return (first[1], first[2], int(length), first[3] == b"0" or b"close" in listed), None


def outcome(text):
    """How many messages are answered, the rule of the malformed place behind them if there is one, and the exit status."""
    messages, at = 0, 0
    while True:
        begin = at + len(text[at:]) - len(text[at:].lstrip(b"\r\n"))
        end = re.compile(rb"\n\r?\n").search(text, begin, at + MOST_HEAD)
        if not end:
            if len(text) - at >= MOST_HEAD:
                return messages, "H2", 3
            return messages, None, 2 if begin < len(text) else 0
        lines = [line.removesuffix(b"\r") for line in text[begin:end.end()].split(b"\n")][:-2]
        head, rule = head_of(lines)
        if rule:
            return messages, rule, 3
        if end.end() + head[2] > len(text):
            return messages, None, 2
        messages, at = messages + 1, end.end() + head[2]
        if head[3]:
            return messages, None, 0


def told(replies, status):
    """The same, as the program told it."""
    rule = None
    if replies and replies[-1][0] == "400" and (found := re.search(r'"rule":"(H[1-4])"', replies[-1][1])):
        rule = found[1]
    return len(replies) - (rule is not None), rule, status


def main():
    parser = argparse.ArgumentParser()
    parser.add_argument("--program")
    parser.add_argument("--runs", default=RUNS)
    said = parser.parse_args()
    words, lines = run_of(Path(said.runs).read_text(), DAY)
    requests = [request(line) for line in lines]
    text = b"".join(requests)
    heads = [at + place for at, whole in ((0, requests[0]), (len(requests[0]), requests[1]))
             for place in range(whole.index(b"\r\n\r\n") + 4)]
    cases = {f"{place}-{byte:02x}": (text[:place] + bytes([byte]) + text[place + 1:], []) for place in heads for byte in (0, 10)}
    words = words[3:]
    came = run_program(said.program, words, cases) if said.program else run_all(words, cases)
    sorts, wrong = collections.Counter(), []
    for name, (changed, _) in cases.items():
        due, found = outcome(changed), told(*came[name])
        sorts[due] += 1
        if due != found:
            wrong.append((name, due, found))
    for (messages, rule, status), count in sorted(sorts.items(), key=str):
        print(f"{count:4} texts: {messages} messages, then {rule or 'the end'}, status {status}")
    for name, due, found in wrong[:5]:
        print(f"WRONG at {name}: due {due}, told {found}")
    print(f"{len(cases)} texts with another byte in the first two heads, {len(wrong)} wrong")
    return 1 if wrong else 0


if __name__ == "__main__":
    sys.exit(main())
