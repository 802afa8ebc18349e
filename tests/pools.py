#!/usr/bin/env python3
"""Tries what a project's limits on storage pools count while operations live and after they ended, by `incus_run`.

Usage: tests/pools.py [--program FILE]

The program is crates/incus_run/out/incus_run without `--program` (`bin/incus_run --prove` makes it). Runs with `--steps 0`, in which an
operation waits until it is waited for: a root disk that goes from one pool to another counts on both until then, by an update and by a
restore, and on the old one alone where the host fails; a copy of a volume counts where it is made; and a profile that two projects use is
judged in both. It ends with status 1 where something is otherwise.
"""
import argparse
import json
import pathlib
import subprocess
import sys

GIB = 1 << 30
POOLS = [("POST", "/1.0/storage-pools", {"name": pool, "driver": "dir"}) for pool in ("p0", "p1")]
STATE = ("GET", "/1.0/projects/lab/state", None)


def root_on(pool):
    return {"root": {"type": "disk", "path": "/", "pool": pool, "size": "1GiB"}}


def wait(number, project="lab"):
    return ("GET", f"/1.0/operations/00000000-0001-8000-8000-{number:012x}/wait?project={project}", None)


MOVED = ("PUT", "/1.0/instances/a?project=lab", {"devices": root_on("p1"), "profiles": ["default"]})
LAB = [
    *POOLS,
    ("POST", "/1.0/projects", {"name": "lab", "config": {"limits.disk.pool.p0": "1GiB", "limits.disk.pool.p1": "1GiB", "limits.disk": "9GiB"}}),
    ("PUT", "/1.0/profiles/default?project=lab", {"devices": root_on("p0")}),
    ("POST", "/1.0/instances?project=lab", {"name": "a", "source": {"type": "none"}}), wait(1),
]
VOLUMES = "/1.0/storage-pools/p1/volumes?project=lab"


def text_of(requests):
    text = b""
    for method, target, body in requests:
        sent = json.dumps(body).encode() if body is not None else b""
        text += f"{method} {target} HTTP/1.1\r\nHost: localhost\r\nContent-Length: {len(sent)}\r\n\r\n".encode() + sent
    return text


def replies_of(program, requests, *words):
    """The codes and the bodies of the replies."""
    ran = subprocess.run([program, "run", "--now", "0", "--boot", "1", *words], input=text_of(requests), capture_output=True, timeout=60, check=False)
    text, replies = ran.stdout, []
    while text:
        head, _, rest = text.partition(b"\r\n\r\n")
        length = next(int(line.split(b":")[1]) for line in head.split(b"\r\n") if line.lower().startswith(b"content-length"))
        replies.append((int(head.split()[1]), json.loads(rest[:length])))
        text = rest[length:]
    return replies


def used(reply):
    """What the state of a project says of its disk: in all, on `p0`, on `p1`."""
    told = reply[1]["metadata"].get("resources", reply[1]["metadata"])
    return tuple(told[key]["usage"] // GIB if key in told else None for key in ("disk", "disk.pool.p0", "disk.pool.p1"))


def moved(program):
    replies = replies_of(program, [*LAB, MOVED, STATE, wait(2), STATE], "--steps", "0")
    return [replies[6][0], used(replies[7]), used(replies[9])], [202, (1, 1, 1), (1, 0, 1)]


def moved_in_vain(program):
    replies = replies_of(program, [*LAB, MOVED, STATE, wait(2), STATE], "--steps", "0", "--fail-host", "3")
    status = replies[8][1]["metadata"]["status"]
    return [used(replies[7]), status, used(replies[9])], [(1, 1, 1), "Failure", (1, 1, 0)]


def restored(program):
    snapshot, restore = ("POST", "/1.0/instances/a/snapshots?project=lab", {"name": "s"}), ("PUT", "/1.0/instances/a?project=lab", {"restore": "s"})
    replies = replies_of(program, [*LAB, snapshot, wait(2), MOVED, wait(3), STATE, restore, STATE, wait(4), STATE], "--steps", "0")
    return [used(replies[10]), used(replies[12]), used(replies[14])], [(1, 0, 1), (1, 1, 1), (1, 1, 0)]


def copied(program):
    volume, copy = ("POST", VOLUMES, {"name": "v", "config": {"size": "512MiB"}}), {"type": "copy", "name": "v"}
    more = [("POST", VOLUMES, {"name": name, "source": copy}) for name in ("w", "x")]
    instance = ("POST", "/1.0/instances?project=lab", {"name": "b", "source": {"type": "copy", "source": "a"}})
    replies = replies_of(program, [*LAB, volume, more[0], STATE, wait(2), STATE, more[1], instance], "--steps", "0")
    keys = [reply[1]["metadata"].get("key") for reply in replies[11:]]
    return [used(replies[8]), used(replies[10]), keys], [(2, 1, 1), (2, 1, 1), ["limits.disk.pool.p1", "limits.disk.pool.p0"]]


def shared(program):
    own = {"features.profiles": "false"}
    change = ("PUT", "/1.0/profiles/default", {"devices": root_on("p1")})
    create = [("POST", f"/1.0/instances?project={name}", {"name": "a", "source": {"type": "none"}}) for name in ("lab", "den")]
    replies = replies_of(program, [
        *POOLS, ("PUT", "/1.0/profiles/default", {"devices": root_on("p0")}),
        ("POST", "/1.0/projects", {"name": "lab", "config": own | {"limits.disk.pool.p1": "1GiB"}}),
        ("POST", "/1.0/projects", {"name": "den", "config": own | {"limits.disk.pool.p1": "0"}}),
        create[0], wait(1), create[1], wait(2, "den"), change,
        ("PATCH", "/1.0/projects/den", {"config": {"limits.disk.pool.p1": "1GiB"}}), change, STATE,
    ])
    refusal = replies[9][1]["metadata"]
    return [replies[9][0], refusal["rule"], refusal["project"], replies[11][0], used(replies[12])], [403, "L9", "den", 200, (1, None, 1)]


def main():
    top = pathlib.Path(__file__).resolve().parent.parent
    words = argparse.ArgumentParser(description=__doc__, formatter_class=argparse.RawDescriptionHelpFormatter)
    words.add_argument("--program", default=str(top / "crates/incus_run/out/incus_run"))
    said = words.parse_args()
    wrong = 0
    for check in (moved, moved_in_vain, restored, copied, shared):
        seen, due = check(said.program)
        wrong += seen != due
        print(f"{check.__name__}: {seen}" + ("" if seen == due else f", and {due} is due"))
    sys.exit(1 if wrong else 0)


main()
