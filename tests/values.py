#!/usr/bin/env python3
"""Asks incus_run for options with the values of incus_values.tsv, and compares what it takes with what Incus' daemon took.

    tests/values.py [--program FILE] [--show]

The program is crates/incus_run/out/incus_run without `--program` (`bin/incus_run --prove` makes it). Each value is set by a request of its
own: in a new profile, with a device for the options of devices, in a new project, or in a volume. Each difference has to be one of
incus_differences.tsv with the table `value`, which gives the reason, and each of those has to be there still. One whose reason is `not
decided` is told each time. `--show` prints all.
It ends with status 1 where something is otherwise.
"""
import argparse
import json
import subprocess
import sys
from pathlib import Path

sys.dont_write_bytecode = True
import tables  # noqa: E402

DEVICES = {
    "disk": {"type": "disk", "path": "/", "pool": "p0"}, "nic": {"type": "nic", "nictype": "p2p"}, "gpu": {"type": "gpu"},
    "proxy": {"type": "proxy", "listen": "tcp:127.0.0.1:5", "connect": "tcp:127.0.0.1:6"}, "unix": {"type": "unix-char", "path": "/dev/x"},
    "usb": {"type": "usb"},
}
POOL = ("POST", "/1.0/storage-pools", {"driver": "dir", "name": "p0"})
VOLUMES = "/1.0/storage-pools/p0/volumes/custom"
# By these rules a setting is refused.
REFUSALS = ("V1", "V2", "V3")


def message(method, target, body=None):
    text = json.dumps(body).encode() if body is not None else b""
    return f"{method} {target} HTTP/1.1\r\nHost: localhost\r\nContent-Length: {len(text)}\r\n\r\n".encode() + text


def requests_of(table, key, value):
    """The request that sets a value, and the one that takes away what it made."""
    if table == "volume":
        return ("POST", VOLUMES, {"name": "v", "config": {key: value}}), ("DELETE", f"{VOLUMES}/v", None)
    if table == "project":
        return ("POST", "/1.0/projects", {"name": "t", "config": {key: value}}), ("DELETE", "/1.0/projects/t", None)
    body = {"devices": {"d": {**DEVICES[table], key: value}}} if table in DEVICES else {"config": {key: value}}
    return ("POST", "/1.0/profiles", {"name": "t", **body}), ("DELETE", "/1.0/profiles/t", None)


def replies_in(text):
    """The status and the value of each reply."""
    while text:
        head, rest = text.split(b"\r\n\r\n", 1)
        length = next(int(line.split(b":")[1]) for line in head.split(b"\r\n") if line.lower().startswith(b"content-length"))
        yield int(head.split()[1]), json.loads(rest[:length])
        text = rest[length:]


def judged(row, reply):
    """Whether a value was taken or refused."""
    status, told = reply
    if status == 200:
        return "taken"
    if status == 400 and told["metadata"].get("rule") in REFUSALS:
        return "refused"
    raise SystemExit(f"{row}: {status}, {told}")


def main():
    words = argparse.ArgumentParser()
    words.add_argument("--program", default=str(tables.CRATES / "incus_run/out/incus_run"))
    words.add_argument("--show", action="store_true")
    said = words.parse_args()
    if not Path(said.program).exists():
        sys.exit(f"there is no program {said.program}: bin/incus_run --prove makes it")
    rows = list(tables.data("incus_values.tsv"))
    asked = [message(*POOL)]
    for row in rows:
        asked += [message(*request) for request in requests_of(row["table"], row["key"], row["value"])]
    ran = subprocess.run([said.program, "run", "--now", "1", "--boot", "1"], input=b"".join(asked), capture_output=True, check=True)
    replies = list(replies_in(ran.stdout))
    if len(replies) != len(asked):
        sys.exit(f"{len(replies)} replies to {len(asked)} requests")
    reasons, differences, wrong = tables.Reasons(), 0, 0
    for place, row in enumerate(rows):
        ours = judged(row, replies[2 * place + 1])
        if ours == row["incusd"]:
            continue
        differences += 1
        reason = reasons.of(("value", f"{row['table']} {row['key']}", ours, row["value"]))
        if said.show:
            print("\t".join((row["table"], row["key"], row["value"], ours, reason or "?")))
        if reason and reason.startswith("not decided"):
            print(f"{reason}: {row['table']} {row['key']} = {row['value']!r}: {ours} here")
        if reason is None:
            wrong += 1
            print(f"unexplained: {row['table']} {row['key']} = {row['value']!r}: {ours} here, and {row['incusd']} by incusd")
    for row in reasons.unmet({"value"}):
        wrong += 1
        print(f"no longer so: {row['key']} = {row['said']!r}: {row['what']}")
    print(f"{len(rows)} values, {differences} differences, {wrong} unexplained")
    return 1 if wrong else 0


if __name__ == "__main__":
    sys.exit(main())
