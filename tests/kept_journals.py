#!/usr/bin/env python3
"""Hands the programs files that are no journal of theirs, and journals that are cut short, and reads those that they make.

    tests/kept_journals.py [--program FILE] [--server FILE] [--foreign N] [--seed N]

The programs are crates/incus_run/out/incus_run and crates/incusd/out/incusd without these words (`bin/incus_run --prove` and
`bin/incusd --prove` make them).

1. N foreign files (300): each ends the program with status 6, nothing on standard output and one sentence on standard error, and stays
   as it was, byte for byte. So do a folder, a missing one, a file that may only be read, one that nothing stands at for `check`, and one
   that another program keeps its rows in.
2. A journal of a session: the rows that the reader beside this test finds in it are those of `GET`.
3. The same journal cut at every byte of its last three records. Where the gate of the record that is cut is closed, as a crash leaves it,
   the program opens the commits before it; where it is open, the program ends with status 6 and tells the byte of the record.

It ends with status 1 where something is otherwise.
"""
import argparse
import datetime
import json
import os
import random
import shutil
import socket
import subprocess
import sys
import tempfile
from pathlib import Path

sys.dont_write_bytecode = True
import journal_reader  # noqa: E402
import row_entries  # noqa: E402

TOP = Path(__file__).resolve().parent.parent
NO_JOURNAL = "the file is not a journal"
NEWER = "the journal is of a newer version"
IN_USE = "the journal is in use"
MISSING = "there is no such file, or it is empty"
NEW_TAKEN = "the journal can't be made: another file has its name with .new behind it"
FAILED = "the file could not be opened, read or written"
HEADER = journal_reader.HEADER
FRESH = HEADER + b"\0"
LISTS = {
    "project": "/1.0/projects", "profile": "/1.0/profiles", "network": "/1.0/networks", "pool": "/1.0/storage-pools",
    "volume": "/1.0/storage-pools/p0/volumes/custom", "instance": "/1.0/instances", "snapshot": "/1.0/instances/a/snapshots",
}
SESSION = [
    ("POST", "/1.0/storage-pools", {"driver": "dir", "name": "p0", "description": "disks"}),
    ("POST", "/1.0/networks", {"name": "n0", "config": {"user.a": "b"}}),
    ("PUT", "/1.0/profiles/default", {"devices": {"root": {"path": "/", "pool": "p0", "type": "disk"}}, "config": {"user.c": "d"}}),
    ("POST", "/1.0/storage-pools/p0/volumes/custom", {"name": "v", "config": {"size": "1GiB"}}),
    ("POST", "/1.0/instances", {"name": "a", "source": {"type": "none"}, "description": "first", "config": {"user.e": "é"}}),
    ("POST", "/1.0/instances", {"name": "b", "source": {"type": "none"}}),
    ("POST", "/1.0/instances/a/snapshots", {"name": "s"}),
    ("DELETE", "/1.0/instances/b", None),
    ("POST", "/1.0/projects", {"name": "lab", "description": "a project"}),
    ("PATCH", "/1.0/projects/lab", {"config": {"user.f": "g"}}),
]
faults = []


def need(holds, what):
    if not holds:
        faults.append(what)


def message(method, target, body=None):
    spelt = b"" if body is None else json.dumps(body).encode()
    return f"{method} {target} HTTP/1.1\r\nHost: localhost\r\nContent-Length: {len(spelt)}\r\n\r\n".encode() + spelt


def run(program, file, *words, asked=b"", nobody=False):
    ran = subprocess.run([program, *words, "--journal", str(file)], input=asked, capture_output=True, check=False,
                         preexec_fn=as_nobody if nobody else None)
    return ran.returncode, ran.stdout, ran.stderr.decode()


def as_nobody():
    """For root every file may be written to, so the program is run by nobody."""
    if os.getuid() == 0:
        os.setgroups([])
        os.setgid(65534)
        os.setuid(65534)


def need_refused(program, file, sentence, *words, nobody=False):
    """The program ends with status 6 and this sentence, and each file beside is as it was."""
    before = contents(file.parent)
    ran = run(program, file, *(words or ("run",)), nobody=nobody)
    need(ran == (6, b"", f"incus_run: {file}: {sentence}\n"), f"{file.name} {words}: {ran}; due: {sentence}")
    need(contents(file.parent) == before, f"{file.name} {words}: the files have changed")


def contents(folder):
    return {name.name: name.read_bytes() for name in folder.iterdir() if name.is_file()} if folder.is_dir() else {}


# ---- foreign files

def foreign_files(chance, count):
    """Files that are no journal of this version, each with the sentence that refuses it."""
    yield from ((each, NO_JOURNAL) for each in (
        b"x", HEADER[:-1], b"incus journal 0\n\0", b"incus journal x\n\0", b"incus journal  \n\0", b"incus journal 1\r\n\0",
        b"incus journal 02\n", b"incus journal 1 \n", b"Incus journal 1\n\0", b"incus journal -1\n", b"\xef\xbb\xbf" + FRESH,
        b"SQLite format 3\0" + bytes(4096), b"PK\3\4" + bytes(1000), b"\0" * 17, b"\1" + bytes(60), b"\n" + FRESH))
    yield from ((each, NEWER) for each in (b"incus journal 2\n\0", b"incus journal 9\n\1\2\3", b"incus journal 10\n", b"incus journal 99"))
    for _ in range(count - 20):
        size = chance.choice((1, 15, 16, 17, 51, 400, 70_000))
        kind = chance.random()
        if kind < 0.4:
            yield chance.randbytes(size).replace(b"incus journal ", b""), NO_JOURNAL
        elif kind < 0.7:
            yield "".join(chance.choice("bread, milk\n") for _ in range(size)).encode(), NO_JOURNAL
        else:
            changed = bytearray(FRESH + chance.randbytes(size))
            changed[chance.randrange(14)] ^= 1 << chance.randrange(8)
            yield bytes(changed), NO_JOURNAL


def try_foreign(program, folder, count, chance):
    for at, (content, sentence) in enumerate(foreign_files(chance, count)):
        file = folder / f"foreign{at}"
        file.mkdir()
        file = file / "rows"
        file.write_bytes(content)
        need_refused(program, file, sentence, *chance.choice((("run",), ("check",), ("drill", "7", "4"))))


def try_other_places(program, folder):
    (folder / "places").mkdir()
    folder = folder / "places"
    (folder / "folder").mkdir()
    need_refused(program, folder / "folder", NO_JOURNAL)
    need_refused(program, folder / "missing/rows", FAILED)
    need_refused(program, folder / "nothing", MISSING, "check")
    (folder / "empty").touch()
    need_refused(program, folder / "empty", MISSING, "check")
    (folder / "other.new").write_bytes(b"bread, milk\n")
    need_refused(program, folder / "other", NEW_TAKEN)
    readable = folder / "readable"
    readable.write_bytes(FRESH)
    readable.chmod(0o444)
    need_refused(program, readable, FAILED, nobody=True)
    # What is left of a journal that was being made is taken up, and an empty file is made one.
    for name, left in (("begun", HEADER[:5]), ("zeros", bytes(17)), ("whole", FRESH)):
        (folder / f"{name}.new").write_bytes(left)
        need_made(program, folder / name)
        need(not (folder / f"{name}.new").exists(), f"{name}.new is left")
    need_made(program, folder / "empty")


def need_made(program, file):
    status, _, said = run(program, file, "run")
    need(status == 0 and not said, f"{file.name} is not made: {status}, {said}")
    need(journal_reader.records_of(file.read_bytes()), f"{file.name} has no commits")


def try_in_use(program, server, folder):
    file = folder / "used/rows"
    file.parent.mkdir()
    with socket.socket() as probe:
        probe.bind(("127.0.0.1", 0))
        port = str(probe.getsockname()[1])
    words = [server, "--port", port, "--journal", str(file)]
    with subprocess.Popen(words, stdout=subprocess.DEVNULL, stderr=subprocess.PIPE) as first:
        need(b"listening" in first.stderr.readline(), "the first server doesn't listen")
        with socket.socket() as probe:
            probe.bind(("127.0.0.1", 0))
            words[2] = str(probe.getsockname()[1])
        second = subprocess.run(words, capture_output=True, check=False, timeout=600)
        due = (6, f"incusd: {file}: {IN_USE}\n")
        need((second.returncode, second.stderr.decode()) == due, f"a second server: {second}")
        for words in (("run",), ("check",), ("drill", "7", "4")):
            need_refused(program, file, IN_USE, *words)
        first.kill()
    need(run(program, file, "check")[0] == 0, "the journal is not opened after its server was killed")


# ---- what a journal has

def replies_of(written):
    found, at = [], 0
    while (end := written.find(b"\r\n\r\n", at)) >= 0:
        head = written[at:end].split(b"\r\n")
        length = next(int(line.split(b":")[1]) for line in head if line.startswith(b"Content-Length"))
        found.append(json.loads(written[end + 4:end + 4 + length]))
        at = end + 4 + length
    return found


def seconds(moment):
    return int(datetime.datetime.fromisoformat(moment.replace("Z", "+00:00")).timestamp())


def entry_of(kind, row):
    """The entry of a row as `GET` shows it, spelt by this test."""
    said = {"config": row["config"], "description": row.get("description", "")}
    name = row["name"]
    if kind == "project":
        return row_entries.project(name, said["config"], said["description"])
    if kind == "profile":
        return row_entries.profile(f"default/{name}", said["config"], row["devices"], said["description"])
    if kind == "network":
        return row_entries.network(f"default/{name}", **said)
    if kind == "pool":
        return row_entries.pool(name, **said)
    if kind == "volume":
        return row_entries.volume(f"default/p0/{name}", **said, created=seconds(row["created_at"]))
    if kind == "instance":
        return row_entries.instance(f"default/{name}", row["config"], row["devices"], row["profiles"], description=row["description"],
                                    created=seconds(row["created_at"]))
    return row_entries.snapshot(f"default/a/{name}", row["config"], row["devices"], row["profiles"], created=seconds(row["created_at"]))


def make_session(program, file):
    asked = b"".join(message(*each) for each in SESSION)
    status, written, said = run(program, file, "run", "--now", "1764000000", asked=asked)
    codes = [int(line[9:12]) for line in written.split(b"\n") if line.startswith(b"HTTP/1.1 ")]
    need(status == 0 and not said and all(code in (200, 202) for code in codes), f"the session: {status}, {codes}, {said}")


def try_reader(program, file):
    """The rows of the reader are those of `GET`."""
    asked = b"".join(message("GET", f"{path}?recursion=1") for path in LISTS.values())
    status, written, said = run(program, file, "run", asked=asked)
    need(status == 0, f"the lists: {status}, {said}")
    rows = {}
    for kind, reply in zip(LISTS, replies_of(written)):
        for row in reply["metadata"]:
            number, key, body = entry_of(kind, row)
            rows[number, key] = body
    found = journal_reader.rows_after(journal_reader.records_of(file.read_bytes()))
    found = {place: body for place, body in found.items() if not place[1].startswith("lab/")}
    differing = {place for place in rows | found if rows.get(place) != found.get(place)}
    need(not differing, f"the reader and GET differ: {[(place, rows.get(place), found.get(place)) for place in differing]}")
    return len(rows)


def counts_of(records):
    """What `check` prints of the rows that these records leave."""
    kinds = [kind for kind, _ in journal_reader.rows_after(records)]
    names = ("projects", "profiles", "networks", "pools", "volumes", "instances", "snapshots")
    return [f"{name} {kinds.count(number)}" for number, name in enumerate(names, 1)]


def try_cuts(program, file):
    whole = file.read_bytes()
    records = journal_reader.records_of(whole)
    places = [begin for begin, _ in records]
    behind = places[1:] + [len(whole) - 1]
    cut = file.with_name("cut")
    for end in range(places[-3] + 1, len(whole)):
        # A record is whole with the gate behind it.
        kept = sum(gate < end for gate in behind)
        cut.write_bytes(whole[:end])
        need_refused(program, cut, f"the record at byte {places[kept]} of the journal is damaged", "check")
        cut.write_bytes(whole[:places[kept]] + b"\0" + whole[places[kept] + 1:end])
        need_opened(program, cut, records[:kept], end)
    need_opened(program, file, records, len(whole))
    return len(whole) - 1 - places[-3]


def need_opened(program, file, records, end):
    status, written, said = run(program, file, "check")
    due = counts_of(records)
    need(status == 0 and written.decode().splitlines()[:7] == due, f"cut at {end}: {status}, {written}, {said}; due: {due}")


def main():
    words = argparse.ArgumentParser()
    words.add_argument("--program", default=TOP / "crates/incus_run/out/incus_run")
    words.add_argument("--server", default=TOP / "crates/incusd/out/incusd")
    words.add_argument("--foreign", type=int, default=300)
    words.add_argument("--seed", type=int, default=7)
    said = words.parse_args()
    program, server = Path(said.program).resolve(), Path(said.server).resolve()
    for each in (program, server):
        if not each.exists():
            sys.exit(f"there is no program {each}: bin/{each.name} --prove makes it")
    with tempfile.TemporaryDirectory() as top:
        os.chmod(top, 0o755)
        folder, program = Path(top), Path(shutil.copy(program, Path(top, "program")))
        program.chmod(0o755)
        try_foreign(program, folder, said.foreign, random.Random(said.seed))
        print(f"{said.foreign} foreign files refused")
        try_other_places(program, folder)
        try_in_use(program, server, folder)
        print("other places, and a journal in use")
        file = folder / "made/session"
        file.parent.mkdir()
        make_session(program, file)
        print(f"the reader finds the {try_reader(program, file)} rows of GET in {file.stat().st_size} bytes")
        print(f"{try_cuts(program, file)} cuts of the last three records")
    for fault in faults:
        print(fault)
    print(f"{len(faults)} faults")
    sys.exit(1 if faults else 0)


main()
