#!/usr/bin/env python3
"""Measures incus_run over files of rows: a database of SQLite and a journal, side by side.

    bench/kept_rows.py [--program FILE] [--rows N] [--creations N] [--runs N]

The program is crates/incus_run/out/incus_run without `--program` (`bin/incus_run --prove` makes it).

1. A file of each kind gets N rows (65,536) without the program: volumes with a description and two settings, in one pool and in four
   projects; in the journal 1,024 of them are one record. Told are the bytes of the file a row, the time of `check`, which opens them, the
   shortest and the longest of a number of runs (3), and the most memory that it had.
2. N instances (2,000) are created in a project without limits, each waited for, in memory and then over each kind of file, by turns:
   creations a second, the most memory, and the bytes of the file, with its log, for each instance and for each commit of a journal.

It ends with status 1 where a command does not end well, or the file has other rows.
"""
import argparse
import os
import subprocess
import sys
import tempfile
import time
from pathlib import Path

TOP = Path(__file__).resolve().parent.parent
sys.dont_write_bytecode = True
sys.path.insert(0, str(TOP / "tests"))
import journal_reader  # noqa: E402
import row_entries  # noqa: E402

PROJECTS = ("default", "ant", "bee", "cat")
OWN = {"features.profiles": "true", "features.storage.volumes": "true"}


def volumes(count):
    """The project `default` stands in a new file."""
    for name in PROJECTS[1:]:
        yield row_entries.project(name, OWN)
        yield row_entries.profile(f"{name}/default")
    yield row_entries.pool("tank")
    for at in range(count):
        config = {"size": f"{at % 9 + 1}GiB", "user.number": str(at)}
        yield row_entries.volume(f"{PROJECTS[at % len(PROJECTS)]}/tank/v{at:05}", config, f"the volume of number {at}", 1_764_000_000 + at)


KINDS = {"database": ("--db", row_entries.write), "journal": ("--journal", row_entries.add_records)}


def size_of(file):
    return sum(name.stat().st_size for name in (file, Path(f"{file}-wal")) if name.exists())


def run(program, *words, requests=b""):
    """The seconds that a run took, the megabytes that it had at most, and what it wrote."""
    with tempfile.TemporaryFile() as given, tempfile.TemporaryFile() as written:
        given.write(requests)
        given.seek(0)
        began = time.monotonic()
        with subprocess.Popen([program, *map(str, words)], stdin=given, stdout=written) as ran:
            _, status, used = os.wait4(ran.pid, 0)
            ran.returncode = os.waitstatus_to_exitcode(status)
        took = time.monotonic() - began
        if ran.returncode != 0:
            sys.exit(f"{words}: status {ran.returncode}")
        written.seek(0)
        return took, used.ru_maxrss / 1024, written.read()


def show_opening(program, folder, count, runs):
    for kind, (word, write) in KINDS.items():
        file = Path(folder, f"many.{kind}")
        run(program, "run", word, file)
        write(file, list(volumes(count)))
        times, most = [], 0
        for _ in range(runs):
            took, memory, told = run(program, "check", word, file)
            times.append(took)
            most = max(most, memory)
            if f"volumes {count}".encode() not in told.splitlines():
                sys.exit(f"the file has other rows: {told}")
        print(f"{kind}: opening of {count} volumes in {len(PROJECTS)} projects: {min(times):.2f} to {max(times):.2f} s, "
              f"{most:.0f} MB; {size_of(file) / count:.0f} bytes of the file a row")


def stream(*words):
    return subprocess.run([TOP / "bench/stream.py", *map(str, words)], capture_output=True, check=True).stdout


def create(program, requests, count, *words):
    """Creates so many instances one after the other, each waited for: seconds and megabytes."""
    took, memory, written = run(program, "run", "--now", 0, "--boot", 0, *words, requests=requests)
    if written.count(b"HTTP/1.1 202 ") != count or b'"error_code"' in written:
        sys.exit(f"not all of {count} instances were created")
    return took, memory


def show_creations(program, folder, count, runs):
    requests = stream("tenant", "lab") + stream("made", "lab", 1, count, 1)
    took, memory = create(program, requests, count)
    print(f"{count} creations in memory, each with a wait: {took:.2f} s, {count / took:.0f} a second, {memory:.0f} MB")
    taken = {kind: [] for kind in KINDS}
    for at in range(runs):
        for kind, (word, _) in KINDS.items():
            file = Path(folder, f"made{at}.{kind}")
            taken[kind].append((*create(program, requests, count, word, file), file))
    for kind, told in taken.items():
        took, memory, file = min(told)
        print(f"the same over a {kind}: {took:.2f} to {max(told)[0]:.2f} s, {count / took:.0f} a second at best, {memory:.0f} MB; "
              f"{size_of(file) / count:.0f} bytes for each instance")
    records = journal_reader.records_of(taken["journal"][0][2].read_bytes())
    print(f"the journal has {len(records)} commits, of {size_of(taken['journal'][0][2]) / len(records):.0f} bytes each")


def main():
    parser = argparse.ArgumentParser()
    parser.add_argument("--program", default=TOP / "crates/incus_run/out/incus_run")
    parser.add_argument("--rows", type=int, default=65_536)
    parser.add_argument("--creations", type=int, default=2_000)
    parser.add_argument("--runs", type=int, default=3)
    arguments = parser.parse_args()
    program = Path(arguments.program).resolve()
    if not program.exists():
        sys.exit(f"there is no program {program}: bin/incus_run --prove makes it")
    with tempfile.TemporaryDirectory() as folder:
        show_opening(program, folder, arguments.rows, arguments.runs)
        show_creations(program, folder, arguments.creations, arguments.runs)


main()
