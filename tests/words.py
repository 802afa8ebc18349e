#!/usr/bin/env python3
"""Runs incus_run with the words of each command, and with words that are not read; one line for each check.

    tests/words.py [--program FILE]

The program is crates/incus_run/out/incus_run without `--program` (`bin/incus_run --prove` makes it).

1. `not read`: status 8, nothing on standard output, and all four commands on standard error.
2. `questions`: `--help` and `--version` end with status 0.
3. `make`: the bytes that `bench/stream.py instances` writes, which shares no code with the program.
4. `drill`, `check`: 40 creations in memory and over a database and a journal, of which a project takes 32; what is kept of them, and that
   by then no share is held. The shell `sqlite3` reads each row of the file, where it is installed.
5. `run`: two runs over one file of each kind; and a file in a folder that is missing, which ends with status 6, as does `check` of a
   journal that is missing.
6. a terminal as standard error: a drill tells there how many of its requests are answered, where few of the creations become instances and
   where all of them do; standard output is what it is without one, and `make` and `run` tell nothing.

It ends with status 1 where something is otherwise.
"""
import argparse
import os
import pty
import select
import shutil
import subprocess
import sys
import tempfile
from pathlib import Path

TOP = Path(__file__).resolve().parent.parent
REQUEST = b'POST /1.0/projects HTTP/1.1\r\nHost: localhost\r\nContent-Length: 14\r\n\r\n{"name":"lab"}'
COMMANDS = ("run [", "make SEED COUNT", "drill SEED COUNT", "check [")
NOT_READ = [
    [], ["help"], ["-h"], ["--help", "run"], ["run", "--help"], ["runs"], ["run", "run"], ["run", "--"], ["run", "--steps", "x"], ["run", "--now"],
    ["run", "--now", "1", "--now=1"], ["run", "-s", "1"], ["run", "--now", "-1"], ["run", "--fail-host=0"], ["run", "--steps=01"],
    ["run", "--db=rows", "--fail-keeper=1"], ["run", "--journal=rows", "--fail-keeper=1"], ["run", "--db=rows", "--journal=other"],
    ["drill", "7", "40", "--journal=a", "--db=b"], ["check", "--journal="], ["check", "--journal", "a", "--db", "a"], ["make"], ["make", "7"], ["make", "7", "10001"], ["make", "+7", "40"],
    ["drill", "7", "40", "--now=1"], ["drill", "7", "40", "--db="], ["check", "--db"], ["check", "check"], ["--db=rows", "check"],
]
COUNTS = "projects 2\nprofiles 2\nnetworks 0\npools 1\nvolumes 0\ninstances 32\nsnapshots 0\n"
NONE = "0 0 0 0 0 0 0"
MADE = "32 32 0 77 19662897152 15400 343597383680"
REPLIES = "requests 43\nreplies 200 3\nreplies 202 32\nreplies 403 8\n"
DRILLED = f"{REPLIES}{COUNTS}granted {MADE}\nconverted {MADE}\nreturned {NONE}\nheld {NONE}\n"
CHECKED = f"{COUNTS}granted {NONE}\nconverted {NONE}\nreturned {NONE}\nheld {NONE}\n"
LONGEST = 600  # seconds that a run may take, or be silent at a terminal


class Wrong(Exception):
    """Something is otherwise than it has to be."""


def need(holds, what):
    if not holds:
        raise Wrong(what)


def run(program, words, text=b""):
    ran = subprocess.run([program, *words], input=text, capture_output=True, check=False, timeout=LONGEST)
    return ran.returncode, ran.stdout, ran.stderr.decode()


def read_terminal(leader):
    """What is written on a terminal until nobody has it open any more."""
    said = b""
    while select.select([leader], [], [], LONGEST)[0]:
        try:
            said += os.read(leader, 65536)
        except OSError:
            return said.decode().replace("\r\n", "\n")
    raise Wrong(f"the program goes on, and has told {said} at its terminal")


def run_at_terminal(program, words, text=b""):
    """Runs the program with a terminal as its standard error; its status, and what it writes on both outputs."""
    leader, follower = pty.openpty()
    try:
        with tempfile.TemporaryFile() as given, tempfile.TemporaryFile() as written:
            given.write(text)
            given.seek(0)
            with subprocess.Popen([program, *words], stdin=given, stdout=written, stderr=follower) as ran:
                os.close(follower)
                try:
                    said = read_terminal(leader)
                except Wrong:
                    ran.kill()
                    raise
            written.seek(0)
            return ran.returncode, written.read(), said
    finally:
        os.close(leader)


def need_run(program, words, due, text=b""):
    """The words end with status 0, and this is written."""
    status, written, said = run(program, words, text)
    need((status, written, said) == (0, due, ""), f"{words}: status {status}, {written[:2000]}, {said}; due: {due[:2000]}")


def not_read(program, folder):
    for words in NOT_READ:
        status, written, said = run(program, words, REQUEST)
        need(status == 8 and not written and all(each in said for each in COMMANDS), f"{words}: status {status}, {written}, {said}")
    need(not any(folder.iterdir()), f"files were made: {list(folder.iterdir())}")
    return f"{len(NOT_READ)} lists of words"


def questions(program, _):
    status, written, said = run(program, ["--help"])
    need(status == 0 and all(each.encode() in written for each in COMMANDS) and not said, f"--help: status {status}, {written}, {said}")
    need_run(program, ["--version"], b"incus_run 0.1.0\n")
    return "status 0, and an answer on standard output"


def make(program, _):
    sizes = []
    for seed, count in ((0, 0), (7, 40), (2 ** 64 - 1, 100)):
        due = subprocess.run([TOP / "bench/stream.py", "instances", str(count), str(seed)], capture_output=True, check=True).stdout
        need_run(program, ["make", str(seed), str(count)], due)
        sizes.append(len(due))
    return f"{' and '.join(map(str, sizes))} bytes"


def drill(program, folder):
    file = folder / "drill.db"
    need_run(program, ["drill", "7", "40"], DRILLED.encode())
    need_run(program, ["drill", "7", "40", "--db", str(file)], DRILLED.encode())
    need_run(program, ["check", "--db", str(file)], CHECKED.encode())
    need_run(program, ["check", f"--db={file}"], CHECKED.encode())
    journal = folder / "drill.journal"
    need_run(program, ["drill", "7", "40", "--journal", str(journal)], DRILLED.encode())
    need_run(program, ["check", f"--journal={journal}"], CHECKED.encode())
    return f"the file has the rows of the drill, {read_by_shell(file)}"


def read_by_shell(file):
    """Reads the rows of the file as a person may."""
    if not shutil.which("sqlite3"):
        return "and was not read by `sqlite3`, which is not installed"
    ran = subprocess.run(["sqlite3", str(file), "SELECT kind, key, hex(body) FROM records ORDER BY kind, key"],
                         capture_output=True, text=True, check=True)
    rows = [line.split("|") for line in ran.stdout.splitlines()]
    kinds = [int(kind) for kind, _, _ in rows]
    need([kinds.count(kind) for kind in range(1, 8)] == [2, 2, 0, 1, 0, 32, 0], f"{ran.stdout}")
    need(["6", "lab/i7"] in [row[:2] for row in rows] and all(body.startswith("01") for _, _, body in rows), f"{ran.stdout}")
    return f"and `sqlite3` reads {len(rows)} of them"


def two_runs(program, folder):
    for word in ("--db", "--journal"):
        for due in (b"HTTP/1.1 200 OK", b"HTTP/1.1 409 Conflict"):
            status, written, said = run(program, ["run", word, str(folder / f"run{word}")], REQUEST)
            need(status == 0 and written.startswith(due) and not said, f"{word}: status {status}, {written}, {said}; due: {due}")
        status, written, said = run(program, ["run", word, str(folder / "none/run")], REQUEST)
        need(status == 6 and not written and "none/run" in said, f"{word}, a missing folder: status {status}, {written}, {said}")
    status, written, said = run(program, ["check", "--journal", str(folder / "none")])
    need(status == 6 and not written and "there is no such file" in said, f"a missing journal: status {status}, {written}, {said}")
    need(not (folder / "none").exists(), "check makes a journal")
    return "the second has the rows of the first; status 6 in a missing folder"


def need_told(program, words, told, due, text=b""):
    """The words end with status 0, write what they write without a terminal, and tell this at one."""
    status, written, said = run_at_terminal(program, words, text)
    need((status, written, said) == (0, due, told),
         f"{words} at a terminal: status {status}, {written[:2000]}, {said!r}; due: {due[:2000]}, {told!r}")


def terminal(program, folder):
    words = ["drill", "7", "2000"]
    status, written, said = run(program, words)
    need(status == 0 and written.startswith(b"requests 2003\nreplies 200 3\nreplies 202 32\n") and not said,
         f"{words}: status {status}, {written}, {said}")
    need_told(program, words, "incus_run: 1000 of 2003 requests\nincus_run: 2000 of 2003 requests\n", written)
    need_told(program, ["drill", "7", "40"], "", DRILLED.encode())
    _, stream, _ = run(program, ["make", "7", "1500"])
    need_told(program, ["make", "7", "1500"], "", stream)
    _, replies, _ = run(program, ["run", "--now", "1", "--boot", "1"], stream)
    need_told(program, ["run", "--now", "1", "--boot", "1"], "", replies, stream)
    return f"2 lines of 2003 requests; {all_made(program, folder)}"


def all_made(program, folder):
    """A drill over a project without limits, so that a worker makes an instance after each creation."""
    plain, told = folder / "plain.db", folder / "told.db"
    for file in (plain, told):
        need(run(program, ["run", "--db", str(file)], REQUEST)[0] == 0, "the project was not made")
    words = ["drill", "7", "1000", "--db"]
    status, written, said = run(program, [*words, str(plain)])
    need(status == 0 and b"replies 202 1000\n" in written and not said, f"{words}: status {status}, {written}, {said}")
    need_told(program, [*words, str(told)], "incus_run: 1000 of 1003 requests\n", written)
    return "1 line of 1003, of which 1000 make an instance"


def main():
    words = argparse.ArgumentParser()
    words.add_argument("--program", default=str(TOP / "crates/incus_run/out/incus_run"))
    program = Path(words.parse_args().program).resolve()
    if not program.exists():
        sys.exit(f"there is no program {program}: bin/incus_run --prove makes it")
    wrong = 0
    with tempfile.TemporaryDirectory() as folder:
        checks = {"not read": not_read, "questions": questions, "make": make, "drill, check": drill, "run": two_runs, "terminal": terminal}
        for name, check in checks.items():
            try:
                print(f"{name}: {check(program, Path(folder))}", flush=True)
            except (Wrong, subprocess.SubprocessError) as error:
                wrong += 1
                print(f"{name}: WRONG: {error!r}", flush=True)
    return 1 if wrong else 0


if __name__ == "__main__":
    sys.exit(main())
