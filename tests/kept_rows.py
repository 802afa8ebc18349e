#!/usr/bin/env python3
"""Kills incus_run over a file of rows at random moments, and compares what it then opens with what it had answered.

    tests/kept_rows.py [--journal] [--program FILE] [--server FILE] [--kills N] [--drills N] [--rows N] [--seed N] [--run-alone]

The program is crates/incus_run/out/incus_run without `--program` (`bin/incus_run --prove` makes it). The file is a database of SQLite, or
with `--journal` a journal.

1. N times (100): the program is started over one file, is sent one change after the other, each after the reply to the one before, and
   is killed by SIGKILL at a random moment. It is then opened again: every change that was answered has to be there, the one that was
   under way is there whole or not at all, and nothing else has changed. The stock SQLite finds the file sound; of a journal the reader
   beside this test reads the same rows. After a clean end the database file alone, copied without its log, has the same rows. With
   `--server` it is that program, `incusd`, which is started, asked over TCP and killed.
2. `drill 7 N` (10,000) over a new file, and then `check`, which has to print the same counts.
3. The same N times (20) over a new file each, killed by SIGKILL at a random moment: `check` then opens what a beginning of the drill made.
4. Of a database, N times (20): while a change is under way the program is stopped by SIGSTOP, the file and its log are copied, and it
   goes on. The copy opens with every change that was answered, and with the one under way whole or not at all.

With `--run-alone` the commands `drill` and `check` are not used. It ends with status 1 where something is otherwise.
"""
import argparse
import json
import random
import shutil
import signal
import socket
import sqlite3
import subprocess
import sys
import tempfile
import threading
import time
from pathlib import Path

sys.dont_write_bytecode = True
import journal_reader  # noqa: E402

TOP = Path(__file__).resolve().parent.parent
KINDS = ("projects", "profiles", "networks", "pools", "volumes", "instances", "snapshots")
WORDS = ["--now", "0", "--boot", "0"]


def request(method, target, body=None):
    text = b"" if body is None else json.dumps(body).encode()
    length = f"Content-Length: {len(text)}\r\n" if body is not None else ""
    return f"{method} {target} HTTP/1.1\r\nHost: localhost\r\n{length}\r\n".encode() + text


class Gone(Exception):
    """The program ended before its reply was whole."""


class Run:
    """The program over a file, asked one request at a time."""

    def __init__(self, program, *words):
        self.process = subprocess.Popen(
            [program, "run", *WORDS, *words], stdin=subprocess.PIPE, stdout=subprocess.PIPE, stderr=subprocess.PIPE)
        self.requests, self.replies = self.process.stdin, self.process.stdout

    def ask(self, method, target, body=None):
        try:
            self.requests.write(request(method, target, body))
            self.requests.flush()
            return self.reply()
        except (BrokenPipeError, ConnectionResetError) as error:
            raise Gone from error

    def reply(self):
        head = b""
        while not head.endswith(b"\r\n\r\n"):
            line = self.replies.readline()
            if not line:
                raise Gone
            head += line
        length = next(int(line.split(b":")[1]) for line in head.split(b"\r\n") if line.startswith(b"Content-Length"))
        text = self.replies.read(length)
        if len(text) < length:
            raise Gone
        return int(head.split()[1]), json.loads(text)

    def done(self, method, target, body=None):
        """Asks for a change, which has to be accepted, and waits for its operation if it has one."""
        status, reply = self.ask(method, target, body)
        if status == 202:
            status, reply = self.ask("GET", reply["operation"] + "/wait")
            if reply["metadata"]["status"] != "Success":
                sys.exit(f"{method} {target}: {reply}")
        elif status not in (200, 201):
            sys.exit(f"{method} {target}: {reply}")

    def end(self):
        self.requests.close()
        self.replies.read()
        said = self.process.stderr.read().decode()
        status = self.process.wait()
        if status != 0:
            sys.exit(f"the program ended with status {status}: {said}")

    def kill(self):
        self.process.send_signal(signal.SIGKILL)

    def reap(self):
        self.process.wait()
        for pipe in (self.requests, self.replies, self.process.stderr):
            try:
                pipe.close()
            except BrokenPipeError:
                pass


class Served(Run):
    """The server over a file, asked over one connection."""

    def __init__(self, program, *words):
        with socket.socket() as probe:
            probe.bind(("127.0.0.1", 0))
            port = probe.getsockname()[1]
        self.process = subprocess.Popen(
            [program, "--port", str(port), "--connections", "1", *words], stdin=subprocess.DEVNULL, stdout=subprocess.DEVNULL,
            stderr=subprocess.PIPE)
        if b"listening" not in self.process.stderr.readline():
            sys.exit(f"the server ended with status {self.process.wait()}: {self.process.stderr.read().decode()}")
        with socket.create_connection(("127.0.0.1", port)) as link:
            link.setsockopt(socket.IPPROTO_TCP, socket.TCP_NODELAY, 1)
            self.requests, self.replies = link.makefile("wb"), link.makefile("rb")
            self.link = link.dup()

    def end(self):
        self.link.shutdown(socket.SHUT_WR)
        super().end()


class Rows:
    """The descriptions of the instances and of the volumes that there are to be, by their names."""

    LISTS = {"instance": "/1.0/instances", "volume": "/1.0/storage-pools/tank/volumes/custom"}

    def __init__(self, chance):
        self.chance = chance
        self.there = {kind: {} for kind in self.LISTS}
        self.made = 0

    def next_change(self):
        """A change that can be made: its kind, its name, its request, and the description that it leaves, or None."""
        kind = self.chance.choice(list(self.there))
        names = list(self.there[kind])
        path, deed = self.LISTS[kind], self.chance.random()
        self.made += 1
        description = f"change {self.made} " + "x" * self.chance.choice((0, 50, 3000))
        if len(names) < 5 or deed < 0.5 and len(names) < 60:
            name = f"{kind[0]}{self.made}"
            body = {"name": name, "description": description}
            if kind == "instance":
                body["source"] = {"type": "none"}
            return kind, name, ("POST", path, body), description
        name = self.chance.choice(names)
        if deed < 0.75:
            return kind, name, ("PATCH", f"{path}/{name}", {"description": description}), description
        return kind, name, ("DELETE", f"{path}/{name}"), None

    def put(self, kind, name, description):
        if description is None:
            del self.there[kind][name]
        else:
            self.there[kind][name] = description

    @classmethod
    def found_by(cls, run):
        found = {}
        for kind, path in cls.LISTS.items():
            status, reply = run.ask("GET", f"{path}?recursion=1")
            if status != 200:
                sys.exit(f"the list of each {kind}: {reply}")
            found[kind] = {row["name"]: row["description"] for row in reply["metadata"]}
        return found


def kill_after(run, seconds):
    timer = threading.Timer(seconds, run.kill)
    timer.start()
    return timer


def change_until_killed(run, rows, seconds):
    """Makes changes until the program is killed; it gives the one that was under way."""
    timer = kill_after(run, seconds)
    change = None
    try:
        while True:
            change = rows.next_change()
            kind, name, asked, description = change
            run.done(*asked)
            rows.put(kind, name, description)
    except Gone:
        return change
    finally:
        timer.join()
        run.reap()


class Files:
    """How the programs are given their file of rows."""

    def __init__(self, arguments):
        self.word, self.ending = ("--journal", "journal") if arguments.journal else ("--db", "db")
        self.is_sound = is_whole if arguments.journal else is_sound

    def words(self, file):
        return self.word, str(file)


def is_whole(file):
    """Whether the reader reads the file of a journal."""
    journal_reader.records_of(file.read_bytes())
    return True


def rows_read(file):
    """The names of the instances and volumes that the reader finds in a journal."""
    rows = journal_reader.rows_after(journal_reader.records_of(file.read_bytes()))
    kinds = {"instance": 6, "volume": 5}
    return {kind: {key.rsplit("/", 1)[1] for number, key in rows if number == kinds[kind]} for kind in kinds}


def is_sound(file):
    """Whether the stock SQLite finds a copy of the file and its log sound."""
    with tempfile.TemporaryDirectory() as folder:
        copy = Path(folder, file.name)
        for name in (file, Path(f"{file}-wal")):
            if name.exists():
                shutil.copy(name, Path(folder, name.name))
        with sqlite3.connect(copy) as database:
            found = database.execute("PRAGMA integrity_check").fetchall()
        database.close()
    return found == [("ok",)]


def check(program, *words):
    ran = subprocess.run([program, "check", *words], capture_output=True, check=False)
    if ran.returncode != 0:
        sys.exit(f"check ended with status {ran.returncode}: {ran.stderr.decode()}")
    return ran.stdout.decode()


def is_whole_alone(file):
    """Whether the stock SQLite finds the same entries in a copy of the file without its log as in one with it."""
    found = []
    for names in ((file,), (file, Path(f"{file}-wal"))):
        with tempfile.TemporaryDirectory() as folder:
            for name in names:
                if name.exists():
                    shutil.copy(name, Path(folder, name.name))
            database = sqlite3.connect(Path(folder, file.name))
            found.append(database.execute("SELECT kind, key, body FROM records ORDER BY kind, key").fetchall())
            database.close()
    return found[0] == found[1]


def differences(found, there):
    """What differs, as the kind, the name, and the first words of the description that was found and of the one that was answered."""
    both = ((kind, name, found[kind].get(name), there[kind].get(name)) for kind in there for name in found[kind] | there[kind])
    return [(kind, name, was and was[:20], due and due[:20]) for kind, name, was, due in both if was != due]


def try_kills(program, folder, arguments):
    files, chance = Files(arguments), random.Random(arguments.seed)
    file = Path(folder, f"killed.{files.ending}")
    words = files.words(file)
    started = Served if arguments.server else Run
    killed = Path(arguments.server).resolve() if arguments.server else program
    run = started(killed, *words)
    run.done("POST", "/1.0/storage-pools", {"name": "tank", "driver": "dir"})
    run.done("PATCH", "/1.0/profiles/default", {"devices": {"root": {"path": "/", "pool": "tank", "type": "disk"}}})
    run.end()
    rows, answered, whole = Rows(chance), 0, 0
    for at in range(arguments.kills):
        made = rows.made
        kind, name, _, description = change_until_killed(started(killed, *words), rows, chance.uniform(0.05, 0.6))
        answered += rows.made - made - 1
        if not files.is_sound(file):
            sys.exit(f"after {at + 1} kills SQLite finds the file damaged")
        if not arguments.run_alone:
            check(program, *words)
        again = started(killed, *words)
        found = Rows.found_by(again)
        again.end()
        if not arguments.journal and not is_whole_alone(file):
            sys.exit(f"after {at + 1} kills and a clean end the file alone lacks rows")
        if arguments.journal and rows_read(file) != {kind: set(found[kind]) for kind in found}:
            sys.exit(f"after {at + 1} kills the reader finds other rows in the journal than the program")
        if found != rows.there:
            rows.put(kind, name, description) if description is not None or name in rows.there[kind] else None
            whole += 1
        if found != rows.there:
            sys.exit(f"after {at + 1} kills there are other rows than were answered: {differences(found, rows.there)}")
    print(f"{arguments.kills} kills: {answered} changes were answered, and all of them were there; of those under way {whole} were made")


def try_paused(program, folder, arguments):
    file, chance = Path(folder, "paused.db"), random.Random(arguments.seed)
    run, rows, whole = Run(program, "--db", str(file)), Rows(chance), 0
    run.done("POST", "/1.0/storage-pools", {"name": "tank", "driver": "dir"})
    run.done("PATCH", "/1.0/profiles/default", {"devices": {"root": {"path": "/", "pool": "tank", "type": "disk"}}})
    for at in range(arguments.drills):
        for _ in range(20):
            kind, name, asked, description = rows.next_change()
            run.done(*asked)
            rows.put(kind, name, description)
        name = f"under{at}"
        run.requests.write(request("POST", "/1.0/projects", {"name": name}))
        run.requests.flush()
        time.sleep(chance.uniform(0, 0.003))
        run.process.send_signal(signal.SIGSTOP)
        copy = Path(folder, f"backup{at}.db")
        for end in ("", "-wal"):
            shutil.copy(f"{file}{end}", f"{copy}{end}")
        run.process.send_signal(signal.SIGCONT)
        run.reply()
        again = Run(program, "--db", str(copy))
        found = Rows.found_by(again)
        whole += f"/1.0/projects/{name}" in again.ask("GET", "/1.0/projects")[1]["metadata"]
        again.end()
        if found != rows.there or not is_whole_alone(copy):
            sys.exit(f"a copy of the paused program's files has other rows: {differences(found, rows.there)}")
    run.end()
    print(f"{arguments.drills} copies of a paused program's files: all changes were there; of those under way {whole} were made")


def counts_of(told):
    """How many rows of each kind are told."""
    lines = [line.split() for line in told.splitlines()]
    return {words[0]: int(words[1]) for words in lines if words[0] in KINDS}


def try_drill(program, folder, arguments):
    """How many seconds a drill took."""
    files = Files(arguments)
    words = files.words(Path(folder, f"drill.{files.ending}"))
    began = time.monotonic()
    ran = subprocess.run([program, "drill", "7", str(arguments.rows), *words], capture_output=True, check=False)
    took = time.monotonic() - began
    if ran.returncode != 0:
        sys.exit(f"drill ended with status {ran.returncode}: {ran.stderr.decode()}")
    counts = counts_of(ran.stdout.decode())
    found = counts_of(check(program, *words))
    if found != counts or len(counts) != len(KINDS):
        sys.exit(f"drill and check differ:\n{counts}\n{found}")
    told = ", ".join(f"{kind} {count}" for kind, count in counts.items())
    print(f"drill of {arguments.rows} in {took:.1f} s, and check prints the same: {told}")
    return took


def is_beginning(counts):
    """Whether a drill has rows like these after some of its requests: a pool, then a project with its profile, then instances."""
    pools, projects, instances = counts["pools"], counts["projects"] - 1, counts["instances"]
    rest = (counts["profiles"], counts["networks"], counts["volumes"], counts["snapshots"]) == (1 + projects, 0, 0, 0)
    return rest and 0 <= projects <= pools <= 1 and 0 <= instances <= 32 * projects


def try_killed_drills(program, folder, arguments, took):
    files, chance, made = Files(arguments), random.Random(arguments.seed), []
    for at in range(arguments.drills):
        file = Path(folder, f"drill{at}.{files.ending}")
        words = files.words(file)
        # What a drill makes it makes soon, since most creations are refused by a limit.
        with subprocess.Popen([program, "drill", "7", str(arguments.rows), *words], stdout=subprocess.DEVNULL) as process:
            while arguments.journal and not file.exists() and process.poll() is None:
                time.sleep(0.001)
            time.sleep(took * chance.random() ** 3)
            process.kill()
        counts = counts_of(check(program, *words))
        if not is_beginning(counts) or not files.is_sound(file):
            sys.exit(f"a killed drill leaves {counts}")
        made.append(counts["instances"])
    print(f"{arguments.drills} drills killed: check opens what each made, {' '.join(map(str, sorted(made)))} instances")


def main():
    parser = argparse.ArgumentParser()
    parser.add_argument("--program", default=TOP / "crates/incus_run/out/incus_run")
    parser.add_argument("--server")
    parser.add_argument("--journal", action="store_true")
    parser.add_argument("--kills", type=int, default=100)
    parser.add_argument("--drills", type=int, default=20)
    parser.add_argument("--rows", type=int, default=10_000)
    parser.add_argument("--seed", type=int, default=7)
    parser.add_argument("--run-alone", action="store_true")
    arguments = parser.parse_args()
    program = Path(arguments.program).resolve()
    if not program.exists():
        sys.exit(f"there is no program {program}: bin/incus_run --prove makes it")
    with tempfile.TemporaryDirectory() as folder:
        try_kills(program, folder, arguments)
        if not arguments.journal:
            try_paused(program, folder, arguments)
        if not arguments.run_alone:
            took = try_drill(program, folder, arguments)
            try_killed_drills(program, folder, arguments, took)


main()
