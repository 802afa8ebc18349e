#!/usr/bin/env python3
"""Looks at what no contract of the programs says: that their clock goes, and what becomes of incusd where the system has no thread, and where
its file is another one after the disk failed.

    tests/seams.py [--program FILE] [--server FILE] [--only WORD]

The programs are crates/incus_run/out/incus_run and crates/incusd/out/incusd without these words (`bin/incus_run --prove` and
`bin/incusd --prove` make them). One line for each check.

1. `clock`: of both programs, the moment at which a volume is made is that of this machine, to the second, and so is that of one which is
   made three seconds later.
2. `threads`: a server that may start no thread for a connection answers it 503, with the text of one that serves too many, and closes it;
   once it may, it serves the next one, and a connection that it has goes on meanwhile.
3. `worker`: a server that may start no thread for its worker ends with status 12, and standard error says why.
4. `replaced`: a sync fails while another file, also one of rows, has the name of the server's file. The change is refused, the server ends
   with status 6, and the other file has the rows that it had. The library that lets syncs fail is that of tests/failing_disk.py.

For 2 and 3 the server is run by nobody, as the system bounds no threads of root; run by another user they are skipped, which is told.
It ends with status 1 where something is otherwise.
"""
import argparse
import datetime
import mmap
import os
import re
import resource
import shutil
import socket
import sqlite3
import struct
import subprocess
import sys
import tempfile
import time
from pathlib import Path

sys.dont_write_bytecode = True
from server import PATIENCE, TOP, Reader, Wrong, ask, free_port, listens, need  # noqa: E402

NOBODY = 65534
HELD = 10  # processes that hold places of threads
VOLUMES = "/1.0/storage-pools/p0/volumes/custom"
POOL = ("POST", "/1.0/storage-pools", {"driver": "dir", "name": "p0"})


def seconds(moment):
    return int(datetime.datetime.fromisoformat(moment.replace("Z", "+00:00")).timestamp())


# ---- the clock

class Piped:
    """incus_run, asked over its standard input."""

    def __init__(self, program):
        self.process = subprocess.Popen([program, "run"], stdin=subprocess.PIPE, stdout=subprocess.PIPE)

    def sendall(self, text):
        self.process.stdin.write(text)
        self.process.stdin.flush()

    def recv(self, most):
        return os.read(self.process.stdout.fileno(), most)

    def end(self):
        self.process.stdin.close()
        need(self.process.wait(PATIENCE) == 0, "incus_run ends with another status than 0")


def made_at(link, name):
    """When a volume was made, by its server and by this machine, before and after."""
    before = int(time.time())
    need(ask(link, "POST", VOLUMES, {"name": name, "config": {}})[0] == 200, f"the volume {name}")
    after = int(time.time())
    return before, seconds(ask(link, "GET", f"{VOLUMES}/{name}")[1]["metadata"]["created_at"]), after


def look_at_clock(link, what):
    need(ask(link, *POOL)[0] == 200, "the pool")
    for name in ("early", "late"):
        before, told, after = made_at(link, name)
        need(before <= told <= after, f"{what}: a volume was made at {told}, and this machine says {before} to {after}")
        time.sleep(3)


def clock(said):
    with Server(said.server) as server, server.connect() as link:
        look_at_clock(link, "incusd")
    link = Piped(said.program)
    look_at_clock(link, "incus_run")
    link.end()
    return "both programs tell the second of this machine, and three seconds later the later one"


# ---- threads

class Server:
    """A server that is killed at the end of its check; by nobody, with at most so many threads."""

    def __init__(self, program, *words, threads=None):
        self.port, self.folder = free_port(), tempfile.TemporaryDirectory()
        if threads is not None:
            os.chmod(self.folder.name, 0o755)
            program = shutil.copy(program, self.folder.name)
            os.chmod(program, 0o755)

        def become_nobody():
            if threads is not None:
                resource.setrlimit(resource.RLIMIT_NPROC, (threads, resource.getrlimit(resource.RLIMIT_NPROC)[1]))
                as_nobody()

        self.process = subprocess.Popen([program, "--port", str(self.port), *words], stdin=subprocess.DEVNULL, stdout=subprocess.DEVNULL,
                                        stderr=subprocess.PIPE, preexec_fn=become_nobody)

    def __enter__(self):
        until = time.monotonic() + PATIENCE
        while not listens(self.port):
            need(self.process.poll() is None and time.monotonic() < until, "the server doesn't listen")
            time.sleep(0.01)
        return self

    def __exit__(self, kind, error, trace):
        gone = self.process.poll()
        self.process.kill()
        said = self.process.communicate()[1].decode()
        self.folder.cleanup()
        if kind is None:
            need(gone is None, f"the server ended by itself, with status {gone}: {said}")

    def connect(self):
        return socket.create_connection(("127.0.0.1", self.port), timeout=PATIENCE)

    def threads(self):
        return len(list(Path(f"/proc/{self.process.pid}/task").iterdir()))


def of_nobody():
    """How many threads nobody has."""
    count = 0
    for process in Path("/proc").iterdir():
        try:
            if process.name.isdigit() and process.stat().st_uid == NOBODY:
                count += len(list((process / "task").iterdir()))
        except FileNotFoundError:
            pass
    return count


def as_nobody():
    os.setgroups([])
    os.setgid(NOBODY)
    os.setuid(NOBODY)


def threads(said):
    if os.getuid() != 0:
        return "skipped, as only root can become nobody"
    # Processes of nobody that hold the places of threads until they are ended.
    holders = [subprocess.Popen(["sleep", "1000"], preexec_fn=as_nobody) for _ in range(HELD)]
    try:
        return threads_beside(said, holders)
    finally:
        for holder in holders:
            holder.kill()
            holder.wait()


def threads_beside(said, holders):
    with Server(said.server, "--workers", "1", threads=of_nobody() + 3) as server:
        until = time.monotonic() + PATIENCE
        while server.threads() < 2 and time.monotonic() < until:
            time.sleep(0.01)
        with server.connect() as first:
            need(ask(first, "GET", "/1.0")[0] == 200, "the first connection is not served")
            for _ in range(20):
                with server.connect() as link:
                    reader = Reader(link)
                    status, told = reader.reply()
                    need(status == 503 and told["error"] == "too many connections" and reader.ended(), f"{status}, {told}")
            need(ask(first, "GET", "/1.0")[0] == 200, "the first connection is served no more")
            for holder in holders:
                holder.kill()
                holder.wait()
            with server.connect() as link:
                need(ask(link, "GET", "/1.0")[0] == 200, "no connection is served once there are threads")
            need(ask(first, "GET", "/1.0", last=True)[0] == 200, "the first connection is served no more")
    return "20 connections without a thread are answered 503 beside one that is served; the next one is served"


def worker(said):
    if os.getuid() != 0:
        return "skipped, as only root can become nobody"
    server = Server(said.server, "--workers", "1", threads=of_nobody() + 1)
    try:
        status = server.process.wait(PATIENCE)
    except subprocess.TimeoutExpired:
        server.process.kill()
        raise Wrong("a server without a worker goes on") from None
    told = server.process.stderr.read().decode()
    server.folder.cleanup()
    need(status == 12 and "incusd: a thread could not be started\n" in told, f"status {status}: {told}")
    return "status 12, and why"


# ---- a file in the place of the server's

class FailingSyncs:
    """A library that stands before the C library, and lets syncs fail."""

    def __init__(self, folder):
        source, library, plans = (Path(folder, name) for name in ("shim.c", "shim.so", "plans"))
        source.write_text(re.search(r'SHIM = r"""(.*?)"""', (TOP / "tests/failing_disk.py").read_text(), re.S)[1])
        subprocess.run(["cc", "-O1", "-shared", "-fPIC", "-nostdlib", "-o", library, source], check=True)
        plans.write_bytes(bytes(24))
        self.environment = dict(os.environ, LD_PRELOAD=str(library), FAILING_DISK=str(plans), ASAN_OPTIONS="verify_asan_link_order=0")
        with open(plans, "r+b") as file:
            self.map = mmap.mmap(file.fileno(), 24)

    def fail_next(self):
        struct.pack_into("3i", self.map, 12, 0, 1, 5)


def loaded(program):
    """The words that start a program with a library before the C library."""
    if b"/lib64/ld-linux" in Path(program).read_bytes()[:4096]:
        return [program]
    text = (TOP / "tests/failing_disk.py").read_text()
    return [*re.findall(r'"([^"]+)"', re.search(r"LOADER = \[(.*?)\]", text)[1]), program]


def projects_in(file):
    with sqlite3.connect(f"file:{file}?mode=ro", uri=True) as base:
        return {key for (key,) in base.execute("SELECT key FROM records WHERE kind = 1")}


def replaced(said):
    with tempfile.TemporaryDirectory() as folder:
        disk, file, port = FailingSyncs(folder), Path(folder, "rows.db"), free_port()
        words = [*loaded(said.server), "--port", str(port), "--connections", "1", "--db", str(file)]
        process = subprocess.Popen(words, stdin=subprocess.DEVNULL, stderr=subprocess.PIPE, env=disk.environment)
        try:
            until = time.monotonic() + PATIENCE
            while not listens(port):
                need(process.poll() is None and time.monotonic() < until, "the server doesn't listen")
                time.sleep(0.01)
            with socket.create_connection(("127.0.0.1", port), timeout=PATIENCE) as link:
                need(ask(link, "POST", "/1.0/projects", {"name": "early"})[0] == 200, "the first change")
                for name in Path(folder).glob("rows.db*"):
                    shutil.copy(name, f"{name}.other")
                for name in list(Path(folder).glob("*.other")):
                    os.rename(name, str(name).removesuffix(".other"))
                disk.fail_next()
                status, _ = ask(link, "POST", "/1.0/projects", {"name": "late"})
                need(status == 503, f"the change is answered {status}")
            status, told = process.wait(PATIENCE), process.stderr.read().decode()
            need(status == 6 and "can't be opened again" in told, f"status {status}: {told}")
        finally:
            process.kill()
            process.wait()
        need(projects_in(file) == {"default", "early"}, f"the other file has {projects_in(file)}")
    return "503, status 6, and the other file has its rows"


def main():
    words = argparse.ArgumentParser()
    words.add_argument("--program", default=str(TOP / "crates/incus_run/out/incus_run"))
    words.add_argument("--server", default=str(TOP / "crates/incusd/out/incusd"))
    words.add_argument("--only", default="")
    said = words.parse_args()
    wrong = 0
    for name, check in {"clock": clock, "threads": threads, "worker": worker, "replaced": replaced}.items():
        if said.only not in name:
            continue
        try:
            print(f"{name}: {check(said)}", flush=True)
        except (Wrong, OSError, KeyError, ValueError, subprocess.SubprocessError) as error:
            wrong += 1
            print(f"{name}: WRONG: {error!r}", flush=True)
    return 1 if wrong else 0


if __name__ == "__main__":
    sys.exit(main())
