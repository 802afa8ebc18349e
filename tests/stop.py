#!/usr/bin/env python3
"""Ends of incusd by the end of its standard input and by signals to bin/with_stop, over TCP on 127.0.0.1; one line for each check.

    tests/stop.py [--program FILE] [--rounds N] [--within SECONDS] [--only WORD]

The program is crates/incusd/out/incusd without `--program` (`bin/incusd --prove` makes it). Each server here is told to stop while it serves,
and has to end with status 0 within five seconds, or as many as are given.

1. `idle`: connections that wait, one within a head, one within a body, and a session of events are ended; no further one is accepted.
2. `crowd`: a client that never reads, one that asks without end, and one that sends a byte a second.
3. `load`: N rounds (100): eight clients change rows when SIGTERM comes to bin/with_stop. The last reply of each is whole, and each change that
   was acknowledged is among the rows that the file and its log hold, and among those that the next server serves.
4. `alone`: 20 rounds of the same, of the file alone, copied without its log.
5. `signals`: SIGTERM, SIGINT and SIGHUP to bin/with_stop, to all of its processes at once as a terminal sends them, and its death.
6. `input`: an input that has ended at the start; one that stays open while `--connections` is reached; and none, where the option is not given.

It ends with status 1 where something is otherwise.
"""
import argparse
import os
import shutil
import signal
import socket
import sqlite3
import subprocess
import sys
import tempfile
import threading
import time
from pathlib import Path

sys.dont_write_bytecode = True
from server import TOP, PATIENCE, Reader, Wrong, ask, free_port, listens, message, need  # noqa: E402

STOP = str(TOP / "bin/with_stop")
OPTION = "--stop-at-end-of-input"
# How long a server that stops may take, in seconds, without `--within`.
MOST = 5
CLIENTS = 8
HANDSHAKE = ("GET /1.0/events HTTP/1.1\r\nHost: localhost\r\nConnection: Upgrade\r\nUpgrade: websocket\r\nSec-WebSocket-Version: 13\r\n"
             "Sec-WebSocket-Key: dGhlIHNhbXBsZSBub25jZQ==\r\n\r\n").encode()


class Server:
    """A server that is told to stop: by its standard input, or with `by` by a signal to the script that holds that."""

    MOST = MOST

    def __init__(self, program, *words, by=None, last=False):
        self.port, self.by, self.said, self.took = free_port(), by, "", 0.0
        command = [program, "--port", str(self.port), *words] + ([] if last else [OPTION])
        self.process = subprocess.Popen(
            [STOP, *command] if by else command, stdin=subprocess.DEVNULL if by else subprocess.PIPE,
            stdout=subprocess.DEVNULL, stderr=subprocess.PIPE, start_new_session=True)

    def __enter__(self):
        until = time.monotonic() + PATIENCE
        while not listens(self.port):
            need(self.process.poll() is None and time.monotonic() < until, "the server doesn't listen")
            time.sleep(0.01)
        return self

    def __exit__(self, kind, error, trace):
        if self.process.poll() is None and kind is not None:
            os.killpg(self.process.pid, signal.SIGKILL)
            self.process.wait()

    def connect(self):
        link = socket.create_connection(("127.0.0.1", self.port), timeout=PATIENCE)
        link.setsockopt(socket.IPPROTO_TCP, socket.TCP_NODELAY, 1)
        return link

    def stop(self):
        if self.by:
            self.process.send_signal(self.by)
        else:
            self.process.stdin.close()

    def ended(self, began):
        """Waits for its end, which has to come in time, with status 0."""
        try:
            self.process.wait(timeout=4 * self.MOST)
        except subprocess.TimeoutExpired:
            raise Wrong(f"it has not ended {4 * self.MOST} s after it was told to stop") from None
        self.took = time.monotonic() - began
        self.said = self.process.stderr.read().decode()
        need(self.process.returncode == 0, f"status {self.process.returncode}: {self.said}")
        need(self.took < self.MOST, f"it ended after {self.took:.1f} s")

    def end(self):
        began = time.monotonic()
        self.stop()
        self.ended(began)


def is_refused(server):
    try:
        server.connect().close()
        return False
    except OSError:
        return True


def rest_of(link):
    """All that comes until the other end closes."""
    got = b""
    try:
        while piece := link.recv(65536):
            got += piece
    except ConnectionError:
        pass
    return got


def idle(program):
    with Server(program) as server:
        served, new, head, body, session = (server.connect() for _ in range(5))
        reader = Reader(served)
        served.sendall(message("GET", "/1.0"))
        need(reader.reply()[0] == 200, "not served")
        head.sendall(b"GET /1.0 HTTP/1.1\r\nHost: loc")
        body.sendall(message("POST", "/1.0/projects", {"name": "lab"})[:-3])
        session.sendall(HANDSHAKE)
        need(session.recv(12) == b"HTTP/1.1 101", "no session")
        began = time.monotonic()
        server.stop()
        for name, link in (("served", served), ("new", new), ("head", head), ("body", body)):
            need(rest_of(link) == b"", f"{name}: something more came")
            need(time.monotonic() - began < 2, f"{name}: its end came after {time.monotonic() - began:.1f} s")
        rest_of(session)
        while not is_refused(server):
            need(time.monotonic() - began < 2, "a connection is taken by a server that stops")
        server.ended(began)
    return f"ended after {server.took:.2f} s"


def ask_on(link, halt):
    """Asks without end, many requests at a time, and reads what comes."""
    try:
        while not halt.is_set():
            link.sendall(message("GET", "/1.0/projects") * 50)
            link.recv(1 << 20)
    except OSError:
        pass


def drip_on(link, halt):
    try:
        while not halt.wait(1):
            link.sendall(b"G")
    except OSError:
        pass


def flood(link, halt):
    try:
        while not halt.is_set():
            link.sendall(message("GET", "/1.0") * 100)
    except OSError:
        pass


def crowd(program):
    halt = threading.Event()
    with Server(program) as server:
        links = [server.connect() for _ in range(3)]
        threads = [threading.Thread(target=work, args=(link, halt), daemon=True)
                   for work, link in zip((flood, ask_on, drip_on), links)]
        for thread in threads:
            thread.start()
        time.sleep(3)
        began = time.monotonic()
        server.stop()
        server.ended(began)
        halt.set()
        for link in links:
            link.close()
    return f"ended after {server.took:.2f} s"


def change_on(server, number, kept, cut, steady):
    """Makes one project after the other, and changes one once there are as many as may be (rule C1). What was acknowledged, and whether the
    last reply was whole or absent."""
    made, got, is_full = 0, b"", False
    try:
        with server.connect() as link:
            reader = Reader(link)
            while True:
                name = f"p{number}-{made}"
                if is_full:
                    link.sendall(message("PATCH", "/1.0/projects/default", {"config": {f"user.c{number}": str(made)}}))
                else:
                    link.sendall(message("POST", "/1.0/projects", {"name": name}))
                reader.held = b""
                got = b""
                while b"\r\n\r\n" not in got:
                    piece = link.recv(65536)
                    if not piece:
                        return
                    got += piece
                head, body = got.split(b"\r\n\r\n", 1)
                length = int([line for line in head.split(b"\r\n") if line.lower().startswith(b"content-length")][0].split(b":")[1])
                while len(body) < length:
                    piece = link.recv(65536)
                    if not piece:
                        return
                    body += piece
                got = b""
                made += 1
                if not is_full and b'"rule":"C1"' in body:
                    is_full = True
                    continue
                need(head.startswith(b"HTTP/1.1 200"), f"{head}")
                if not is_full:
                    kept.append(name)
                steady.set()
    except ConnectionError:
        return
    except (Wrong, OSError, ValueError) as why:
        cut.append(repr(why))
    finally:
        if got:
            cut.append(f"a reply of which {len(got)} bytes came")


def names_in(path):
    with sqlite3.connect(f"file:{path}?mode=ro", uri=True) as base:
        return {bytes(key).decode() if isinstance(key, bytes) else key for (key,) in base.execute("select key from records where kind = 1")}


def round_of(program, folder, number):
    """One server under load, which SIGTERM stops: what was acknowledged, and the file of its rows."""
    path, kept, cut, steady = f"{folder}/rows{number}", [], [], threading.Event()
    with Server(program, "--db", path, by=signal.SIGTERM) as server:
        threads = [threading.Thread(target=change_on, args=(server, each, kept, cut, steady)) for each in range(CLIENTS)]
        for thread in threads:
            thread.start()
        need(steady.wait(PATIENCE), "no change is made")
        time.sleep(0.05 + 0.01 * (number % 20))
        server.end()
        for thread in threads:
            thread.join(PATIENCE)
    need(not cut, f"{cut}")
    return path, set(kept), server.took


def load(program, rounds):
    slowest, count = 0.0, 0
    with tempfile.TemporaryDirectory() as folder:
        for number in range(rounds):
            path, kept, took = round_of(program, folder, number)
            slowest, count = max(slowest, took), count + len(kept)
            for file in Path(folder).glob(f"rows{number}*"):
                shutil.copy(file, str(file).replace(f"rows{number}", "copy"))
            missing = kept - names_in(f"{folder}/copy")
            need(not missing, f"round {number}: acknowledged and not in the file: {sorted(missing)[:5]}")
            if number % 10 == 0:
                with Server(program, "--db", path) as server:
                    with server.connect() as link:
                        status, said = ask(link, "GET", "/1.0/projects", last=True)
                    server.end()
                names = {each.rsplit("/", 1)[1] for each in said["metadata"]}
                need(status == 200 and kept <= names, f"round {number}: the next server has not all rows")
            for file in Path(folder).iterdir():
                file.unlink()
    return f"{rounds} rounds with {count} changes; the slowest end took {slowest:.2f} s"


def alone(program):
    with tempfile.TemporaryDirectory() as folder:
        for number in range(20):
            path, kept, _ = round_of(program, folder, number)
            shutil.copy(path, f"{folder}/alone")
            missing = kept - names_in(f"{folder}/alone")
            need(not missing, f"round {number}: {len(missing)} of {len(kept)} changes are not in the file alone")
            for file in Path(folder).iterdir():
                file.unlink()
    return "20 rounds: the file alone holds each change"


def signals(program):
    slowest = 0.0
    for sign in (signal.SIGTERM, signal.SIGINT, signal.SIGHUP):
        for to_all in (False, True):
            if to_all and sign == signal.SIGTERM:
                continue
            with Server(program, by=sign) as server, server.connect() as link:
                need(ask(link, "GET", "/1.0")[0] == 200, "not served")
                began = time.monotonic()
                if to_all:
                    os.killpg(server.process.pid, sign)
                else:
                    server.stop()
                server.ended(began)
                slowest = max(slowest, server.took)
    with Server(program, by=signal.SIGKILL) as server:
        server.stop()
        server.process.wait()
        until = time.monotonic() + Server.MOST
        while listens(server.port):
            need(time.monotonic() < until, "the server goes on without its script")
            time.sleep(0.05)
    return f"the slowest end took {slowest:.2f} s; no server is left without its script"


def inputs(program):
    ran = subprocess.run([program, "--port", str(free_port()), OPTION], stdin=subprocess.DEVNULL, capture_output=True, timeout=PATIENCE, check=False)
    need(ran.returncode == 0, f"an input that has ended: {ran}")
    with Server(program, "--connections", "1") as server:
        with server.connect() as link:
            need(ask(link, "GET", "/1.0", last=True)[0] == 200, "not served")
        server.ended(time.monotonic())
    with Server(program, last=True) as server:
        server.stop()
        time.sleep(1)
        with server.connect() as link:
            need(ask(link, "GET", "/1.0", last=True)[0] == 200, "not served")
        need(server.process.poll() is None, "it ended by itself")
        server.process.kill()
        server.process.wait()
    return "status 0 at once; status 0 beside an open input; no end without the option"


def main():
    words = argparse.ArgumentParser()
    words.add_argument("--program", default=str(TOP / "crates/incusd/out/incusd"))
    words.add_argument("--rounds", type=int, default=100)
    words.add_argument("--within", type=float, default=MOST)
    words.add_argument("--only", default="")
    said = words.parse_args()
    Server.MOST = said.within
    checks = {"idle": idle, "crowd": crowd, "load": lambda program: load(program, said.rounds), "alone": alone,
              "signals": signals, "input": inputs}
    wrong = 0
    for name, check in checks.items():
        if said.only not in name:
            continue
        begun = time.monotonic()
        try:
            print(f"{name}: {check(said.program)}, {time.monotonic() - begun:.1f} s", flush=True)
        except (Wrong, OSError, KeyError, ValueError, subprocess.SubprocessError, sqlite3.Error) as error:
            wrong += 1
            print(f"{name}: WRONG: {error!r}", flush=True)
    return 1 if wrong else 0


if __name__ == "__main__":
    sys.exit(main())
