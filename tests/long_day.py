#!/usr/bin/env python3
"""A day of incusd in minutes, over TCP on 127.0.0.1, with Python alone; one line for each check.

    tests/long_day.py [--program FILE] [--connections N] [--only WORD]

The program is crates/incusd/out/incusd without `--program` (`bin/incusd --prove` makes it). No server here is told how many connections
it takes, so each is killed at the end of its check.

1. `short`: N short connections (200,000) in rounds of 500 at once, and how many a second. Its threads, memory maps and handles are those
   after the first round, and its memory grows by no more than 4 MB.
2. `too many`: with `--at-once 8`, eight connections are kept open; each further one is answered 503 and closed within a second, and once
   one of the eight has gone the next is served.
3. `handles`: a server that may open 64 handles, and one that may open 1,024, has all of them taken by connections, and given back, five
   times. Each time it answers within a second, and standard error has told of it once.
4. `idle`: with `--idle 1`, a connection that sends nothing and one that never ends its head are closed within two seconds.
5. `stay`: a connection that asks every half second is served beside that for ten seconds.

It ends with status 1 where something is otherwise.
"""
import argparse
import resource
import selectors
import socket
import subprocess
import sys
import time
from pathlib import Path

sys.dont_write_bytecode = True
from server import TOP, PATIENCE, Reader, Wrong, free_port, listens, message, need  # noqa: E402

AT_ONCE = 500
ASK = message("GET", "/1.0", last=True)


class Server:
    """A server that is stopped by the check that started it."""

    def __init__(self, program, *words, handles=None):
        def limit():
            if handles is not None:
                resource.setrlimit(resource.RLIMIT_NOFILE, (handles, handles))

        self.port = free_port()
        self.process = subprocess.Popen(
            [program, "--port", str(self.port), *words],
            stdin=subprocess.DEVNULL, stdout=subprocess.DEVNULL, stderr=subprocess.PIPE, preexec_fn=limit)

    def __enter__(self):
        until = time.monotonic() + PATIENCE
        while not listens(self.port):
            need(self.process.poll() is None and time.monotonic() < until, "the server doesn't listen")
            time.sleep(0.01)
        return self

    def __exit__(self, kind, error, trace):
        gone = self.process.poll()
        self.process.kill()
        self.said = self.process.communicate()[1].decode()
        if kind is None:
            need(gone is None, f"the server ended by itself, with status {gone}: {self.said}")

    def connect(self):
        return socket.create_connection(("127.0.0.1", self.port), timeout=PATIENCE)

    def held(self):
        """What the process holds: threads, memory maps, handles and kB of memory."""
        of = Path(f"/proc/{self.process.pid}")
        rows = dict(line.split(":", 1) for line in (of / "status").read_text().splitlines() if ":" in line)
        return (int(rows["Threads"]), len((of / "maps").read_text().splitlines()), len(list((of / "fd").iterdir())),
                int(rows["VmRSS"].split()[0]))


def round_of(server, count):
    """So many connections at once, each with one request; how many replies had status 200."""
    waiting, well = selectors.DefaultSelector(), 0
    for _ in range(count):
        link = server.connect()
        link.sendall(ASK)
        waiting.register(link, selectors.EVENT_READ, bytearray())
    while waiting.get_map():
        ready = waiting.select(PATIENCE)
        need(ready, "no reply comes any more")
        for key, _ in ready:
            piece = key.fileobj.recv(65536)
            key.data.extend(piece)
            if not piece:
                well += key.data.startswith(b"HTTP/1.1 200")
                waiting.unregister(key.fileobj)
                key.fileobj.close()
    return well


def settled(server):
    """What is held once the last links have ended: a link that has ended is taken in when the next one comes."""
    time.sleep(1)
    round_of(server, 1)
    time.sleep(0.2)
    return server.held()


def short(program, connections):
    with Server(program) as server:
        need(round_of(server, AT_ONCE) + round_of(server, AT_ONCE) == 2 * AT_ONCE, "a request of the first rounds was not served")
        before, made, started = settled(server), 0, time.monotonic()
        while made < connections:
            need(round_of(server, AT_ONCE) == AT_ONCE, f"a request after {made} was not served")
            made += AT_ONCE
        rate, after = made / (time.monotonic() - started), settled(server)
    told = "threads {}, maps {}, handles {}, {} kB".format(*after)
    need(after[0] <= before[0] + 1 and after[2] <= before[2] + 1, f"{before} became {after}")
    need(after[1] <= before[1] + 64 and after[3] <= before[3] + 4096, f"{before} became {after}")
    return f"{made} connections, {rate:.0f} a second; {told}, as after the first {2 * AT_ONCE}: " \
           + "{}, {}, {}, {} kB".format(*before)


def too_many(program, _):
    with Server(program, "--at-once", "8") as server:
        held = [server.connect() for _ in range(8)]
        readers = [Reader(link) for link in held]
        for link, reader in zip(held, readers):
            link.sendall(message("GET", "/1.0"))
            need(reader.reply()[0] == 200, "one of the eight is not served")
        longest = 0
        for _ in range(100):
            began = time.monotonic()
            with server.connect() as link:
                reader = Reader(link)
                status, said = reader.reply()
                need(status == 503 and said["error"] == "too many connections" and reader.ended(), f"{status}, {said}")
            longest = max(longest, time.monotonic() - began)
        need(longest < 1, f"one was turned away after {longest:.2f} s")
        held[0].close()
        time.sleep(0.3)
        with server.connect() as link:
            link.sendall(ASK)
            need(Reader(link).reply()[0] == 200, "the next one is not served")
        for link in held[1:]:
            link.close()
    return f"100 turned away, the slowest after {1000 * longest:.1f} ms; the next one served"


def taken_and_given_back(program, limit):
    """How long the slowest first answer took, after all handles had been taken and given back."""
    slowest = 0
    with Server(program, "--at-once", "4096", handles=limit) as server:
        for _ in range(5):
            links = [server.connect() for _ in range(2 * limit)]
            time.sleep(1)
            for link in links:
                link.close()
            time.sleep(0.5)
            began = time.monotonic()
            need(round_of(server, 1) == 1, "it does not answer any more")
            slowest = max(slowest, time.monotonic() - began)
            need(slowest < 1, f"it answers after {slowest:.1f} s")
    told = server.said.count("for the next connection")
    need(told == 1, f"told {told} times: {server.said}")
    return slowest


def handles(program, _):
    _, most = resource.getrlimit(resource.RLIMIT_NOFILE)
    resource.setrlimit(resource.RLIMIT_NOFILE, (most, most))
    few, many = taken_and_given_back(program, 64), taken_and_given_back(program, 1024)
    return f"answered {1000 * few:.0f} ms after 64 handles were given back, and {1000 * many:.0f} ms after 1,024; told once"


def idle(program, _):
    with Server(program, "--idle", "1") as server:
        for sent in (b"", b"GET /1.0 HTTP/1.1\r\nHost: "):
            with server.connect() as link:
                link.sendall(sent)
                began = time.monotonic()
                need(link.recv(1) == b"", "something was answered")
                need(0.5 < time.monotonic() - began < 2, f"closed after {time.monotonic() - began:.1f} s")
    return "closed after a second"


def stay(program, _):
    with Server(program, "--idle", "1") as server, server.connect() as link:
        reader, until, count = Reader(link), time.monotonic() + 10, 0
        while time.monotonic() < until:
            link.sendall(message("GET", "/1.0"))
            need(reader.reply()[0] == 200, "not served")
            count += 1
            time.sleep(0.5)
    return f"{count} requests over one connection"


def main():
    words = argparse.ArgumentParser()
    words.add_argument("--program", default=str(TOP / "crates/incusd/out/incusd"))
    words.add_argument("--connections", type=int, default=200_000)
    words.add_argument("--only", default="")
    said = words.parse_args()
    checks = {"short": short, "too many": too_many, "handles": handles, "idle": idle, "stay": stay}
    wrong = 0
    for name, check in checks.items():
        if said.only in name:
            try:
                print(f"{name}: {check(said.program, said.connections)}", flush=True)
            except (Wrong, OSError) as why:
                wrong += 1
                print(f"{name}: WRONG: {why}", flush=True)
    sys.exit(1 if wrong else 0)


if __name__ == "__main__":
    main()
