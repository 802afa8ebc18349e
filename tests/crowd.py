#!/usr/bin/env python3
"""Starts incusd on a free port of 127.0.0.1 and looks how one client fares beside many; one line for each check.

    tests/crowd.py [--program FILE] [--only WORD] [--seconds S]

The program is crates/incusd/out/incusd without `--program` (`bin/incusd --prove` makes it). The load is made by `wrk`, of Debian's
packages; the checks that need it are skipped where it is missing.

1. `listeners`: GET of /1.0 a second over 8 connections, alone and beside 450 listeners to events of a quiet project, in turn, S seconds
   each (10), three times. Beside the listeners it is at least 0.8 times as often.
2. `wait`: a wait with `timeout=-1` for an operation whose worker is held, beside 1,000,000 requests of others: it is not answered before
   its operation ends, and within a second then. The worker's thread is held by ptrace; where that is not allowed, the check is skipped.
3. `order`: 16 callers change rows and create instances for 8 s. No event is told with an earlier time than the one before it.
4. `hostile`: a client asks 4,000 times alone, and then beside connections that send a byte a second of a head, of a body, and of a frame,
   500 idle ones, some that never read their replies, some that send what is no frame, and some that send 1,000 requests at once. Half of
   its requests and 99 of 100 take at most twice as long as alone, and one millisecond.

It ends with status 1 where something is otherwise.
"""
import argparse
import ctypes
import json
import multiprocessing
import os
import re
import shutil
import socket
import statistics
import subprocess
import sys
import threading
import time
from pathlib import Path

sys.dont_write_bytecode = True
from events import Listener, Skipped, handshake, masked  # noqa: E402
from long_day import Server  # noqa: E402
from server import PATIENCE, ROOT_DISK, TOP, Reader, Wrong, ask, message, need, operation  # noqa: E402

LISTENERS = 450
LEAST_SHARE = 0.8
MOST_REQUESTS = 1_000_000
CALLERS, CALLING = 16, 8
ASKED = 4000


def load(server, links, seconds):
    """How many requests `wrk` made over so many connections, and how many a second."""
    if shutil.which("wrk") is None:
        raise Skipped("wrk is not installed")
    ran = subprocess.run(
        ["wrk", "-t", "2", "-c", str(links), "-d", f"{seconds}s", f"http://127.0.0.1:{server.port}/1.0"],
        capture_output=True, text=True, check=True)
    need("Non-2xx" not in ran.stdout and "Socket errors" not in ran.stdout, ran.stdout)
    return int(re.search(r"(\d+) requests in", ran.stdout)[1]), float(re.search(r"Requests/sec:\s+([\d.]+)", ran.stdout)[1])


def furnish(server):
    """A pool and a root disk, so that instances can be created."""
    with server.connect() as link:
        for method, target, body in (("POST", "/1.0/storage-pools", {"driver": "dir", "name": "p0"}),
                                     ("PUT", "/1.0/profiles/default", ROOT_DISK), ("POST", "/1.0/projects", {"name": "quiet"})):
            need(ask(link, method, target, body)[0] == 200, target)


# ---- listeners

def listeners(program, seconds):
    alone, beside = [], []
    with Server(program) as server:
        furnish(server)
        for _ in range(3):
            alone.append(load(server, 8, seconds)[1])
            quiet = [Listener(server, "?project=quiet") for _ in range(LISTENERS)]
            beside.append(load(server, 8, seconds)[1])
            for listener in quiet:
                listener.link.close()
            time.sleep(1)
    share = statistics.median(beside) / statistics.median(alone)
    told = f"{statistics.median(alone):.0f} a second alone, {statistics.median(beside):.0f} beside {LISTENERS} listeners, {share:.2f}"
    need(share >= LEAST_SHARE, told)
    return told




# ---- a wait

PTRACE_DETACH, PTRACE_SEIZE, PTRACE_INTERRUPT = 17, 0x4206, 0x4207
WAIT_ALL = 0x40000000


class Held:
    """A thread of another process that stands still. It is let go by the thread that holds it."""

    def __init__(self, task):
        self.task = task
        self.call = ctypes.CDLL(None, use_errno=True).ptrace
        self.call.argtypes = [ctypes.c_long, ctypes.c_long, ctypes.c_void_p, ctypes.c_void_p]

    def __enter__(self):
        if self.call(PTRACE_SEIZE, self.task, None, None) != 0:
            raise Skipped(f"ptrace: {os.strerror(ctypes.get_errno())}")
        need(self.call(PTRACE_INTERRUPT, self.task, None, None) == 0, "the thread can't be stopped")
        os.waitpid(self.task, WAIT_ALL)
        return self

    def __exit__(self, kind, error, trace):
        self.call(PTRACE_DETACH, self.task, None, None)


def worker_of(server):
    """The one thread that a server with one worker and no connection has beside its first."""
    tasks = {int(path.name) for path in Path(f"/proc/{server.process.pid}/task").iterdir()} - {server.process.pid}
    need(len(tasks) == 1, f"{len(tasks)} threads, and one is due")
    return tasks.pop()


def wait(program, seconds):
    with Server(program, "--workers", "1") as server:
        worker = worker_of(server)
        furnish(server)
        link = server.connect()
        with Held(worker):
            path = operation(ask(link, "POST", "/1.0/instances", {"name": "a", "source": {"type": "none"}}))
            answered = []

            def await_end():
                with server.connect() as waiter:
                    waiter.settimeout(None)
                    reply = ask(waiter, "GET", f"{path}/wait?timeout=-1")
                    answered.append((time.monotonic(), reply))

            thread = threading.Thread(target=await_end, daemon=True)
            thread.start()
            made = 0
            while made <= MOST_REQUESTS:
                made += load(server, 8, seconds)[0]
                need(not answered, f"the wait was answered after {made} requests of others: {answered}")
            begun = time.monotonic()
        thread.join(PATIENCE)
        need(answered, "the wait is not answered")
        took, (status, body) = answered[0][0] - begun, answered[0][1]
        need(status == 200 and body["metadata"]["status"] == "Success", f"the wait came to {body}")
        need(took < 1, f"the wait was answered {took:.2f} s after its operation could go on")
        link.close()
    return f"not answered beside {made} requests; {took:.3f} s after its worker went on, with Success"


# ---- the order of events

def call(server, number, until, wrong):
    try:
        with server.connect() as link:
            made = 0
            while time.monotonic() < until:
                if made % 8 == 0:
                    body = {"name": f"c{number}-{made}", "source": {"type": "none"}}
                    status = ask(link, "POST", "/1.0/instances", body)[0]
                else:
                    status = ask(link, "PATCH", "/1.0/projects/default", {"config": {f"user.c{number}": str(made)}})[0]
                if status not in (200, 202):
                    wrong.append(f"caller {number}: {status}")
                    return
                made += 1
    except (OSError, Wrong) as error:
        wrong.append(f"caller {number}: {error!r}")


def order(program, _):
    with Server(program) as server:
        furnish(server)
        listener = Listener(server)
        wrong, times, until = [], [], time.monotonic() + CALLING
        threads = [threading.Thread(target=call, args=(server, number, until, wrong)) for number in range(CALLERS)]
        for thread in threads:
            thread.start()
        listener.link.settimeout(2)
        try:
            while True:
                _, content = listener.frame()
                times.append(json.loads(content)["timestamp"] if content.startswith(b"{") else None)
        except TimeoutError:
            pass
        for thread in threads:
            thread.join()
        need(not wrong, str(wrong[:3]))
        need(None not in times, f"the listener lagged after {len(times)} events")
        fell = sum(1 for before, after in zip(times, times[1:]) if after < before)
        need(fell == 0, f"{fell} of {len(times)} events have an earlier time than the one before")
    return f"{len(times)} events, from {times[0]} to {times[-1]}"


# ---- hostile clients

def drip(port, opening, rest, count):
    """So many connections that send an opening at once, and then a byte a second, one after the other, for ever."""
    links = [socket.create_connection(("127.0.0.1", port)) for _ in range(count)]
    for link in links:
        link.sendall(opening)
    place = 0
    while True:
        for at, link in enumerate(links):
            try:
                link.sendall(rest[place % len(rest):][:1])
            except OSError:
                links[at] = socket.create_connection(("127.0.0.1", port))
                links[at].sendall(opening)
        place += 1
        time.sleep(1)


def idle(port, count):
    links = [socket.create_connection(("127.0.0.1", port)) for _ in range(count)]
    while links:
        time.sleep(1)


def never_read(port, count):
    links = [socket.create_connection(("127.0.0.1", port)) for _ in range(count)]
    text = message("GET", "/1.0/projects?recursion=1") * 100
    for link in links:
        link.setblocking(False)
    while True:
        for link in links:
            try:
                link.send(text)
            except OSError:
                pass
        time.sleep(0.05)


def bad_frames(port, count):
    pieces = [b"\x89\x00", masked(0xc9, b""), masked(0x83, b""), masked(0x81, b"x" * 4097)[:8], masked(0x09, b""), os.urandom(64)]
    while True:
        for number in range(count):
            try:
                with socket.create_connection(("127.0.0.1", port), timeout=5) as link:
                    link.sendall(handshake("?project=quiet") + pieces[number % len(pieces)])
                    while link.recv(4096):
                        pass
            except OSError:
                pass
        time.sleep(0.2)


def at_once(port, _):
    text = message("GET", "/1.0") * 1000
    while True:
        with socket.create_connection(("127.0.0.1", port)) as link:
            link.sendall(text)
            replies = Reader(link)
            for _ in range(1000):
                replies.reply()
        time.sleep(0.5)


def took(server):
    """How long each of so many requests took, in milliseconds: half of them at most, and 99 of 100."""
    times = []
    with server.connect() as link:
        link.setsockopt(socket.IPPROTO_TCP, socket.TCP_NODELAY, 1)
        text, replies = message("GET", "/1.0/projects/default"), Reader(link)
        for _ in range(ASKED):
            begun = time.perf_counter()
            link.sendall(text)
            replies.reply()
            times.append(1000 * (time.perf_counter() - begun))
            time.sleep(0.0005)
    times.sort()
    return times[len(times) // 2], times[len(times) * 99 // 100], times[-1]


def hostile(program, _):
    with Server(program, "--at-once", "1024") as server:
        furnish(server)
        alone = took(server)
        head = b"GET /1.0 HTTP/1.1\r\nHost: localhost\r\nX-Long: "
        body = b"POST /1.0/projects HTTP/1.1\r\nHost: localhost\r\nContent-Length: 1000000\r\n\r\n"
        crowd = [(drip, b"", head, 40), (drip, body, b" ", 40), (drip, handshake("?project=quiet"), masked(0x89, b"x" * 100), 40),
                 (idle, 500), (never_read, 20), (bad_frames, 20), (at_once, 1)]
        with_whom = [multiprocessing.Process(target=what, args=(server.port, *given), daemon=True) for what, *given in crowd]
        for process in with_whom:
            process.start()
        time.sleep(5)
        beside = took(server)
        ended = [place for place, process in enumerate(with_whom) if not process.is_alive()]
        for process in with_whom:
            process.kill()
            process.join()
        need(not ended, f"the clients {ended} of the crowd ended")
    told = "{:.2f}, {:.2f} and {:.2f} ms alone (half, 99 of 100, all)".format(*alone) \
           + ", {:.2f}, {:.2f} and {:.2f} ms beside them".format(*beside)
    need(beside[0] <= 2 * alone[0] + 1 and beside[1] <= 2 * alone[1] + 1, told)
    return told


def main():
    words = argparse.ArgumentParser()
    words.add_argument("--program", default=str(TOP / "crates/incusd/out/incusd"))
    words.add_argument("--only", default="")
    words.add_argument("--seconds", type=int, default=10, metavar="S")
    said = words.parse_args()
    wrong = 0
    for name, check in (("listeners", listeners), ("wait", wait), ("order", order), ("hostile", hostile)):
        if said.only not in name:
            continue
        begun = time.monotonic()
        try:
            print(f"{name}: {check(said.program, said.seconds)}, {time.monotonic() - begun:.1f} s", flush=True)
        except Skipped as reason:
            print(f"{name}: skipped: {reason}", flush=True)
        except (Wrong, OSError, KeyError, ValueError, subprocess.SubprocessError) as error:
            wrong += 1
            print(f"{name}: WRONG: {error!r}", flush=True)
    return 1 if wrong else 0


if __name__ == "__main__":
    sys.exit(main())
