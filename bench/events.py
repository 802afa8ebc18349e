#!/usr/bin/env python3
"""Measures how incusd tells events over loopback, to many listeners at once.

    bench/events.py [--program FILE] [--listeners N] [--rate N] [--seconds S]

The program is crates/incusd/out/incusd without `--program` (`bin/incusd --prove` makes it). N listeners (32) of the project `default`
listen while one connection changes a project N times a second (1,000) for S seconds (10), in batches every 10 ms. Told are

1. how many events each listener got, which have to be all;
2. how many were made a second;
3. the longest time from the sending of a request to the moment at which a listener had its event, the script's own time counted;
4. the memory of the server at the end (VmRSS and VmHWM of /proc/PID/status).

It ends with status 1 where an event was lost, or told twice.
"""
import argparse
import re
import selectors
import sys
import threading
import time
from pathlib import Path

TOP = Path(__file__).resolve().parent.parent
sys.dont_write_bytecode = True
sys.path.insert(0, str(TOP / "tests"))
from events import TEXT, Listener, frame_at, leave  # noqa: E402
from server import PATIENCE, Reader, Server, Wrong, message, need  # noqa: E402

BATCHES_A_SECOND = 100
CHANGE = message("PATCH", "/1.0/projects/default", {"description": "changed"})


class Ear(Listener):
    """A listener that counts its events, and keeps the longest time that one took."""

    def __init__(self, server):
        super().__init__(server, "?type=lifecycle")
        self.count, self.longest, self.closed = 0, 0.0, False

    def hear(self, sent):
        """Takes what has come. The event that has waited longest is the first of it."""
        piece = self.link.recv(65536)
        now, before, at = time.monotonic(), self.count, 0
        self.held += piece
        while (found := frame_at(self.held, at)) is not None:
            first, _, at = found
            self.count += first == TEXT
        self.held = self.held[at:]
        self.closed = not piece
        if before < min(self.count, len(sent)):
            self.longest = max(self.longest, now - sent[before])


def hear_all(ears, sent, over):
    """Reads what comes to the listeners until the event `over`."""
    with selectors.DefaultSelector() as selector:
        for ear in ears:
            selector.register(ear.link, selectors.EVENT_READ, ear)
        while not over.is_set():
            for key, _ in selector.select(0.1):
                key.data.hear(sent)
                if key.data.closed:
                    selector.unregister(key.data.link)


def change(link, count, sent):
    """So many changes at once. When each was sent is kept before it is, since its event may come before this goes on."""
    sent.extend([time.monotonic()] * count)
    link.sendall(CHANGE * count)
    replies = Reader(link)
    for _ in range(count):
        need(replies.reply()[0] == 200, "a change is refused")


def change_steadily(link, rate, seconds, sent):
    """Makes the changes, and tells how many a second were made."""
    begun = time.monotonic()
    for batch in range(1, seconds * BATCHES_A_SECOND + 1):
        change(link, rate * batch // BATCHES_A_SECOND - len(sent), sent)
        time.sleep(max(0, begun + batch / BATCHES_A_SECOND - time.monotonic()))
    return len(sent) / (time.monotonic() - begun)


def await_events(ears, count):
    """Waits until each listener has so many events or its connection has ended, and then for what may come beyond."""
    until = time.monotonic() + PATIENCE
    while any(ear.count < count and not ear.closed for ear in ears) and time.monotonic() < until:
        time.sleep(0.01)
    time.sleep(0.2)


def memory(server):
    held = dict(re.findall(r"(Vm\w+):\s+(\d+) kB", Path(f"/proc/{server.process.pid}/status").read_text()))
    return f"VmRSS {held['VmRSS']} kB, VmHWM {held['VmHWM']} kB"


def measure(said):
    """Whether each listener got each event once."""
    with Server(said.program, said.listeners + 1) as server, server.connect() as link:
        ears, sent, over = [Ear(server) for _ in range(said.listeners)], [], threading.Event()
        hearing = threading.Thread(target=hear_all, args=(ears, sent, over), daemon=True)
        hearing.start()
        reached = change_steadily(link, said.rate, said.seconds, sent)
        told = len(sent)
        await_events(ears, told)
        over.set()
        hearing.join()
        print(f"events: {told}; the {said.listeners} listeners got: {' '.join(str(ear.count) for ear in ears)}")
        print(f"events a second: {reached:.0f}, and {said.rate} were asked for")
        print(f"longest time from a request to its event: {1000 * max(ear.longest for ear in ears):.1f} ms")
        print(f"memory: {memory(server)}")
        leave(server, ears, lambda: change(link, 1, []))
    return all(ear.count == told for ear in ears)


def main():
    words = argparse.ArgumentParser()
    words.add_argument("--program", default=str(TOP / "crates/incusd/out/incusd"))
    words.add_argument("--listeners", type=int, default=32)
    words.add_argument("--rate", type=int, default=1000)
    words.add_argument("--seconds", type=int, default=10)
    try:
        whole = measure(words.parse_args())
    except (Wrong, OSError) as error:
        print(f"WRONG: {error!r}")
        return 1
    print("no event was lost" if whole else "WRONG: not each listener got each event once")
    return 0 if whole else 1


if __name__ == "__main__":
    sys.exit(main())
