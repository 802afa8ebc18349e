#!/usr/bin/env python3
"""Measures incusd over loopback, with 1, 8 and 64 connections at once.

    bench/links.py [--program FILE] [--seconds S] [--creations N]

1. GET /1.0 a second, by `wrk` (of Debian's packages), each connection asking again as soon as it has its reply.
2. Creations of instances a second in a project with limits, by Python, each connection creating its share of N, and the
   time until the last operation has ended.
3. The memory of the server at the end of each (VmRSS and VmHWM of /proc/PID/status).

It prints a line for each, and ends with status 1 where a request is refused.
"""
import argparse
import re
import subprocess
import sys
import threading
import time
from pathlib import Path

TOP = Path(__file__).resolve().parent.parent
sys.path.insert(0, str(TOP / "tests"))
from server import ROOT_DISK, Server, Wrong, ask, need  # noqa: E402

LINKS = (1, 8, 64)
# The limits are above all that is made, so that each creation is judged by them and none is refused.
PROJECT = {"name": "lab", "config": {"limits.instances": "100000", "limits.memory": "100TiB"}}


def memory(server):
    text = Path(f"/proc/{server.process.pid}/status").read_text()
    held = dict(re.findall(r"(Vm\w+):\s+(\d+) kB", text))
    return f"VmRSS {held['VmRSS']} kB, VmHWM {held['VmHWM']} kB"


def reads(program, links, seconds):
    """GET /1.0 a second, and the memory of the server meanwhile."""
    # `wrk` makes one more connection to look whether there is a server, and one keeps it until its memory was read.
    with Server(program, links + 2) as server, server.connect() as kept:
        ran = subprocess.run(
            ["wrk", "-t", str(min(links, 2)), "-c", str(links), "-d", f"{seconds}s", f"http://127.0.0.1:{server.port}/1.0"],
            capture_output=True, text=True, check=True)
        need("Non-2xx" not in ran.stdout, ran.stdout)
        held = memory(server)
        ask(kept, "GET", "/1.0", last=True)
    return float(re.search(r"Requests/sec:\s+([\d.]+)", ran.stdout)[1]), held


def creations(program, links, count):
    """Creations a second with these connections, the seconds until all have ended, and the memory of the server then."""
    with Server(program, links + 1) as server, server.connect() as first:
        for method, target, body in (
                ("POST", "/1.0/storage-pools", {"driver": "dir", "name": "p0"}), ("POST", "/1.0/projects", PROJECT),
                ("PUT", "/1.0/profiles/default?project=lab", {**ROOT_DISK, "config": {"limits.memory": "1MiB"}})):
            need(ask(first, method, target, body)[0] == 200, target)
        wrong = []
        threads = [threading.Thread(target=create, args=(server, number, count // links, wrong)) for number in range(links)]
        begun = time.monotonic()
        for thread in threads:
            thread.start()
        for thread in threads:
            thread.join()
        taken = time.monotonic() - begun
        need(not wrong, wrong[:1])
        while len(ask(first, "GET", "/1.0/instances?project=lab")[1]["metadata"]) < count // links * links:
            time.sleep(0.05)
        ended, held = time.monotonic() - begun, memory(server)
        ask(first, "GET", "/1.0", last=True)
    return count // links * links / taken, ended, held


def create(server, number, count, wrong):
    """Creates instances one after the other on one connection. Where too many operations are live, it asks again."""
    with server.connect() as link:
        for made in range(count):
            body = {"name": f"i{number}-{made}", "source": {"type": "none"}}
            reply = ask(link, "POST", "/1.0/instances?project=lab", body)
            while reply[0] == 409 and reply[1]["metadata"]["rule"] == "O4":
                time.sleep(0.001)
                reply = ask(link, "POST", "/1.0/instances?project=lab", body)
            if reply[0] != 202:
                wrong.append(reply)
                return
        ask(link, "GET", "/1.0", last=True)


def main():
    words = argparse.ArgumentParser()
    words.add_argument("--program", default=str(TOP / "crates/incusd/out/incusd"))
    words.add_argument("--seconds", type=int, default=5)
    words.add_argument("--creations", type=int, default=2000)
    said = words.parse_args()
    try:
        for links in LINKS:
            rate, held = reads(said.program, links, said.seconds)
            print(f"GET /1.0, {links} connections: {rate:.0f} a second; {held}", flush=True)
        for links in LINKS:
            rate, ended, held = creations(said.program, links, said.creations)
            print(f"creations with limits, {links} connections: {rate:.0f} a second, all ended after {ended:.1f} s; {held}", flush=True)
    except Wrong as error:
        print(f"WRONG: {error}")
        return 1
    return 0


if __name__ == "__main__":
    sys.exit(main())
