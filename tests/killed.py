#!/usr/bin/env python3
"""Kills incusd over a database at random moments while eight clients change rows, and compares what is kept with what it had answered.

    tests/killed.py [--program FILE] [--check FILE] [--kills N] [--seed N]

The programs are crates/incusd/out/incusd and crates/incus_run/out/incus_run without `--program` and `--check` (`bin/incusd --prove` and
`bin/incus_run --prove` make them). N times (1,000): the server is started over the file that the last one left, eight clients change rows
over TCP, each one change after the reply to the one before, and it is killed by SIGKILL at a random moment. Then:

1. `incus_run check` opens the file, so no row in it is half there, and the counts that it tells are those of the rows that are found.
2. The next server answers a GET of each object by what the last acknowledged change of it left. The change of a client that was under way is
   there whole or not at all.

A client has projects and volumes of its own names, makes, changes and deletes them, so that each change but the one under way is known to
be acknowledged. With an empty FILE for `--check` the counts are left out. It prints how many changes were acknowledged and how many of those
under way were made, and ends with status 1 where something is otherwise.
"""
import argparse
import http.client
import json
import random
import signal
import subprocess
import sys
import tempfile
import threading
import time
from pathlib import Path

sys.dont_write_bytecode = True
from server import TOP, PATIENCE, Wrong, free_port, listens, need  # noqa: E402

CLIENTS = 8
# How many objects of a kind a client has at most.
MOST = 6
VOLUMES = "/1.0/storage-pools/tank/volumes/custom"
LISTS = {"project": "/1.0/projects", "volume": VOLUMES}


class Server:
    """A server over the file of rows, which is killed in the end."""

    def __init__(self, program, file):
        self.port = free_port()
        self.process = subprocess.Popen(
            [program, "--port", str(self.port), "--db", str(file)], stdin=subprocess.DEVNULL, stdout=subprocess.DEVNULL, stderr=subprocess.PIPE)
        until = time.monotonic() + PATIENCE
        while not listens(self.port):
            if self.process.poll() is not None:
                raise Wrong(f"the server ended: {self.process.stderr.read().decode()}")
            need(time.monotonic() < until, "the server doesn't listen")
            time.sleep(0.002)

    def connect(self):
        return http.client.HTTPConnection("127.0.0.1", self.port, timeout=PATIENCE)

    def kill(self):
        self.process.send_signal(signal.SIGKILL)
        self.process.wait()
        self.process.stderr.close()


def ask(link, method, target, body=None):
    link.request(method, target, None if body is None else json.dumps(body))
    reply = link.getresponse()
    return reply.status, json.loads(reply.read())


class Client:
    """One client: the descriptions of the objects that it knows to be there, and the change that is under way, if one is."""

    def __init__(self, number, seed):
        self.number, self.chance, self.made, self.acknowledged = number, random.Random(seed * 1000 + number), 0, 0
        self.there = {kind: {} for kind in LISTS}
        self.under_way = None
        self.wrong = None

    def next_change(self):
        """A change that can be made: its kind, its name, its request, and the description that it leaves, or None."""
        kind = self.chance.choice(list(LISTS))
        names, path, deed = list(self.there[kind]), LISTS[kind], self.chance.random()
        self.made += 1
        description = f"change {self.made} " + "x" * self.chance.choice((0, 50, 3000))
        if not names or deed < 0.4 and len(names) < MOST:
            name = f"{kind[0]}{self.number}-{self.made}"
            return kind, name, ("POST", path, {"name": name, "description": description}), description
        name = self.chance.choice(names)
        if deed < 0.8:
            return kind, name, ("PATCH", f"{path}/{name}", {"description": description}), description
        return kind, name, ("DELETE", f"{path}/{name}"), None

    def put(self, kind, name, description):
        if description is None:
            self.there[kind].pop(name, None)
        else:
            self.there[kind][name] = description

    def change_on(self, server):
        """Makes changes until the server is gone."""
        try:
            link = server.connect()
            while True:
                self.under_way = kind, name, asked, description = self.next_change()
                status, reply = ask(link, *asked)
                if status != 200:
                    self.wrong = f"{asked}: {status} {reply}"
                    return
                self.put(kind, name, description)
                self.under_way = None
                self.acknowledged += 1
        except (OSError, http.client.HTTPException, ValueError):
            return

    def compare(self, link):
        """Asks for each object; whether the change that was under way was made."""
        made = False
        if self.under_way:
            kind, name, _, description = self.under_way
            made = found_at(link, kind, name) == description and self.there[kind].get(name) != description
            if made:
                self.put(kind, name, description)
            self.under_way = None
        for kind, known in self.there.items():
            for name, description in known.items():
                found = found_at(link, kind, name)
                need(found == description, f"{kind} {name}: {found and found[:30]!r} is there, {description[:30]!r} was acknowledged")
        return made


def found_at(link, kind, name):
    """The description of an object, or None where it is not there."""
    status, reply = ask(link, "GET", f"{LISTS[kind]}/{name}")
    need(status in (200, 404), f"GET of {name}: {status} {reply}")
    return reply["metadata"]["description"] if status == 200 else None


def check(program, file):
    """How many rows of each kind a file has; it has to open. Without a program nothing is told."""
    if not program:
        return {}
    ran = subprocess.run([program, "check", "--db", str(file)], capture_output=True, check=False)
    need(ran.returncode == 0, f"check ended with status {ran.returncode}: {ran.stderr.decode()}")
    return {words[0]: int(words[1]) for words in map(str.split, ran.stdout.decode().splitlines()) if len(words) == 2}


def compare_all(server, clients, counts):
    """Compares all objects with what was acknowledged, and the number of rows; how many changes under way were made."""
    link = server.connect()
    made = sum(client.compare(link) for client in clients)
    for kind, target in LISTS.items():
        status, reply = ask(link, "GET", target)
        names = {each.split("?")[0].rsplit("/", 1)[1] for each in reply["metadata"]}
        due = {name for client in clients for name in client.there[kind]} | ({"default"} if kind == "project" else set())
        need(status == 200 and names == due, f"{kind}: {sorted(names ^ due)[:5]} are there or not against what was acknowledged")
        told = counts.get(f"{kind}s", len(due))
        need(told == len(due), f"check tells {told} of kind {kind}, there are {len(due)}")
    link.close()
    return made


def main():
    parser = argparse.ArgumentParser()
    parser.add_argument("--program", default=str(TOP / "crates/incusd/out/incusd"))
    parser.add_argument("--check", default=str(TOP / "crates/incus_run/out/incus_run"))
    parser.add_argument("--kills", type=int, default=1000)
    parser.add_argument("--seed", type=int, default=7)
    said = parser.parse_args()
    chance, clients, made = random.Random(said.seed), [Client(number, said.seed) for number in range(CLIENTS)], 0
    with tempfile.TemporaryDirectory() as folder:
        file = Path(folder, "rows.db")
        server = Server(said.program, file)
        need(ask(server.connect(), "POST", "/1.0/storage-pools", {"name": "tank", "driver": "dir"})[0] == 200, "no pool is made")
        try:
            for at in range(said.kills):
                threads = [threading.Thread(target=client.change_on, args=(server,)) for client in clients]
                for thread in threads:
                    thread.start()
                time.sleep(chance.uniform(0.01, 0.25))
                server.kill()
                for thread in threads:
                    thread.join(PATIENCE)
                wrong = [client.wrong for client in clients if client.wrong]
                need(not wrong, f"after {at + 1} kills: {wrong[:1]}")
                counts = check(said.check, file)
                server = Server(said.program, file)
                made += compare_all(server, clients, counts)
        except Wrong as why:
            sys.exit(f"after {at + 1} kills: {why}")
        finally:
            server.kill()
    acknowledged = sum(client.acknowledged for client in clients)
    print(f"{said.kills} kills under {CLIENTS} clients: {acknowledged} changes were acknowledged, and all of them are there; of those "
          f"under way {made} were made; no row is half there")
    return 0


if __name__ == "__main__":
    sys.exit(main())
