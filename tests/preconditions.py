#!/usr/bin/env python3
"""Asks incusd for changes under a precondition (RFC 9110, section 13.1.1), at a socket file and at a port; one line for each check.

    tests/preconditions.py [--program FILE] [--rounds N] [--only WORD]

The program is crates/incusd/out/incusd without `--program` (`bin/incusd --prove` makes it). Each check starts a server of its own.

1. `tags`: a GET of an object of each kind has an ETag at the socket file, the same one until the object is changed, and none at the port. Lists,
   states, operations, the server and refusals have none.
2. `judged`: with the tag of the object, with `*` and without an If-Match a change is made; with another tag, a weak one, a list, a text without
   quotes or nothing it is 412 E1 with kind, name and project, whatever else it breaks, and nothing is changed; a missing object is N2 first. So it is
   of PUT, PATCH, POST and DELETE, of objects of each kind, at both doors.
3. `made again`: an object that was removed and made again with another content has another tag.
4. `updates`: N rounds (20): 12 clients at once read an object, add a key of their own and PUT it with its tag, as the stock client does. As many keys
   are there as changes were answered as made: of a project, a profile, a network and an instance.

It ends with status 1 where something is otherwise.
"""
import argparse
import http.client
import json
import os
import re
import sys
import tempfile
import threading
from pathlib import Path

sys.dont_write_bytecode = True
from server import TOP, PATIENCE, Wrong, free_port, need  # noqa: E402
from sockets import Server  # noqa: E402

CLIENTS = 12
TAG = re.compile(r'"[0-9a-f]{64}"')
ROOT = {"root": {"type": "disk", "path": "/", "pool": "tank"}}


class Link(http.client.HTTPConnection):
    """One connection to a door of a server, which is kept open."""

    def __init__(self, server, at_port=False):
        super().__init__("localhost", timeout=PATIENCE)
        self.open = server.at_port if at_port else server.at_socket

    def connect(self):
        self.sock = self.open()

    def ask(self, method, path, body=None, tag=None):
        """The status, the body and the ETag of the reply."""
        heads = {} if tag is None else {"If-Match": tag}
        self.request(method, "/1.0" + path, None if body is None else json.dumps(body), heads)
        reply = self.getresponse()
        return reply.status, json.loads(reply.read()), reply.getheader("ETag")

    def made(self, method, path, body=None, tag=None):
        """Whether the change was made: at once, or by an operation that ended well."""
        status, told, _ = self.ask(method, path, body, tag)
        if status != 202:
            return status == 200
        ended = self.ask("GET", told["operation"].removeprefix("/1.0").split("?")[0] + "/wait")[1]
        return ended["metadata"]["status"] == "Success"

    def must(self, *words):
        need(self.made(*words), f"{words[:2]} is not made")


def furnish(link):
    """An object of each kind in the project `lab`; the paths of those that can be shown."""
    link.must("POST", "/storage-pools", {"name": "tank", "driver": "dir"})
    link.must("POST", "/projects", {"name": "lab", "config": {"features.networks": "true"}})
    link.must("PUT", "/profiles/default?project=lab", {"devices": ROOT})
    link.must("POST", "/profiles?project=lab", {"name": "web"})
    link.must("POST", "/networks?project=lab", {"name": "br0"})
    link.must("POST", "/storage-pools/tank/volumes?project=lab", {"name": "v", "type": "custom"})
    link.must("POST", "/instances?project=lab", {"name": "a", "source": {"type": "none"}})
    link.must("POST", "/instances/a/snapshots?project=lab", {"name": "s"})
    return {
        "project": "/projects/lab", "profile": "/profiles/web?project=lab", "network": "/networks/br0?project=lab", "storage-pool": "/storage-pools/tank",
        "storage-volume": "/storage-pools/tank/volumes/custom/v?project=lab", "instance": "/instances/a?project=lab",
        "snapshot": "/instances/a/snapshots/s?project=lab",
    }


def tags(server, rounds):
    link, port = Link(server), Link(server, at_port=True)
    paths = furnish(link)
    for kind, path in paths.items():
        status, told, tag = link.ask("GET", path)
        need(status == 200 and tag and TAG.fullmatch(tag), f"{kind}: {status}, ETag {tag}")
        need(link.ask("GET", path)[2] == tag, f"{kind}: another tag for the same content")
        need(port.ask("GET", path)[2] is None, f"{kind}: a tag at the port")
        if kind in ("snapshot",):
            continue
        link.must("PATCH", path, {"description": "changed"})
        need(link.ask("GET", path)[2] not in (tag, None), f"{kind}: the same tag for another content")
    for path in ("", "/projects", "/projects?recursion=1", "/instances/a/state?project=lab", "/projects/lab/state", "/operations", "/projects/none",
                 "/instances?recursion=1&project=lab"):
        need(link.ask("GET", path)[2] is None, f"{path} has a tag")
    return f"{len(paths)} kinds"


def judged(server, rounds):
    link, port = Link(server), Link(server, at_port=True)
    paths, tried = furnish(link), 0
    for kind, path in paths.items():
        for door in (link, port):
            tag = link.ask("GET", path)[2]
            for wrong in ('"' + "0" * 64 + '"', "W/" + tag, f'"x", {tag}', tag.strip('"'), "", tag.upper()):
                asks = [("DELETE", path, None)]
                if kind != "snapshot":
                    asks += [("PUT", path, {"config": {"no.such.key": "x"}}), ("PATCH", path, {"description": "x"})]
                    if kind != "storage-pool":
                        asks += [("POST", path, {"name": "other"})]
                for method, at, body in asks:
                    status, told, _ = door.ask(method, at, body, wrong)
                    kept = told.get("metadata", {})
                    need(status == 412 and kept.get("rule") == "E1" and kept.get("kind") == kind and kept.get("project")
                         and kept.get("name") == path.split("?")[0].rsplit("/", 1)[1], f"{kind}: {method} with {wrong!r}: {status} {told}")
                    tried += 1
            need(link.ask("GET", path)[2] == tag, f"{kind}: a refused change has changed it")
            need(door.ask("DELETE", path.replace("/" + path.split("?")[0].rsplit("/", 1)[1], "/none"), None, '"x"')[1]["metadata"]["rule"] in ("N2", "A1"),
                 f"{kind}: a missing object is not N2")
            if kind != "snapshot":
                for right in (tag, "*", None):
                    need(door.made("PATCH", path, {"description": f"{tried} by {right}"}, right), f"{kind}: PATCH with {right}")
                need(not door.made("PATCH", path, {"description": "late"}, tag), f"{kind}: an old tag")
                tried += 4
    need(link.ask("POST", "/projects", {"name": "new"}, '"x"')[0] == 200, "a creation expects a tag")
    need(link.ask("GET", "/projects", None, '"x"')[0] == 200, "a list expects a tag")
    return f"{tried} requests"


def made_again(server, rounds):
    link = Link(server)
    link.must("POST", "/projects", {"name": "lab", "description": "first"})
    tag = link.ask("GET", "/projects/lab")[2]
    link.must("DELETE", "/projects/lab", None, tag)
    link.must("POST", "/projects", {"name": "lab", "description": "second"})
    need(link.ask("GET", "/projects/lab")[2] != tag, "the same tag")
    need(link.ask("DELETE", "/projects/lab", None, tag)[0] == 412, "the old tag is taken")
    return "a project"


def add_key(server, path, number, start, made):
    link = Link(server)
    shown, tag = link.ask("GET", path)[1:]
    row = shown["metadata"]
    body = {name: row[name] for name in ("config", "description", "devices", "profiles") if name in row}
    body["config"] = {name: value for name, value in body["config"].items() if not name.startswith("volatile.")} | {f"user.k{number}": "x"}
    start.wait()
    if link.made("PUT", path, body, tag):
        made.append(number)


def updates(server, rounds):
    link = Link(server)
    furnish(link)
    counts = []
    for name, path in (("projects", "/projects/lab"), ("profiles", "/profiles/web?project=lab"), ("networks", "/networks/br0?project=lab"),
                       ("instances", "/instances/a?project=lab")):
        made = 0
        for _ in range(rounds):
            before = {key for key in link.ask("GET", path)[1]["metadata"]["config"] if key.startswith("user.")}
            start, well = threading.Barrier(CLIENTS), []
            clients = [threading.Thread(target=add_key, args=(server, path, f"{made}.{each}", start, well)) for each in range(CLIENTS)]
            for client in clients:
                client.start()
            for client in clients:
                client.join()
            after = {key for key in link.ask("GET", path)[1]["metadata"]["config"] if key.startswith("user.")}
            need(len(after - before) == len(well) and before <= after, f"{name}: {len(well)} say that they changed it, {len(after - before)} keys are new")
            need(well, f"{name}: nobody changed it")
            made += len(well)
        counts.append(f"{made} of {rounds * CLIENTS} changes of {name}")
    return ", ".join(counts)


CHECKS = {"tags": tags, "judged": judged, "made again": made_again, "updates": updates}


def main():
    reader = argparse.ArgumentParser(description=__doc__, formatter_class=argparse.RawDescriptionHelpFormatter)
    reader.add_argument("--program", default=str(TOP / "crates/incusd/out/incusd"))
    reader.add_argument("--rounds", type=int, default=20)
    reader.add_argument("--only", default="")
    words = reader.parse_args()
    if not os.access(words.program, os.X_OK):
        sys.exit(f"{words.program} is not there: `bin/incusd --prove` makes it")
    failed = 0
    for name, check in CHECKS.items():
        if words.only not in name:
            continue
        with tempfile.TemporaryDirectory(prefix="preconditions.") as folder:
            try:
                with Server(words.program, str(Path(folder) / "incusd.socket"), port=free_port()) as server:
                    print(f"{name}: {check(server, words.rounds)}", flush=True)
            except (Wrong, OSError, KeyError, http.client.HTTPException) as wrong:
                failed += 1
                print(f"{name}: OTHERWISE: {type(wrong).__name__}: {wrong}", flush=True)
    sys.exit(failed > 0)


if __name__ == "__main__":
    main()
