#!/usr/bin/env python3
"""Starts incusd on a free port of 127.0.0.1 and listens to its events, by plain sockets and by a stock library; one line for each check.

    tests/events.py [--program FILE] [--only WORD] [--listen SECONDS] [--links N]

The program is crates/incusd/out/incusd without `--program` (`bin/incusd --prove` makes it). Each check starts a server of its own, which
has to end by itself, with status 0 after its last connection.

1. `accept`: the head that accepts a handshake, to the byte; what is no handshake, a bad query, and a project that is missing, are refused on
   a connection that goes on, and once there is that project, the same connection becomes its session.
2. `creation`: what listeners of each type get of the creation of an instance.
3. `cancelled`: an operation that is cancelled while it waits tells Pending and Cancelled alone. 20 tries at most.
4. `a tenant's day`: some 200 requests in two projects, and three clients of the library `websockets`, each of which has to get exactly the
   events of its filter, in order. It is skipped where neither this Python nor /usr/bin/python3 has the library.
5. `lagged`: a listener that doesn't read gets all events from its first up to one that is no longer kept, then a close frame; beside it
   one that reads gets all of them.
6. `gone`: listeners that go away within the head of their request, after it, and within an event: each is noticed within two seconds, in
   a quiet project too.
7. `frames`: what a listener gets for each frame that it sends, to the byte: pings, closes, what is no frame, and frames in pieces. A ping is
   answered within a second, and so is a close, after which the connection ends.
8. `left`: so many listeners come and go (2,000 without `--links`), in a quiet project: threads and handles of the server are what they were.
9. `stock client`: a client of the library `websockets` with its defaults, which pings every 20 s and cuts a link that does not answer,
   listens for so long (70 s without `--listen`) in a quiet project and beside one in a busy one, and closes in under a second. It is
   skipped where the library is missing.

It ends with status 1 where something is otherwise.
"""
import argparse
import asyncio
import itertools
import json
import os
import socket
import struct
import subprocess
import sys
import time
from pathlib import Path

sys.dont_write_bytecode = True
from server import PATIENCE, ROOT_DISK, TOP, Reader, Server, Wrong, ask, message, need  # noqa: E402

try:
    import websockets
except ImportError:
    websockets = None

# The Python that the packages of Debian are for.
STOCK_PYTHON = "/usr/bin/python3"
# The example of RFC 6455, with what has to be answered.
KEY = "dGhlIHNhbXBsZSBub25jZQ=="
HEAD = (b"HTTP/1.1 101 Switching Protocols\r\nUpgrade: websocket\r\nConnection: Upgrade\r\n"
        b"Sec-WebSocket-Accept: s3pPLMBiTxaQ9kYGzzhZRbK+xOo=\r\n\r\n")
# The first bytes of the frames that a server sends.
TEXT, CLOSE, PONG = 0x81, 0x88, 0x8a
# The codes of a close, as its content has them: of a client that keeps no pace, of an end that goes away, of what is no frame and of one
# that is too long.
LAGGED, AWAY, NO_FRAME, TOO_LONG = b"\x03\xf0lagged: events were missed", b"\x03\xe9", b"\x03\xea", b"\x03\xf1"
# How many events the server keeps for its listeners.
KEPT = 1024
STATUS_CODES = {"Pending": 105, "Running": 103, "Cancelling": 104, "Success": 200, "Failure": 400, "Cancelled": 401}
ENDED = {"Success", "Failure", "Cancelled"}
BOTH = {"lifecycle", "operation"}
TOUCHED = ("default", "project-updated", "/1.0/projects/default")


class Skipped(Exception):
    """A check can't be made here."""


# ---- sessions

def handshake(query=""):
    return (f"GET /1.0/events{query} HTTP/1.1\r\nHost: localhost\r\nUpgrade: websocket\r\nConnection: Upgrade\r\n"
            f"Sec-WebSocket-Key: {KEY}\r\nSec-WebSocket-Version: 13\r\n\r\n").encode()


def frame_at(held, at):
    """The first byte of the frame that begins here, and where its content begins and ends, or None where it isn't whole."""
    if len(held) < at + 2:
        return None
    first, length, begins = held[at], held[at + 1], at + 2
    need(length < 128, "a server's frame is masked")
    if length > 125:
        begins += 2 if length == 126 else 8
        if len(held) < begins:
            return None
        least = 126 if length == 126 else 65536
        length = int.from_bytes(held[at + 2:begins], "big")
        need(length >= least, "a length is told in more bytes than it needs")
    return (first, begins, begins + length) if len(held) >= begins + length else None


class Listener(Reader):
    """A client of `/1.0/events` whose handshake was accepted, by the exact head that is due."""

    def __init__(self, server, query="", link=None):
        super().__init__(link or server.connect())
        self.link.sendall(handshake(query))
        while len(self.held) < len(HEAD):
            self.more()
        need(self.held.startswith(HEAD), f"{self.held[:400]}, and {HEAD} is due")
        self.held = self.held[len(HEAD):]
        self.end = end_of(server, self.link.getsockname()[1])

    def frame(self):
        while (found := frame_at(self.held, 0)) is None:
            self.more()
        first, begins, ends = found
        content, self.held = self.held[begins:ends], self.held[ends:]
        return first, content

    def event(self):
        first, content = self.frame()
        need(first == TEXT, f"a frame that begins with {first:#x}, and a text is due")
        return event_in(content)


def event_in(text):
    """An event by its text, which has to have the members that are due."""
    event = json.loads(text)
    need(list(event) == ["metadata", "number", "project", "timestamp", "type"], f"the members of {event}")
    if event["type"] == "lifecycle":
        need(list(event["metadata"]) == ["action", "source"], f"the members of {event}")
    else:
        need(event["type"] == "operation", f"the type of {event}")
        status, code = event["metadata"]["status"], event["metadata"]["status_code"]
        need(STATUS_CODES.get(status) == code, f"the status of {event}")
    return event


def in_short(event):
    """The project of an event, and the action and source that it tells, or the status and the id of an operation."""
    told = event["metadata"]
    if event["type"] == "lifecycle":
        return event["project"], told["action"], told["source"]
    return event["project"], told["status"], told["id"]


def taken(told, project, types):
    """Those events that a listener of this project and these types takes."""
    return [event for event in told
            if event[0] == project and ("operation" if event[1] in STATUS_CODES else "lifecycle") in types]


def need_same(heard, due, who):
    for place, (one, other) in enumerate(itertools.zip_longest(heard, due)):
        need(one == other, f"{who}: event {place} is {one}, and {other} is due")


# ---- ends of sessions

def end_of(server, port):
    """The server's end of the connection from this port, by its name among the open files of the server."""
    until = time.monotonic() + PATIENCE
    while time.monotonic() < until:
        for line in Path("/proc/net/tcp").read_text().splitlines()[1:]:
            fields = line.split()
            ports = [int(fields[place].split(":")[1], 16) for place in (1, 2)]
            # Until the server has accepted the connection, its end is no file.
            if ports == [server.port, port] and fields[9] != "0":
                return f"socket:[{fields[9]}]"
        time.sleep(0.01)
    raise Wrong("the server doesn't accept a connection")


def open_files(server):
    found = set()
    for entry in Path(f"/proc/{server.process.pid}/fd").iterdir():
        try:
            found.add(os.readlink(entry))
        except FileNotFoundError:
            pass  # closed meanwhile
    return found


def await_ends(server, ends, within=PATIENCE):
    """Waits until the server has closed its ends of connections whose clients went away."""
    until = time.monotonic() + within
    while ends & open_files(server):
        need(time.monotonic() < until, f"the session of a listener that went away doesn't end within {within} s")
        time.sleep(0.01)


def leave(server, listeners):
    for listener in listeners:
        listener.link.close()
    await_ends(server, {listener.end for listener in listeners})


def reset(link):
    """Ends a connection at once, without what is due to it."""
    link.setsockopt(socket.SOL_SOCKET, socket.SO_LINGER, struct.pack("ii", 1, 0))
    link.close()


# ---- what is told

def touch(link):
    """One event of the project `default`."""
    reply = ask(link, "PATCH", "/1.0/projects/default", {"description": "touched"})
    need(reply[0] == 200, f"the project default is not changed: {reply}")


class Teller:
    """Asks on one connection, and keeps what has to be told of it, in order, each as `in_short`."""

    def __init__(self, link):
        self.link, self.told, self.asked = link, [], 0

    def ask(self, method, target, body=None, due=200):
        self.asked += 1
        status, reply = ask(self.link, method, target, body)
        need(status == due, f"{method} {target}: {status}, {reply}, and {due} is due")
        return reply

    def change(self, method, target, body, project, action, source):
        """A change at once."""
        self.ask(method, target, body)
        self.told.append((project, action, source))

    def begin(self, method, target, body, project, action, source):
        """A change in the background, which is waited for. Its operation as it ended."""
        reply = self.ask(method, target, body, due=202)
        name = reply["metadata"]["id"]
        ended = self.ask("GET", f"{reply['operation']}/wait")["metadata"]
        need((ended["id"], ended["status"]) == (name, "Success"), f"{method} {target}: {ended}")
        self.told += [(project, "Pending", name), (project, "Running", name), (project, action, source), (project, "Success", name)]
        return ended

    def make_room(self):
        """What an instance of the project `default` needs."""
        self.change("POST", "/1.0/storage-pools", {"driver": "dir", "name": "p0"}, "default", "storage-pool-created",
                    "/1.0/storage-pools/p0")
        self.change("PUT", "/1.0/profiles/default", ROOT_DISK, "default", "profile-updated", "/1.0/profiles/default")

    def create(self, name):
        """An instance of the project `default`."""
        return self.begin("POST", "/1.0/instances", new_instance(name), "default", "instance-created", f"/1.0/instances/{name}")


def new_instance(name):
    return {"name": name, "source": {"type": "none"}}


# ---- the checks

def accept(program):
    with Server(program, 2) as server, server.connect() as link:
        listener = Listener(server)
        touch(link)
        need_same([in_short(listener.event())], [TOUCHED], "the first")
        refused(link, message("GET", "/1.0/events"), "A6")
        refused(link, handshake().replace(b"Version: 13", b"Version: 8"), "A6")
        refused(link, handshake("?all-projects=true"), "A3", key="all-projects")
        refused(link, handshake("?type=logging"), "A3", key="type")
        refused(link, handshake("?project=lab"), "N1", due=404, project="lab")
        touch(link)
        need_same([in_short(listener.event())], [TOUCHED], "after the refusals")
        leave(server, [listener])
        need(ask(link, "POST", "/1.0/projects", {"name": "lab"})[0] == 200, "the project")
        link.sendall(handshake("?project=lab"))
        need(Reader(link).head().encode() + b"\r\n\r\n" == HEAD, "the session of a project that is there")
    return "the head to the byte, and 5 refusals"


def refused(link, text, rule, due=400, **members):
    """The request is refused by this rule, and the connection goes on."""
    link.sendall(text)
    status, body = Reader(link).reply()
    need(status == due and body["metadata"] == {**members, "rule": rule}, f"{text}: {status}, {body}")
    need(ask(link, "GET", "/1.0")[0] == 200, "the connection doesn't go on after a refusal")


def creation(program):
    queries = {"?type=operation": {"operation"}, "?type=lifecycle": {"lifecycle"}, "": BOTH, "?type=operation,lifecycle": BOTH,
               "?type=operation&type=lifecycle": {"operation"}, "?project=default&type=lifecycle&type=operation": {"lifecycle"}}
    with Server(program, 1 + len(queries)) as server, server.connect() as link:
        teller = Teller(link)
        teller.make_room()
        listeners = {query: Listener(server, query) for query in queries}
        teller.told = []
        # By the second creation it is seen that nothing more is told of the first.
        ended = [teller.create(name) for name in ("a", "b")]
        for query, types in queries.items():
            due = taken(teller.told, "default", types)
            events = [listeners[query].event() for _ in due]
            need_same([in_short(event) for event in events], due, query or "no query")
            last = [event["metadata"] for event in events if event["metadata"].get("status") == "Success"]
            need(last == (ended if "operation" in types else []), f"{last}, and {ended} was answered")
        leave(server, listeners.values())
        teller.ask("GET", "/1.0")
    return f"{len(queries)} listeners of 2 creations"


def cancelled(program):
    most = 20
    with Server(program, 2, "--workers", "1") as server, server.connect() as link:
        teller = Teller(link)
        teller.make_room()
        last = teller.create("first")["id"]
        listener = Listener(server, "?type=operation")
        for tries in range(1, most + 1):
            names = [f"i{tries}-{number}" for number in range(100)]
            # The ids of a server count up, so the last can be cancelled in the same breath in which it is asked for.
            ids = [later(last, number) for number in range(1, len(names) + 1)]
            last = ids[-1]
            status, told = cancel_last(link, listener, names, ids)
            if was_in_time(status, told):
                break
        else:
            raise Wrong(f"{most} times the cancel came too late")
        teller.ask("GET", f"/1.0/instances/{names[-1]}", due=404)
        need(teller.ask("GET", f"/1.0/operations/{last}")["metadata"]["status"] == "Cancelled", "the status of the cancelled operation")
        leave(server, [listener])
    return f"after {len(names) - 1} others, in time at try {tries}"


def later(name, count):
    """The id of the operation that begins as the so manyth after this one."""
    return f"{name[:-12]}{int(name[-12:], 16) + count:012x}"


def cancel_last(link, listener, names, ids):
    """Asks for instances, all at once, and to cancel the last. The status of that, and what was told of the last; of the others
    their success has to be told."""
    asked = [message("POST", "/1.0/instances", new_instance(name)) for name in names]
    link.sendall(b"".join(asked) + message("DELETE", f"/1.0/operations/{ids[-1]}"))
    replies = Reader(link)
    for name in ids:
        status, reply = replies.reply()
        need(status == 202 and reply["metadata"]["id"] == name, f"{status}, {reply}, and the id {name} is due")
    status, _ = replies.reply()
    told = {name: [] for name in ids}
    live = set(ids)
    while live:
        _, now, name = in_short(listener.event())
        need(name in live, f"{now} is told of the operation {name}, which had ended or was not asked for")
        told[name].append(now)
        if now in ENDED:
            live.remove(name)
    for name in ids[:-1]:
        need(told[name] == ["Pending", "Running", "Success"], f"{told[name]} is told of {name}")
    return status, told[ids[-1]]


def was_in_time(status, told):
    """Whether the operation still waited when it was cancelled. If not, something else has to be told that can be."""
    if told == ["Pending", "Cancelled"]:
        need(status == 200, f"the cancel is answered {status}, and the operation was cancelled")
        return True
    late = {200: ["Pending", "Running", "Cancelling", "Cancelled"], 400: ["Pending", "Running", "Success"]}
    need(late.get(status) == told, f"the cancel is answered {status}, and {told} is told")
    return False


# ---- a tenant's day

def tenants_day(program):
    if websockets is None:
        raise Skipped("python3-websockets is not installed")
    with Server(program, 4) as server, server.connect() as link:
        teller = Teller(link)
        try:
            heard = asyncio.run(heard_of_day(server, teller))
        except websockets.WebSocketException as error:
            raise Wrong(f"websockets: {error!r}") from error
        count = len(teller.told)
        teller.ask("GET", "/1.0")
    return f"{teller.asked} requests, {count} events and more, of which the clients got {', '.join(str(len(events)) for events in heard)}"


async def heard_of_day(server, teller):
    """What three clients got of a day, each exactly what is due to it."""
    for project, (config, _) in TENANTS.items():
        await asyncio.to_thread(found, teller, project, config)
    queries = {"?project=lab": ("lab", BOTH), "?project=lab&type=operation": ("lab", {"operation"}),
               "?project=shop&type=lifecycle": ("shop", {"lifecycle"})}
    base = f"ws://127.0.0.1:{server.port}/1.0/events"
    clients = [await websockets.connect(base + query) for query in queries]
    texts = [[] for _ in clients]
    tasks = [asyncio.create_task(gather(client, texts[place])) for place, client in enumerate(clients)]
    await asyncio.to_thread(spend_day, teller)
    due = [taken(teller.told, project, types) for project, types in queries.values()]
    await arrived(texts, due, tasks)
    heard = [[event_in(text) for text in each] for each in texts]
    for query, events, wanted in zip(queries, heard, due):
        need_same([in_short(event) for event in events], wanted, query)
    # The two listeners of one project got the same, members and all.
    need_same([event for event in heard[0] if event["type"] == "operation"], heard[1], "operations")
    ends = {end_of(server, client.local_address[1]) for client in clients}
    for client, task in zip(clients, tasks):
        task.cancel()
        await client.close()
    await asyncio.to_thread(await_ends, server, ends)
    return heard


async def gather(client, texts):
    async for text in client:
        texts.append(text)


async def arrived(texts, due, tasks):
    """Waits until each client got as many events as are due to it, or more, or its connection has ended."""
    until = time.monotonic() + PATIENCE
    while any(len(each) < len(wanted) for each, wanted in zip(texts, due)):
        if time.monotonic() > until or any(task.done() for task in tasks):
            return
        await asyncio.sleep(0.01)
    # What is told too often at the end would come now.
    await asyncio.sleep(0.2)


# Projects with their settings, and with the project in which their networks are told: those of lab are its own, those of shop belong to the
# project `default`.
TENANTS = {"lab": ({"features.networks": "true"}, "lab"), "shop": ({}, "default")}


def spend_day(teller):
    teller.change("POST", "/1.0/storage-pools", {"driver": "dir", "name": "p0"}, "default", "storage-pool-created",
                  "/1.0/storage-pools/p0")
    for project, (_, home) in TENANTS.items():
        furnish(teller, project, home)
    for number in range(3):
        for project in TENANTS:
            live(teller, project, f"i{number}")


def found(teller, project, config):
    """A new project, to which its listeners can subscribe then."""
    path = f"/1.0/projects/{project}"
    teller.change("POST", "/1.0/projects", {"name": project, "config": config}, "default", "project-created", path)
    teller.ask("POST", "/1.0/projects", {"name": project}, due=409)


def furnish(teller, project, home):
    """All of a project but its instances. Its networks are told in the project `home`."""
    query = f"?project={project}"
    path = f"/1.0/projects/{project}"
    teller.change("PATCH", path, {"description": "a tenant"}, "default", "project-updated", path)

    def at_once(method, target, body, does, names=None, at=project):
        """A change of what has the path `target`, and then `names`."""
        source = (names or target) + ("" if at == "default" else f"?project={at}")
        teller.change(method, target + query, body, at, does, source)

    at_once("PUT", "/1.0/profiles/default", ROOT_DISK, "profile-updated")
    profiles, networks, volumes = "/1.0/profiles", "/1.0/networks", "/1.0/storage-pools/p0/volumes/custom"
    at_once("POST", profiles, {"name": "web"}, "profile-created", f"{profiles}/web")
    at_once("PATCH", f"{profiles}/web", {"config": {"user.a": "b"}}, "profile-updated")
    at_once("POST", f"{profiles}/web", {"name": "site"}, "profile-renamed", f"{profiles}/site")
    at_once("DELETE", f"{profiles}/site", None, "profile-deleted")
    at_once("POST", networks, {"name": "br0", "type": "bridge"}, "network-created", f"{networks}/br0", at=home)
    at_once("PATCH", f"{networks}/br0", {"description": "a bridge"}, "network-updated", at=home)
    at_once("DELETE", f"{networks}/br0", None, "network-deleted", at=home)
    at_once("POST", volumes, {"name": "v", "config": {"size": "1GiB"}}, "storage-volume-created", f"{volumes}/v")
    at_once("PATCH", f"{volumes}/v", {"description": "data"}, "storage-volume-updated")
    at_once("POST", f"{volumes}/v", {"name": "w"}, "storage-volume-renamed", f"{volumes}/w")
    at_once("DELETE", f"{volumes}/w", None, "storage-volume-deleted")
    teller.ask("GET", f"/1.0/profiles/web{query}", due=404)


def live(teller, project, name):
    """The life of an instance."""
    query = f"?project={project}"
    path = f"/1.0/instances/{name}"

    def deed(method, target, body, does, at=path):
        teller.begin(method, target + query, body, project, does, at + query)

    def act(action, does):
        deed("PUT", f"{path}/state", {"action": action}, does)

    snapshot = f"{path}/snapshots/s"
    deed("POST", "/1.0/instances", new_instance(name), "instance-created")
    teller.ask("POST", f"/1.0/instances{query}", new_instance(name), due=409)
    teller.change("PATCH", path + query, {"config": {"user.a": "b"}}, project, "instance-updated", path + query)
    act("start", "instance-started")
    act("freeze", "instance-paused")
    act("unfreeze", "instance-resumed")
    act("restart", "instance-restarted")
    deed("POST", f"{path}/snapshots", {"name": "s"}, "instance-snapshot-created", snapshot)
    teller.ask("GET", snapshot + query)
    act("stop", "instance-stopped")
    deed("PUT", path, {"restore": "s"}, "instance-restored")
    deed("DELETE", snapshot, None, "instance-snapshot-deleted", snapshot)
    deed("PUT", path, {"description": "as good as new", "profiles": ["default"]}, "instance-updated")
    deed("POST", path, {"name": f"{name}-old"}, "instance-renamed", f"{path}-old")
    teller.ask("GET", f"{path}-old/state{query}")
    deed("DELETE", f"{path}-old", None, "instance-deleted", f"{path}-old")


# ---- listeners that lag, and such that go away

class Renames:
    """Renames a volume, by numbers that count up, so that each event tells its own number. The names are long, and so are the events."""
    batch = 256
    project, pool, stem = "l" * 63, "p" * 63, "v" * 56
    volumes = f"/1.0/storage-pools/{pool}/volumes/custom"

    def __init__(self, link):
        self.link, self.made = link, 0
        teller = Teller(link)
        teller.ask("POST", "/1.0/storage-pools", {"driver": "dir", "name": self.pool})
        teller.ask("POST", "/1.0/projects", {"name": self.project})
        teller.ask("POST", f"{self.volumes}?project={self.project}", {"name": self.name(0), "config": {"size": "1GiB"}})

    def name(self, number):
        return f"{self.stem}{number:07}"

    def told_of(self, number):
        return self.project, "storage-volume-renamed", f"{self.volumes}/{self.name(number)}?project={self.project}"

    def go_on(self, count):
        """So many renames, all at once."""
        numbers = range(self.made, self.made + count)
        self.link.sendall(b"".join(
            message("POST", f"{self.volumes}/{self.name(number)}?project={self.project}", {"name": self.name(number + 1)})
            for number in numbers))
        replies = Reader(self.link)
        for _ in numbers:
            need(replies.reply()[0] == 200, f"a rename after {self.made}")
            self.made += 1


def lagged(program):
    with Server(program, 4) as server, server.connect() as link:
        renames = Renames(link)
        query = f"?project={renames.project}&type=lifecycle"
        slow = Listener(server, query, small_link(server))
        fast = Listener(server, query)
        renames.go_on(1)
        first, text = fast.frame()
        need(first == TEXT and in_short(event_in(text)) == renames.told_of(1), f"the first event is {text}")
        # The sockets hold so many bytes at most. A session has to lag if twice as many events as the server keeps are told beyond these.
        holds = int(Path("/proc/sys/net/ipv4/tcp_wmem").read_text().split()[2]) + slow.link.getsockopt(socket.SOL_SOCKET, socket.SO_RCVBUF)
        most = holds // len(text) + 2 * KEPT
        while renames.made < most:
            heard = renames.made
            # Less than the server keeps, so the listener that reads can't lag.
            renames.go_on(renames.batch)
            for number in range(heard + 1, renames.made + 1):
                need_same([in_short(fast.event())], [renames.told_of(number)], f"the listener that reads, at {number}")
        with server.connect() as other:
            need(ask(other, "GET", "/1.0", last=True)[0] == 200, "another client")
        got = read_late(slow, renames)
        leave(server, [fast])
    return f"{most} events of {len(text)} bytes, of which one that didn't read got {got}"


def small_link(server):
    """A connection whose client holds few bytes that it has not read."""
    link = socket.socket()
    link.setsockopt(socket.SOL_SOCKET, socket.SO_RCVBUF, 16384)
    link.settimeout(PATIENCE)
    link.connect(("127.0.0.1", server.port))
    return link


def read_late(slow, renames):
    """How many events a listener gets that didn't read: the first ones without a gap, and then a close frame and the end."""
    # With a small window the rest would come slowly.
    slow.link.setsockopt(socket.SOL_SOCKET, socket.SO_RCVBUF, 1 << 20)
    told, got = renames.made, 0
    first, content = slow.frame()
    while first == TEXT:
        got += 1
        need_same([in_short(event_in(content))], [renames.told_of(got)], f"the listener that didn't read, at {got}")
        need(got < told, "a listener that didn't read got all events, so it didn't lag")
        first, content = slow.frame()
    need((first, content) == (CLOSE, LAGGED), f"a frame that begins with {first:#x}, with the content {content}")
    need(slow.ended(), "bytes after a close frame")
    need(got + KEPT < told, f"closed at event {got + 1} of {told}, which is still kept")
    slow.link.close()
    return got


def gone(program):
    whole = handshake()
    cuts = [0, 1, len(whole) // 2, len(whole) - 1]
    ways = [gone_before_head, gone_after_head, reset_after_head, gone_in_event, reset_in_event, gone_after_words]
    with Server(program, 2 + len(cuts) + len(ways)) as server, server.connect() as link:
        stays = Listener(server)

        def tell():
            touch(link)
            need_same([in_short(stays.event())], [TOUCHED], "the listener that stays")

        for cut in cuts:
            with server.connect() as goer:
                goer.sendall(whole[:cut])
            tell()
        for way in ways:
            await_ends(server, {way(server, tell)}, 2)
        tell()
        leave(server, [stays])
        need(ask(link, "GET", "/1.0", last=True)[0] == 200, "the last request")
    return f"{len(cuts) + len(ways)} listeners"


# Each of these comes, goes away in its own way, and says what the server's end of its connection is.

def gone_before_head(server, tell):
    link = server.connect()
    link.sendall(handshake())
    end = end_of(server, link.getsockname()[1])
    reset(link)
    return end


def gone_after_head(server, tell):
    listener = Listener(server)
    listener.link.close()
    return listener.end


def reset_after_head(server, tell):
    listener = Listener(server)
    reset(listener.link)
    return listener.end


def half_an_event(server, tell):
    listener = Listener(server)
    tell()
    need(listener.link.recv(10), "the connection ended within an event")
    return listener


def gone_in_event(server, tell):
    listener = half_an_event(server, tell)
    listener.link.close()
    return listener.end


def reset_in_event(server, tell):
    listener = half_an_event(server, tell)
    reset(listener.link)
    return listener.end


def gone_after_words(server, tell):
    """A listener that says a ping and a close, and goes without an answer."""
    listener = Listener(server)
    listener.link.sendall(masked(0x89, b"") + masked(0x88, b""))
    listener.link.close()
    return listener.end


# ---- frames of a listener

def masked(first, content, key=b"\x37\xfa\x21\x3d"):
    """A frame of a client, with its content under a mask."""
    length = len(content)
    head = bytes([first, 128 + length]) if length < 126 else bytes([first, 254]) + length.to_bytes(2, "big")
    return head + key + bytes(byte ^ key[place % 4] for place, byte in enumerate(content))


# What a listener sends, and what it gets, as frames; a close is the last.
TALKS = {
    "a ping": ([masked(0x89, b"Hello")], [(PONG, b"Hello")]),
    "the longest ping": ([masked(0x89, b"x" * 125)], [(PONG, b"x" * 125)]),
    "a ping in pieces": ([bytes([byte]) for byte in masked(0x89, b"Hello")], [(PONG, b"Hello")]),
    "pings at once": ([b"".join(masked(0x89, bytes([number])) for number in range(9))], [(PONG, bytes([number])) for number in range(9)]),
    "a pong, texts and a ping": ([masked(0x8a, b"a"), masked(0x81, b"text"), masked(0x02, b"b"), masked(0x80, b"c"), masked(0x89, b"")],
                                 [(PONG, b"")]),
    "the longest text": ([masked(0x81, b"x" * 4096), masked(0x89, b"")], [(PONG, b"")]),
    "a close": ([masked(0x88, b"\x03\xe8")], [(CLOSE, b"\x03\xe8")]),
    "a close with a reason": ([masked(0x88, b"\x0f\xa0bye")], [(CLOSE, b"\x0f\xa0")]),
    "a close without a code": ([masked(0x88, b"")], [(CLOSE, b"")]),
    "a close with a code that is not sent": ([masked(0x88, b"\x03\xed")], [(CLOSE, NO_FRAME)]),
    "a ping and a close": ([masked(0x89, b"1") + masked(0x88, b"\x03\xe8")], [(PONG, b"1"), (CLOSE, b"\x03\xe8")]),
    "no mask": ([b"\x89\x00"], [(CLOSE, NO_FRAME)]),
    "an extension": ([masked(0xc9, b"")], [(CLOSE, NO_FRAME)]),
    "no such frame": ([masked(0x83, b"")], [(CLOSE, NO_FRAME)]),
    "a ping in fragments": ([masked(0x09, b"")], [(CLOSE, NO_FRAME)]),
    "a ping that is too long": ([masked(0x89, b"x" * 126)], [(CLOSE, NO_FRAME)]),
    "a text that is too long": ([masked(0x81, b"x" * 4097)[:8]], [(CLOSE, TOO_LONG)]),
    "the end": ([None], [(CLOSE, AWAY)]),
}


def frames(program):
    slowest = 0
    with Server(program, 1 + len(TALKS)) as server, server.connect() as link:
        for name, (pieces, due) in TALKS.items():
            slowest = max(slowest, talk(server, name, pieces, due, lambda: touch(link)))
        need(ask(link, "GET", "/1.0", last=True)[0] == 200, "the last request")
    return f"{len(TALKS)} talks, the slowest answer after {slowest:.2f} s"


def talk(server, name, pieces, due, tell):
    """Sends these pieces, and needs these frames; then an event is told, where no close was. The seconds until the last of them."""
    listener = Listener(server)
    for piece in pieces:
        if piece is None:
            listener.link.shutdown(socket.SHUT_WR)
        else:
            listener.link.sendall(piece)
            time.sleep(0.002 if len(piece) == 1 else 0)
    begun = time.monotonic()
    for wanted in due:
        got = listener.frame()
        need(got == wanted, f"{name}: {got}, and {wanted} is due")
    took = time.monotonic() - begun
    need(took < 1, f"{name}: the answer took {took:.2f} s")
    if due[-1][0] == CLOSE:
        need(listener.ended(), f"{name}: bytes after a close")
        await_ends(server, {listener.end}, 1)
    else:
        tell()
        need_same([in_short(listener.event())], [TOUCHED], f"the event after {name}")
        leave(server, [listener])
    listener.link.close()
    return took


def held_by(server):
    """How many threads and open files a server has."""
    tasks = Path(f"/proc/{server.process.pid}")
    return len(list((tasks / "task").iterdir())), len(list((tasks / "fd").iterdir()))


def left(program, links):
    at_once = min(links, 100)
    rounds = links // at_once
    with Server(program, 1 + (rounds + 1) * at_once) as server, server.connect() as link:
        come_and_go(server, at_once)
        before = settled(server, held_by(server), 2)
        for _ in range(rounds):
            come_and_go(server, at_once)
        after = settled(server, before, 2)
        need(after == before, f"threads and handles: {before} before {rounds * at_once} listeners, {after} after")
        need(ask(link, "GET", "/1.0", last=True)[0] == 200, "the last request")
    return f"{rounds * at_once} listeners, and {before[0]} threads and {before[1]} handles before and after"


def come_and_go(server, count):
    """So many listeners at once, half of whom end their connections in good order."""
    listeners = [Listener(server) for _ in range(count)]
    for place, listener in enumerate(listeners):
        if place % 2:
            reset(listener.link)
        else:
            listener.link.close()
    await_ends(server, {listener.end for listener in listeners}, 2)


def settled(server, due, within):
    """What a server holds once that is so much, or after so many seconds."""
    until = time.monotonic() + within
    while (held := held_by(server)) != due and time.monotonic() < until:
        time.sleep(0.05)
    return held


def stock_client(program, seconds):
    if websockets is None:
        raise Skipped("python3-websockets is not installed")
    with Server(program, 3) as server, server.connect() as link:
        teller = Teller(link)
        teller.ask("POST", "/1.0/projects", {"name": "quiet"})
        try:
            count, took = asyncio.run(listened(server, teller, seconds))
        except websockets.WebSocketException as error:
            raise Wrong(f"websockets: {error!r}") from error
        teller.ask("GET", "/1.0")
    return f"{seconds} s, {count} events in the busy project, closed within {took:.2f} s"


async def listened(server, teller, seconds):
    """Two clients listen for so long, one in a quiet project. How many events the other one got, and how long a close took at most."""
    base = f"ws://127.0.0.1:{server.port}/1.0/events?type=lifecycle&project="
    clients = [await websockets.connect(base + project) for project in ("quiet", "default")]
    texts = [[] for _ in clients]
    tasks = [asyncio.create_task(gather(client, texts[place])) for place, client in enumerate(clients)]
    until = time.monotonic() + seconds
    told = 0
    while time.monotonic() < until:
        await asyncio.to_thread(touch, teller.link)
        told += 1
        await asyncio.sleep(0.02)
    await arrived(texts, [[], [None] * told], tasks)
    for name, events, due in (("quiet", texts[0], 0), ("busy", texts[1], told)):
        need(len(events) == due, f"the {name} client got {len(events)} events, and {due} are due")
    need(not any(task.done() for task in tasks), "a client was cut")
    slowest = 0
    for client, task in zip(clients, tasks):
        begun = time.monotonic()
        await client.close()
        slowest = max(slowest, time.monotonic() - begun)
        await task
    need(slowest < 1, f"a close took {slowest:.2f} s")
    return told, slowest


def main():
    words = argparse.ArgumentParser()
    words.add_argument("--program", default=str(TOP / "crates/incusd/out/incusd"))
    words.add_argument("--only", default="")
    words.add_argument("--listen", type=float, default=70, metavar="SECONDS")
    words.add_argument("--links", type=int, default=2000, metavar="N")
    said = words.parse_args()
    # Another Python than that of the system may lack the library. It is tried once: the system's own doesn't come here again.
    if websockets is None and os.path.exists(STOCK_PYTHON) and not os.path.samefile(sys.executable, STOCK_PYTHON):
        os.execv(STOCK_PYTHON, [STOCK_PYTHON, *sys.argv])
    checks = {"accept": accept, "creation": creation, "cancelled": cancelled, "a tenant's day": tenants_day, "lagged": lagged, "gone": gone,
              "frames": frames, "left": lambda program: left(program, said.links),
              "stock client": lambda program: stock_client(program, said.listen)}
    wrong = 0
    for name, check in checks.items():
        if said.only not in name:
            continue
        begun = time.monotonic()
        try:
            print(f"{name}: {check(said.program)}, {time.monotonic() - begun:.1f} s", flush=True)
        except Skipped as reason:
            print(f"{name}: skipped: {reason}", flush=True)
        except (Wrong, OSError, KeyError, ValueError, subprocess.SubprocessError) as error:
            wrong += 1
            print(f"{name}: WRONG: {error!r}", flush=True)
    return 1 if wrong else 0


if __name__ == "__main__":
    sys.exit(main())
