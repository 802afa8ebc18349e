"""How fast the two servers answer, and how much memory they hold: the same requests for both, in the same order.

A time is two figures, in milliseconds: of the wall clock, and of the processors that the program used meanwhile. The second one depends little
on what else the machine does.
"""
import multiprocessing
import signal
import socket
import statistics
import threading
import time

from peer_servers import Link, Listener, Wrong, add_project, configure, instance, say

LIMITS = {"limits.instances": "100000", "limits.cpu": "100000", "limits.memory": "100TiB", "limits.processes": "100000000",
          "limits.disk": "100TiB"}
PROFILE = {"limits.cpu": "1", "limits.memory": "1GiB", "limits.processes": "100"}
CREATION_AT = (10, 100, 250)
# How many of the last creations are timed: those of Incus take seconds, those of ours less than the clock of a busy machine tells.
CREATIONS = {"Incus": 5, "ours": 25}
REPEATS = {"Incus": 1, "ours": 9}
MANY = 1000
LINKS = (1, 8, 64)
SECONDS = 4
EVENTS = 400


def timed(server, requests):
    """The median of the milliseconds of requests one after the other, their mean on the processors, and the last reply."""
    walls, clock, reply = [], server.clock(), None
    for words in requests:
        begun = time.monotonic()
        reply = server.do(*words)
        walls.append(1000 * (time.monotonic() - begun))
    return {"wall": statistics.median(walls), "processor": 1000 * (server.clock() - clock) / len(walls), "status": reply.in_short()}


def fill(server, project, first, last, links=8):
    """Creates the instances of these numbers, on connections beside each other."""
    wrong = []

    def make(place):
        with Link(server) as link:
            for number in range(first + place, last, links):
                end = link.do("POST", f"/1.0/instances?project={project}", instance(f"i{number}"))
                if not end.is_well:
                    wrong.append(end.in_short())

    threads = [threading.Thread(target=make, args=(place,)) for place in range(links)]
    for thread in threads:
        thread.start()
    for thread in threads:
        thread.join()
    if wrong:
        raise Wrong(f"{server.name}: {len(wrong)} creations, {wrong[0]}")


def creation_name(count):
    return f"creation of instance {count:,}, five limits"


def creations(server, told):
    """Creations with five limits up to 10, 100 and 250 instances, and a PUT of the profile that all use."""
    add_project(server, "speed", None, PROFILE, "1GiB")
    made = 0
    for count in CREATION_AT:
        timed_ones = min(CREATIONS[server.name], count // 2)
        fill(server, "speed", made, count - timed_ones)
        must_be_well(configure(server, "speed", **{key.replace(".", "__"): value for key, value in LIMITS.items()}))
        told(creation_name(count), timed(server, [
            ("POST", "/1.0/instances?project=speed", instance(f"i{number}")) for number in range(count - timed_ones, count)]))
        made = count
        if count != CREATION_AT[-1]:
            row = server.must("GET", "/1.0/projects/speed").metadata
            config = {key: value for key, value in row["config"].items() if key not in LIMITS}
            server.must("PUT", "/1.0/projects/speed", {"config": config, "description": ""})
    row = server.must("GET", "/1.0/profiles/default?project=speed").metadata
    told(f"PUT of a profile that {made} instances use, five limits", timed(server, [
        ("PUT", "/1.0/profiles/default?project=speed", {"config": {**row["config"], "limits.processes": str(101 + each)}, "devices": row["devices"]})
        for each in range(REPEATS[server.name])]))


def must_be_well(reply):
    if not reply.is_well:
        raise Wrong(reply.in_short())


def lists(server, told):
    """1,000 instances in one project: their list, the state of the project, memory and a new start; then 1,000 projects."""
    add_project(server, "many", None, PROFILE, "1GiB")
    say(f"{server.name}: {MANY} instances are made")
    more = 1 if server.name == "Incus" else CREATIONS[server.name]
    fill(server, "many", 0, MANY - more)
    must_be_well(configure(server, "many", **{key.replace(".", "__"): value for key, value in LIMITS.items()}))
    told(creation_name(MANY), timed(server, [
        ("POST", "/1.0/instances?project=many", instance(f"i{number}")) for number in range(MANY - more, MANY)]))
    told(f"list of {MANY:,} instances, recursion", timed(server, [("GET", "/1.0/instances?project=many&recursion=1")] * (3 * REPEATS[server.name])))
    told(f"state of a project of {MANY:,} instances", timed(server, [("GET", "/1.0/projects/many/state")] * REPEATS[server.name]))
    told(f"memory with {MANY:,} instances", {"MB": server.memory()})
    server.end(signal.SIGKILL)
    clock = time.monotonic()
    server.start()
    told(f"start with {MANY:,} instances", {"seconds": time.monotonic() - clock, "processor": 1000 * server.clock(), "MB": server.memory()})
    for number in range(MANY):
        server.must("POST", "/1.0/projects", {"name": f"p{number}"})
    told(f"list of {MANY:,} projects, recursion", timed(server, [("GET", "/1.0/projects?recursion=1")] * REPEATS[server.name]))


# ---- many connections

REQUEST = b"GET /1.0 HTTP/1.1\r\nHost: localhost\r\n\r\n"


def is_whole(held):
    """Whether the bytes are a whole reply, whose length or last piece the head tells."""
    end = held.find(b"\r\n\r\n")
    if end < 0:
        return False
    head = held[:end].lower()
    at = head.find(b"content-length: ")
    if at < 0:
        return held.endswith(b"0\r\n\r\n")
    return len(held) >= end + 4 + int(head[at + 16:].split(b"\r\n")[0])


def ask_on(where, links, seconds, found):
    """Asks on so many connections by turns until the time is up, and tells how many replies came."""
    kind, address = where
    sockets = []
    for _ in range(links):
        link = socket.socket(kind)
        link.connect(address)
        sockets.append(link)
    count, until = 0, time.monotonic() + seconds
    while time.monotonic() < until:
        for link in sockets:
            link.sendall(REQUEST)
        for link in sockets:
            held = link.recv(65536)
            while not is_whole(held):
                held += link.recv(65536)
            count += 1
    found.put(count)


def reads(server, told):
    """GET /1.0 a second, on 1, 8 and 64 connections that are spread over at most 4 processes."""
    where = (socket.AF_UNIX, server.socket) if server.name == "Incus" else (socket.AF_INET, ("127.0.0.1", server.port))
    for links in LINKS:
        found, count = multiprocessing.Queue(), min(links, 4)
        workers = [multiprocessing.Process(target=ask_on, args=(where, links // count, SECONDS, found)) for _ in range(count)]
        clock = server.clock()
        for worker in workers:
            worker.start()
        got = sum(found.get(timeout=SECONDS + 120) for _ in workers)
        used = server.clock() - clock
        for worker in workers:
            worker.join()
        told(f"GET /1.0 on {links} connection{'s' if links > 1 else ''}", {"rate": got / SECONDS, "processor": 1000 * used / got})


def events(server, told):
    """Changes by 4 connections, each of which 8 listeners are told, until the last of them has it."""
    add_project(server, "news")
    listeners = [Listener(server, "?project=news&type=lifecycle") for _ in range(8)]
    for number in range(4):
        server.must("POST", "/1.0/profiles?project=news", {"name": f"p{number}"})
    time.sleep(1)
    before, begun, clock = min(len(each.events) for each in listeners), time.monotonic(), server.clock()

    def change(number):
        with Link(server) as link:
            for each in range(EVENTS // 4):
                link.do("PUT", f"/1.0/profiles/p{number}?project=news", {"description": str(each), "config": {}, "devices": {}})

    threads = [threading.Thread(target=change, args=(number,)) for number in range(4)]
    for thread in threads:
        thread.start()
    for thread in threads:
        thread.join()
    while min(len(each.events) for each in listeners) < before + EVENTS:
        if time.monotonic() - begun > 60:
            raise Wrong(f"{server.name}: listeners got {[len(each.events) - before for each in listeners]} of {EVENTS} events")
        time.sleep(0.005)
    taken = time.monotonic() - begun
    told("changes, each sent to 8 listeners", {"rate": EVENTS / taken, "processor": 1000 * (server.clock() - clock) / EVENTS})
    for listener in listeners:
        listener.close()


def measure(server):
    """All figures of a server that was just started and furnished, by their names."""
    figures = {}

    def told(what, figure):
        figures[what] = figure
        say(f"{server.name}: {what}: " + ", ".join(f"{name} {it if isinstance(it, str) else round(it, 2)}" for name, it in figure.items()))

    told("memory when started", {"MB": server.memory()})
    reads(server, told)
    creations(server, told)
    events(server, told)
    lists(server, told)
    return figures
