#!/usr/bin/env python3
"""Runs incusctl against incusd, and against servers of its own that answer otherwise; one line for each check.

    tests/client.py [--client FILE] [--server FILE] [--only WORD]

The programs are crates/incusctl/out/incusctl and crates/incusd/out/incusd without the options. Checks:

1. `day`: each command at a port and at a socket file, in each format, and what it prints.
2. `requests`: the bytes that each command sends, and that none is sent before the reply to the one before: `launch` starts the instance
   once the wait for its creation was answered.
3. `cut`: a server that goes away at each byte of its reply: status 3, and nothing printed; the whole reply gives status 0.
4. `bad`: replies that are none: a chunked one, one without a length or with two, one that is too long, forms that are none. Status 3.
5. `failed`: errors and operations that fail: status 1, and the text of the error.
6. `words`: words that are not read: status 2, help on standard error, and no connection. No server: status 4. A full output: status 5.

It ends with status 1 where something is otherwise.
"""
import argparse
import json
import socket
import subprocess
import sys
import tempfile
import threading
import time
from pathlib import Path

sys.dont_write_bytecode = True
TOP = Path(__file__).resolve().parent.parent
PATIENCE = 60
ID = "00000000-0001-8000-8000-000000000001"
PATH = f"/1.0/operations/{ID}"


class Wrong(Exception):
    """Something is otherwise than it has to be."""


def need(holds, what):
    if not holds:
        raise Wrong(what)


def free_port():
    with socket.socket() as probe:
        probe.bind(("127.0.0.1", 0))
        return probe.getsockname()[1]


def reply(body, code="200 OK", fields=""):
    text = json.dumps(body, separators=(",", ":"))
    return f"HTTP/1.1 {code}\r\nContent-Type: application/json\r\nContent-Length: {len(text)}\r\n{fields}\r\n{text}".encode()


def done(metadata):
    return reply({"metadata": metadata, "status": "Success", "status_code": 200, "type": "sync"})


def begun(operation=PATH):
    body = {"metadata": {"id": ID}, "operation": operation, "status": "Operation created", "status_code": 100, "type": "async"}
    return reply(body, "202 Accepted", f"Location: {operation}\r\n")


def ended(status="Success", err=""):
    return done({"err": err, "id": ID, "status": status, "status_code": 200})


def refused(text="limit is exceeded", code="403 Forbidden"):
    return reply({"error": text, "error_code": int(code[:3]), "metadata": {"rule": "L1"}, "type": "error"}, code)


class Peer:
    """A server of one connection: it reads one request before it sends each of its replies, and then what comes for a moment. Without
    an end of its own it closes the connection behind its last reply."""

    def __init__(self, replies):
        self.replies, self.requests, self.more = replies, [], b""
        self.listener = socket.create_server(("127.0.0.1", 0))
        self.port = self.listener.getsockname()[1]
        self.thread = threading.Thread(target=self.serve)
        self.thread.start()

    def request(self, link):
        text = b""
        while b"\r\n\r\n" not in text:
            piece = link.recv(65536)
            if not piece:
                return text
            text += piece
        head, _, body = text.partition(b"\r\n\r\n")
        length = int(head.split(b"Content-Length: ")[1].split(b"\r\n")[0])
        while len(body) < length:
            body += link.recv(65536)
        need(len(body) == length, f"more than a request came at once: {text!r}")
        return head + b"\r\n\r\n" + body

    def serve(self):
        self.listener.settimeout(PATIENCE)
        link, _ = self.listener.accept()
        with link:
            for text in self.replies:
                self.requests.append(self.request(link))
                link.settimeout(0.02)
                try:
                    self.more += link.recv(65536)
                except OSError:
                    pass
                link.settimeout(PATIENCE)
                link.sendall(text)
            link.shutdown(socket.SHUT_WR)
            link.settimeout(PATIENCE)
            try:
                self.more += link.recv(65536)
            except OSError:
                pass

    def close(self):
        self.thread.join(PATIENCE)
        self.listener.close()
        need(not self.thread.is_alive(), "the client does not come to an end")


class Clients:
    """Runs of the client."""

    def __init__(self, program):
        self.program = program

    def run(self, *words):
        ran = subprocess.run([*self.program.split(), *words], capture_output=True, timeout=PATIENCE, stdin=subprocess.DEVNULL, check=False)
        return ran.returncode, ran.stdout.decode(), ran.stderr.decode()

    def over(self, replies, *words):
        peer = Peer(replies)
        ran = self.run(*words, "--port", str(peer.port))
        peer.close()
        return peer, ran


def line(method, target, body=""):
    return f"{method} {target} HTTP/1.1\r\nHost: localhost\r\nContent-Length: {len(body)}\r\n\r\n{body}".encode()


def check_day(clients, words):
    with tempfile.TemporaryDirectory() as folder:
        port, path = free_port(), f"{folder}/s"
        server = subprocess.Popen([*words.server.split(), "--port", str(port), "--socket", path, "--workers", "2", "--stop-at-end-of-input"],
                                  stdin=subprocess.PIPE, stderr=subprocess.DEVNULL)
        try:
            until = time.time() + PATIENCE
            while time.time() < until and not Path(path).exists():
                time.sleep(0.05)
            for door in ("--port", str(port)), ("--socket", path):
                day(clients, door, port)
        finally:
            server.stdin.close()
            server.wait(PATIENCE)
        need(server.returncode == 0, f"incusd ends with status {server.returncode}")


def asked(port, method, target, body=None):
    import http.client
    link = http.client.HTTPConnection("127.0.0.1", port, timeout=PATIENCE)
    link.request(method, target, json.dumps(body) if body else None)
    told = json.loads(link.getresponse().read())
    link.close()
    return told


def day(clients, door, port):
    asked(port, "POST", "/1.0/storage-pools", {"name": "p0", "driver": "dir"})
    asked(port, "PUT", "/1.0/profiles/default", {"devices": {"root": {"type": "disk", "path": "/", "pool": "p0"}}})
    expected = [
        (["list"], 0, ""),
        (["list", "--format", "table"], 0, "NAME STATUS\n"),
        (["list", "--format", "json"], 0, "[]\n"),
        (["launch", "web"], 0, "web Running\n"),
        (["launch", "db", "--format", "plain"], 0, "db Running\n"),
        (["launch", "web"], 1, None),
        (["stop", "web"], 0, "web Stopped\n"),
        (["list"], 0, "db Running\nweb Stopped\n"),
        (["list", "--format", "table"], 0, "NAME STATUS\ndb   Running\nweb  Stopped\n"),
        (["list", "name eq web or status eq Frozen"], 0, "web Stopped\n"),
        (["list", "not (name eq web)"], 0, "db Running\n"),
        (["list", "name eq"], 1, None),
        (["start", "web"], 0, "web Running\n"),
        (["start", "none"], 1, None),
        (["list", "--project", "none"], 1, None),
        (["wait", ID.replace("1", "9")], 1, None),
        (["cancel", ID.replace("1", "9")], 1, None),
        (["stop", "web"], 0, "web Stopped\n"),
        (["delete", "web"], 0, "web deleted\n"),
        (["stop", "db", "--format=table"], 0, None),
        (["delete", "db", "--format=json"], 0, None),
        (["list"], 0, ""),
    ]
    for command, status, printed in expected:
        ran = clients.run(*command, *door)
        need(ran[0] == status and (printed is None or ran[1] == printed), f"{command} {door}: {ran}")
        need(status != 1 or ran[1].startswith("error: "), f"{command}: {ran}")
    told = asked(port, "GET", "/1.0/projects/default/state")["metadata"]["resources"]
    wanted = "".join(f"{key} {one['usage']} {'-' if one['limit'] == -1 else one['limit']}\n" for key, one in told.items())
    need(clients.run("limits", *door)[:2] == (0, wanted), f"limits: {clients.run('limits', *door)}")
    need(clients.run("limits", "--format", "json", *door)[1] == json.dumps({"resources": told}, separators=(",", ":")) + "\n", "limits as JSON")
    begun_by = asked(port, "POST", "/1.0/instances", {"name": "late", "source": {"type": "none"}})["operation"].rsplit("/", 1)[1]
    need(clients.run("wait", begun_by, *door)[:2] == (0, f"{begun_by} Success\n"), "wait")
    need(clients.run("cancel", begun_by, *door)[0] == 1, "an operation that has ended is cancelled")
    need(clients.run("delete", "late", *door)[:2] == (0, "late deleted\n"), "delete")


GOOD = [
    (["limits"], [done({"resources": {"cpu": {"limit": -1, "usage": 3}, "memory": {"limit": 5, "usage": 0}}})],
     [line("GET", "/1.0/projects/default/state")], "cpu 3 -\nmemory 0 5\n"),
    (["list"], [done([{"name": "a", "status": "Running"}])], [line("GET", "/1.0/instances?project=default&recursion=1")], "a Running\n"),
    (["list", 'name eq "a b"&', "--project", "lab"], [done([])],
     [line("GET", "/1.0/instances?project=lab&recursion=1&filter=name+eq+%22a+b%22%26")], ""),
    (["launch", "a"], [begun(), ended(), begun(), ended()],
     [line("POST", "/1.0/instances?project=default", '{"name":"a","source":{"type":"none"}}'), line("GET", PATH + "/wait?timeout=-1"),
      line("PUT", "/1.0/instances/a/state?project=default", '{"action":"start"}'), line("GET", PATH + "/wait?timeout=-1")], "a Running\n"),
    (["start", "a"], [begun(), ended()],
     [line("PUT", "/1.0/instances/a/state?project=default", '{"action":"start"}'), line("GET", PATH + "/wait?timeout=-1")], "a Running\n"),
    (["stop", "a"], [begun(), ended()],
     [line("PUT", "/1.0/instances/a/state?project=default", '{"action":"stop"}'), line("GET", PATH + "/wait?timeout=-1")], "a Stopped\n"),
    (["delete", "a"], [begun(), ended()], [line("DELETE", "/1.0/instances/a?project=default"), line("GET", PATH + "/wait?timeout=-1")],
     "a deleted\n"),
    (["wait", ID], [ended("Running")], [line("GET", PATH + "/wait?timeout=-1")], f"{ID} Running\n"),
    (["cancel", ID], [done({})], [line("DELETE", PATH)], f"{ID} cancelled\n"),
]


def check_requests(clients, _):
    for command, replies, requests, printed in GOOD:
        peer, ran = clients.over(replies, *command)
        need(ran[:2] == (0, printed), f"{command}: {ran}")
        need(peer.requests == requests and not peer.more, f"{command} sent {peer.requests} and {peer.more!r}")


def check_cut(clients, _):
    for command, replies, _, printed in (GOOD[0], GOOD[4]):
        whole = replies[-1]
        for length in range(len(whole) + 1):
            _, ran = clients.over([*replies[:-1], whole[:length]], *command)
            wanted = (0, printed) if length == len(whole) else (3, "")
            need(ran[:2] == wanted, f"{command}: {length} of {len(whole)} bytes: {ran}")


def check_bad(clients, _):
    body = b'{"metadata":[],"status":"Success","status_code":200,"type":"sync"}'
    head = b"HTTP/1.1 200 OK\r\nContent-Type: application/json\r\n"
    bad = [
        head + b"Transfer-Encoding: chunked\r\n\r\n42\r\n" + body + b"\r\n0\r\n\r\n",
        head + b"\r\n" + body,
        head + b"Content-Length: 66\r\nContent-Length: 66\r\n\r\n" + body,
        head + b"Content-Length: 67108865\r\n\r\n" + body,
        head + b"Content-Length: -1\r\n\r\n" + body,
        head + b"X: " + b"x" * 16384 + b"\r\nContent-Length: 66\r\n\r\n" + body,
        b"HTTP/1.1 201 Created\r\nContent-Length: 66\r\n\r\n" + body,
        head + b"Content-Length: 2\r\n\r\n[]",
        head + b"Content-Length: 1\r\n\r\n{",
        b"x",
        begun(),
        done({"not": "a list"}),
        reply({"error": "x", "error_code": 404, "type": "error"}, "403 Forbidden"),
    ]
    for text in bad:
        _, ran = clients.over([text], "list")
        need(ran[:2] == (3, ""), f"{text[:200]!r}: {ran}")


def check_failed(clients, _):
    for command, replies, _, _ in GOOD:
        for number in range(len(replies)):
            peer, ran = clients.over([*replies[:number], refused()], *command)
            need(ran[:2] == (1, "error: limit is exceeded: rule L1\n") and len(peer.requests) == number + 1, f"{command}: {ran}")
    for command, replies, _, _ in GOOD[3:7]:
        for number in range(1, len(replies), 2):
            peer, ran = clients.over([*replies[:number], ended("Failure", "the host said no")], *command)
            need(ran[:2] == (1, "error: the host said no\n") and len(peer.requests) == number + 1, f"{command}: {ran}")


def check_words(clients, _):
    port = free_port()
    with socket.create_server(("127.0.0.1", port)) as listener:
        listener.settimeout(0.05)
        for command in ([], ["list"], ["list", "--port"], ["list", "--port", "0"], ["list", "a", "b", "--port", str(port)], ["start", "--port", str(port)],
                        ["start", "-x", "--port", str(port)], ["wait", "x", "--port", str(port)], ["list", "--port", str(port), "--socket", "s"],
                        ["list", "--port", str(port), "--format", "xml"], ["list", "--port", str(port), "--project", ""], ["nothing", "--port", str(port)]):
            ran = clients.run(*command)
            need(ran[0] == 2 and not ran[1] and "list [FILTER]" in ran[2], f"{command}: {ran}")
            try:
                listener.accept()
                raise Wrong(f"{command}: a connection was made")
            except TimeoutError:
                pass
    need(clients.run("list", "--port", str(port))[:2] == (4, ""), "no server")
    need(clients.run("list", "--socket", "/nonexistent/socket")[:2] == (4, ""), "no socket file")
    peer = Peer([done([{"name": "a", "status": "Running"}])])
    with open("/dev/full", "wb") as full:
        ran = subprocess.run([*clients.program.split(), "list", "--port", str(peer.port)], stdout=full, stderr=subprocess.PIPE, timeout=PATIENCE, check=False)
    peer.close()
    need(ran.returncode == 5, f"a full output: {ran}")


def main():
    parser = argparse.ArgumentParser(description=__doc__, formatter_class=argparse.RawDescriptionHelpFormatter)
    parser.add_argument("--client", default=str(TOP / "crates/incusctl/out/incusctl"))
    parser.add_argument("--server", default=str(TOP / "crates/incusd/out/incusd"))
    parser.add_argument("--only", default="")
    words = parser.parse_args()
    clients, failed = Clients(words.client), 0
    for name, check in (("day", check_day), ("requests", check_requests), ("cut", check_cut), ("bad", check_bad), ("failed", check_failed),
                        ("words", check_words)):
        if words.only not in name:
            continue
        began = time.time()
        try:
            check(clients, words)
            print(f"{name}: well, {time.time() - began:.1f} s")
        except (Wrong, OSError, subprocess.TimeoutExpired, ValueError) as error:
            failed += 1
            print(f"{name}: OTHERWISE: {error}")
    sys.exit(1 if failed else 0)


if __name__ == "__main__":
    main()
