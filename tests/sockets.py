#!/usr/bin/env python3
"""Asks incusd at a socket file, alone and beside a port of 127.0.0.1, with Python and curl alone; one line for each check.

    tests/sockets.py [--program FILE] [--rounds N] [--only WORD]

The program is crates/incusd/out/incusd without `--program` (`bin/incusd --prove` makes it). Each check starts servers of its own.

1. `alone`, `both`: requests by curl at a socket file alone, and at both doors: what one makes the other shows; the lines that say where it
   listens; the mode of the file, also where the umask is 0; and after the last connection the file is gone.
2. `stale`: after SIGKILL the file stays, and the next server replaces it. `moved`: a file that is another server's by then stays at the end.
3. `live`: a second server at the same path ends with status 11, and the first goes on, also where its queue is full.
4. `refused`: a file, a folder, a pipe and a link at the path, a missing folder, a path of 108 bytes and a port that is taken: a line that says
   which, status 11, and nothing is removed. A path of 107 bytes is taken.
5. `users` (as root alone): the user `nobody` can't connect, nor listen in a folder of root's; a member of the file's group can connect.
6. `at once`: 8 links at each door, all open before the first is answered; with `--at-once 8` the others are turned away, whichever door.
7. `in turn`: while 8 clients ask at one door without end, new connections at the other are answered.
8. `load`: N rounds (20): eight clients at both doors change rows when SIGTERM comes to bin/with_stop: the file is gone, the status is 0.
9. `origin`: a request with a header Origin, in any case of its letters: at the port 403 H5, no leave to send its body, the connection ends and
   nothing is changed; at the socket file no notice is taken of it.
10. `log`: which door a request came through.
11. `figures`: how long GET /1.0 and the creation of a project take at each door; the socket file is no slower.

It ends with status 1 where something is otherwise.
"""
import argparse
import grp
import json
import os
import pwd
import re
import shutil
import signal
import socket
import stat
import statistics
import subprocess
import sys
import tempfile
import threading
import time
from pathlib import Path

sys.dont_write_bytecode = True
from server import TOP, PATIENCE, Reader, Wrong, ask, free_port, listens, message, need  # noqa: E402

STOP = str(TOP / "bin/with_stop")
CLIENTS = 8


class Server:
    """A server at a socket file, with `port` at a port too. With `by` the signal goes to the script that holds its standard input."""

    def __init__(self, program, path, *words, port=None, by=None, **how):
        self.path, self.port, self.by, self.said = path, port, by, None
        doors = ["--socket", path] + (["--port", str(port)] if port else [])
        command = [program, *doors, *words] + (["--stop-at-end-of-input"] if by else [])
        self.process = subprocess.Popen([STOP, *command] if by else command, stdin=subprocess.DEVNULL, stdout=subprocess.DEVNULL,
                                        stderr=subprocess.PIPE, **how)
        self.lines = []
        self.listener = threading.Thread(target=self.listen, daemon=True)
        self.listener.start()

    def listen(self):
        for line in self.process.stderr:
            self.lines.append(line.decode())

    def __enter__(self):
        until = time.monotonic() + 10 * PATIENCE
        while not any("listening on the socket" in line for line in self.lines):
            need(self.process.poll() is None, f"the server ended before it listened: {self.lines}")
            need(time.monotonic() < until, "the server doesn't listen")
            time.sleep(0.01)
        return self

    def __exit__(self, kind, error, trace):
        if self.process.poll() is None:
            self.process.kill()
        self.process.wait()
        self.listener.join()

    def at_socket(self):
        link = socket.socket(socket.AF_UNIX)
        link.settimeout(PATIENCE)
        link.connect(self.path)
        return link

    def at_port(self):
        link = socket.create_connection(("127.0.0.1", self.port), timeout=PATIENCE)
        link.setsockopt(socket.IPPROTO_TCP, socket.TCP_NODELAY, 1)
        return link

    def at(self, door):
        return self.at_port() if door == "port" else self.at_socket()

    def curl(self, target, *words):
        """One request by curl at the socket file: its status and its body."""
        ran = subprocess.run(["curl", "-s", "-S", "--max-time", str(PATIENCE), "--unix-socket", self.path, "-w", "\n%{http_code}", *words,
                              f"http://localhost{target}"], capture_output=True, check=False)
        need(ran.returncode == 0, f"curl, {target}: {ran.stderr.decode()}")
        text, status = ran.stdout.decode().rsplit("\n", 1)
        return int(status), json.loads(text)

    def ends(self, status=0):
        """Waits for the end of the server, which has this status and has taken its file away."""
        try:
            self.process.wait(timeout=2 * PATIENCE)
        except subprocess.TimeoutExpired:
            raise Wrong("the server doesn't end") from None
        self.listener.join()
        need(self.process.returncode == status, f"status {self.process.returncode}: {self.lines}")
        need(not os.path.lexists(self.path), "the file is still there")


def refusal(program, *words, **how):
    """What a server says that can't begin: its one line. It ends with status 11."""
    ran = subprocess.run([program, *words], stdin=subprocess.DEVNULL, stdout=subprocess.PIPE, stderr=subprocess.PIPE,
                         timeout=10 * PATIENCE, check=False, **how)
    said = ran.stderr.decode()
    need(ran.returncode == 11 and said.count("\n") == 1 and not ran.stdout, f"status {ran.returncode}: {said!r}")
    return said


def node(path):
    file = os.lstat(path)
    return file.st_dev, file.st_ino, file.st_mode, file.st_size


def projects(link, last=False):
    code, told = ask(link, "GET", "/1.0/projects", last=last)
    need(code == 200, f"{told}")
    return {url.rsplit("/", 1)[1] for url in told["metadata"]}


# ---- the checks

def alone(program):
    with tempfile.TemporaryDirectory() as folder:
        with Server(program, f"{folder}/door", "--connections", "3") as server:
            mode = stat.S_IMODE(os.lstat(server.path).st_mode)
            need(mode == 0o660 and stat.S_ISSOCK(os.lstat(server.path).st_mode), f"mode {mode:o}")
            need(server.lines == [f"incusd: listening on the socket {folder}/door\n"], f"{server.lines}")
            need(server.curl("/1.0")[0] == 200, "GET /1.0")
            need(server.curl("/1.0/projects", "-d", '{"name":"lab"}')[0] == 200, "POST /1.0/projects")
            need(server.curl("/1.0/projects/lab")[0] == 200, "GET /1.0/projects/lab")
            server.ends()
        with Server(program, f"{folder}/open", umask=0) as server:
            mode = stat.S_IMODE(os.lstat(server.path).st_mode)
            need(mode == 0o660, f"mode {mode:o} where the umask is 0")
    return "three requests by curl, mode 660, one line, and no file at the end; mode 660 where the umask is 0"


def both(program):
    with tempfile.TemporaryDirectory() as folder:
        with Server(program, f"{folder}/door", "--connections", "4", port=free_port()) as server:
            want = [f"incusd: listening on http://127.0.0.1:{server.port}\n", f"incusd: listening on the socket {folder}/door\n"]
            need(server.lines == want, f"{server.lines}")
            for door, other in (("port", "socket"), ("socket", "port")):
                with server.at(door) as link:
                    need(ask(link, "POST", "/1.0/projects", {"name": f"by-{door}"}, last=True)[0] == 200, f"a creation at the {door}")
                with server.at(other) as link:
                    need(f"by-{door}" in projects(link, last=True), f"what the {door} made is not there at the {other}")
            server.ends()
            need(not listens(server.port), "the port is still listened on")
    return "two lines; each door shows what the other made; no file at the end"


def stale(program):
    with tempfile.TemporaryDirectory() as folder:
        path = f"{folder}/door"
        with Server(program, path) as server:
            server.process.send_signal(signal.SIGKILL)
            server.process.wait()
        before = os.lstat(path).st_ctime_ns
        with Server(program, path, "--connections", "1") as server:
            need(os.lstat(path).st_ctime_ns > before, "the file is the one of before")
            need(server.curl("/1.0")[0] == 200, "GET /1.0")
            server.ends()
    return "the file of a server that was killed is replaced"


def moved(program):
    with tempfile.TemporaryDirectory() as folder:
        path = f"{folder}/door"
        with Server(program, path, by=signal.SIGTERM) as first:
            os.rename(path, f"{folder}/old")
            with Server(program, path, "--connections", "1") as second:
                theirs = node(path)
                first.process.send_signal(signal.SIGTERM)
                need(first.process.wait(timeout=PATIENCE) == 0, "the first ends otherwise")
                need(node(path) == theirs, "the first took the file of the second away")
                need(second.curl("/1.0")[0] == 200, "the second is not asked")
                second.ends()
    return "a server that ends leaves the file of another one"


def live(program):
    with tempfile.TemporaryDirectory() as folder:
        path = f"{folder}/door"
        with Server(program, path) as server:
            before = node(path)
            for words in (["--socket", path], ["--socket", path, "--port", str(free_port())]):
                said = refusal(program, *words)
                need(said == f"incusd: the socket {path} can't be listened on: a server listens there\n", said)
            need(node(path) == before and server.curl("/1.0")[0] == 200, "the first server is gone")
        with socket.socket(socket.AF_UNIX) as listener:
            listener.bind(f"{folder}/full")
            listener.listen(0)
            links = []
            for _ in range(8):
                link = socket.socket(socket.AF_UNIX)
                link.setblocking(False)
                links.append(link)
                try:
                    link.connect(f"{folder}/full")
                except BlockingIOError:
                    break
            else:
                raise Wrong("the queue doesn't fill")
            said = refusal(program, "--socket", f"{folder}/full")
            need("a server listens there" in said and os.path.exists(f"{folder}/full"), said)
            for link in links:
                link.close()
    return "a second server is refused with status 11 and a line, also where the queue of the first is full"


def refused(program):
    with tempfile.TemporaryDirectory() as folder:
        Path(f"{folder}/file").write_text("kept")
        os.mkdir(f"{folder}/folder")
        os.mkfifo(f"{folder}/pipe")
        with socket.socket(socket.AF_UNIX) as gone:
            gone.bind(f"{folder}/gone")
        os.symlink(f"{folder}/gone", f"{folder}/link")
        with socket.socket() as taken:
            taken.bind(("127.0.0.1", 0))
            taken.listen()
            port = str(taken.getsockname()[1])
            before = {name: node(f"{folder}/{name}") for name in os.listdir(folder)}
            long = f"{folder}/" + "a" * (108 - len(folder) - 1)
            for name, why in (("file", "a file that is no socket is there"), ("folder", "a file that is no socket is there"),
                              ("pipe", "a file that is no socket is there"), ("link", "a file that is no socket is there"),
                              ("none/door", "its folder is missing"), ("file/door", "its folder is missing"),
                              (long[len(folder) + 1:], "its path is longer than the system takes")):
                said = refusal(program, "--socket", f"{folder}/{name}")
                need(said == f"incusd: the socket {folder}/{name} can't be listened on: {why}\n", said)
            for name in ("gone", "fresh"):
                said = refusal(program, "--socket", f"{folder}/{name}", "--port", port)
                need(said == f"incusd: the port {port} can't be listened on\n", said)
            free = free_port()
            refusal(program, "--socket", f"{folder}/file", "--port", str(free))
            need(not listens(free), "the port is listened on")
            after = {name: node(f"{folder}/{name}") for name in os.listdir(folder)}
            need(after == before and Path(f"{folder}/file").read_text() == "kept", f"something is otherwise: {before} {after}")
        with Server(program, long[:-1], "--connections", "1") as server:
            need(server.curl("/1.0")[0] == 200, "GET /1.0 at a path of 107 bytes")
            server.ends()
    return "seven places, and two where the port is taken: a line each, status 11, and nothing is removed; a path of 107 bytes is taken"


def connects(path, user, groups=()):
    """Whether a process of this user can connect."""
    words = ["curl", "-s", "-S", "-o", "/dev/null", "--max-time", str(PATIENCE), "--unix-socket", path, "http://localhost/1.0"]
    ran = subprocess.run(words, user=user, group=pwd.getpwnam(user).pw_gid, extra_groups=list(groups), cwd="/", capture_output=True,
                         check=False)
    need(ran.returncode in (0, 7), f"curl ends with {ran.returncode}: {ran.stderr.decode()}")
    return ran.returncode == 0


def users(program):
    if os.getuid() != 0:
        return "left out: it is not root that runs this"
    with tempfile.TemporaryDirectory() as folder:
        os.chmod(folder, 0o755)
        path = f"{folder}/door"
        for umask in (0o022, 0):
            with Server(program, path, umask=umask) as server:
                need(not connects(path, "nobody"), "nobody can connect")
                group = grp.getgrnam("daemon").gr_gid
                os.chown(path, 0, group)
                need(connects(path, "nobody", [group]), "a member of the group can't connect")
                need(not connects(path, "nobody"), "nobody can connect")
                need(server.curl("/1.0")[0] == 200, "root can't connect")
            os.unlink(path)
        own = shutil.copy(program, f"{folder}/program")
        os.chmod(own, 0o755)
        said = refusal(own, "--socket", path, cwd="/", user="nobody", group=pwd.getpwnam("nobody").pw_gid, extra_groups=[])
        need(said == f"incusd: the socket {path} can't be listened on: this user may not make or use it\n", said)
    return "nobody can't connect, a member of the group can; nobody can't listen in a folder of root's"


def at_once(program):
    with tempfile.TemporaryDirectory() as folder:
        with Server(program, f"{folder}/door", "--connections", str(2 * CLIENTS), port=free_port()) as server:
            links = [(door, place, server.at(door)) for place in range(CLIENTS) for door in ("port", "socket")]
            for door, place, link in reversed(links):
                need(ask(link, "POST", "/1.0/projects", {"name": f"{door}-{place}"})[0] == 200, f"{door} {place}")
            need(len(projects(links[0][2])) == 2 * CLIENTS + 1, "projects are missing")
            for _, _, link in links:
                link.close()
            server.ends()
        with Server(program, f"{folder}/door", "--at-once", str(CLIENTS), port=free_port()) as server:
            kept = [server.at(door) for _ in range(CLIENTS // 2) for door in ("port", "socket")]
            for link in kept:
                need(ask(link, "GET", "/1.0")[0] == 200, "one of those that are served at once")
            for door in ("port", "socket"):
                with server.at(door) as link:
                    need(Reader(link).reply()[0] == 503 and link.recv(1) == b"", f"one too many at the {door} is not turned away")
            for link in kept:
                link.close()
    return f"{CLIENTS} links at each door answered; with --at-once {CLIENTS} one more is turned away at each"


def hammer(server, door, over):
    count = 0
    while not over.is_set():
        with server.at(door) as link:
            need(ask(link, "GET", "/1.0", last=True)[0] == 200, "GET /1.0")
        count += 1
    return count


def in_turn(program):
    longest = {}
    with tempfile.TemporaryDirectory() as folder:
        with Server(program, f"{folder}/door", port=free_port()) as server:
            for busy, asked in (("port", "socket"), ("socket", "port")):
                over = threading.Event()
                crowd = [threading.Thread(target=hammer, args=(server, busy, over)) for _ in range(CLIENTS)]
                for one in crowd:
                    one.start()
                took = []
                for _ in range(50):
                    began = time.monotonic()
                    with server.at(asked) as link:
                        need(ask(link, "GET", "/1.0", last=True)[0] == 200, "GET /1.0")
                    took.append(time.monotonic() - began)
                over.set()
                for one in crowd:
                    one.join()
                longest[asked] = max(took)
    need(max(longest.values()) < 10, f"{longest}")
    return "the longest of 50 at the other door: " + ", ".join(f"{door} {1000 * most:.0f} ms" for door, most in longest.items())


def changing(server, door, name, over, made):
    try:
        with server.at(door) as link:
            place = 0
            while not over.is_set():
                code, _ = ask(link, "POST", "/1.0/projects", {"name": f"{name}-{place}"})
                need(code == 200, f"{code}")
                made.append(f"{name}-{place}")
                place += 1
    except (OSError, Wrong):
        pass


def load(program, rounds):
    total = 0
    with tempfile.TemporaryDirectory() as folder:
        for _ in range(rounds):
            with Server(program, f"{folder}/door", "--db", f"{folder}/rows", port=free_port(), by=signal.SIGTERM) as server:
                over, made = threading.Event(), []
                crowd = [threading.Thread(target=changing, args=(server, ("port", "socket")[place % 2], f"c{place}-{time.monotonic_ns()}", over, made))
                         for place in range(CLIENTS)]
                for one in crowd:
                    one.start()
                while len(made) < 2 * CLIENTS:
                    time.sleep(0.01)
                server.process.send_signal(signal.SIGTERM)
                server.ends()
                over.set()
                for one in crowd:
                    one.join()
            with Server(program, f"{folder}/door", "--db", f"{folder}/rows", "--connections", "1") as server, server.at_socket() as link:
                kept = projects(link, last=True)
                need(set(made) <= kept, f"lost: {set(made) - kept}")
            total += len(made)
    return f"{rounds} rounds: status 0, no file at the end, and {total} changes that were acknowledged are kept"


def raw(link, text):
    """All that comes back where this is sent, until the connection ends."""
    link.sendall(text)
    held = b""
    while piece := link.recv(65536):
        held += piece
    return held


def with_origin(method, target, name, body=None, more="", last=False):
    head, _, text = message(method, target, body, last).partition(b"\r\n\r\n")
    return head + f"\r\n{name}: http://evil.example\r\n{more}\r\n".encode() + text


REFUSED = {"error": "origin is not allowed", "error_code": 403, "metadata": {"rule": "H5"}, "type": "error"}


def origin(program):
    with tempfile.TemporaryDirectory() as folder:
        with Server(program, f"{folder}/door", "--log", port=free_port()) as server:
            with server.at_port() as link:
                need(ask(link, "POST", "/1.0/projects", {"name": "lab"})[0] == 200, "a project")
            asked = [("DELETE", "/1.0/projects/lab", None), ("GET", "/1.0/projects/lab", None), ("GET", "/nowhere", None),
                     ("POST", "/1.0/projects", {"name": "page"}), ("GET", "/1.0/events", None)]
            for name in ("Origin", "origin", "ORIGIN", "oRiGiN"):
                for method, target, body in asked:
                    with server.at_port() as link:
                        text = with_origin(method, target, name, body) + message("DELETE", "/1.0/projects/lab")
                        head, _, told = raw(link, text).partition(b"\r\n\r\n")
                        need(head.startswith(b"HTTP/1.1 403 ") and b"\r\nConnection: close" in head, f"{head}")
                        need(json.loads(told) == REFUSED, f"{told}")
            with server.at_port() as link:
                text = with_origin("POST", "/1.0/projects", "Origin", {"name": "page"}, "Expect: 100-continue\r\n")
                head, _, body = text.partition(b"\r\n\r\n")
                link.sendall(head + b"\r\n\r\n")
                link.settimeout(1)
                try:
                    raise Wrong(f"{link.recv(100)} before the body")
                except TimeoutError:
                    pass
                link.settimeout(PATIENCE)
                need(raw(link, body).startswith(b"HTTP/1.1 403 "), "a body that came without leave")
            with server.at_port() as link:
                need(projects(link) == {"default", "lab"}, "something was changed")
            with server.at_socket() as link:
                link.sendall(with_origin("POST", "/1.0/projects", "Origin", {"name": "page"}, "Expect: 100-continue\r\n"))
                reader = Reader(link)
                need(reader.head() == "HTTP/1.1 100 Continue", "no leave at the socket file")
                need(reader.reply()[0] == 200, "a creation with an Origin at the socket file")
                link.sendall(with_origin("DELETE", "/1.0/projects/lab", "Origin"))
                need(reader.reply()[0] == 200 and projects(link) == {"default", "page"}, "a deletion with an Origin at the socket file")
            time.sleep(0.2)
            told = [line for line in server.lines if " H5 " in line]
            need(len(told) == 21 and all(re.search(r" 127\.0\.0\.1:\d+ [A-Z]+ \S+ 403 H5 \d+$", line.rstrip()) for line in told), f"{told}")
    return "21 requests at the port: 403 H5, no leave, the connection ended and nothing was changed; at the socket file they are served"


def logged(program):
    with tempfile.TemporaryDirectory() as folder:
        with Server(program, f"{folder}/door", "--log", "--connections", "2", port=free_port()) as server:
            for door in ("port", "socket"):
                with server.at(door) as link:
                    need(ask(link, "GET", f"/1.0/projects/{door}", last=True)[0] == 404, "GET")
            server.ends()
            want = [rf"\S+ 127\.0\.0\.1:{server.port} GET /1\.0/projects/port 404 N2 \d+\n", r"\S+ unix GET /1\.0/projects/socket 404 N2 \d+\n"]
            need(len(server.lines) == 4 and all(map(re.fullmatch, want, server.lines[2:])), f"{server.lines}")
    return "a line names the door that its request came through"


def timed(server, door, rounds, text):
    with server.at(door) as link:
        reader, took = Reader(link), []
        for place in range(rounds):
            sent = text(place)
            began = time.perf_counter()
            link.sendall(sent)
            reader.reply()
            took.append(time.perf_counter() - began)
    return took


def figures(program):
    told = []
    with tempfile.TemporaryDirectory() as folder:
        with Server(program, f"{folder}/door", port=free_port()) as server:
            for name, text in (("GET /1.0", lambda part: lambda _: message("GET", "/1.0")),
                               ("creation", lambda part: lambda place: message("POST", "/1.0/projects", {"name": f"{part}-{place}"}))):
                took = {"port": [], "socket": []}
                for part in range(10):
                    for door in took:
                        took[door] += timed(server, door, 100, text(f"{door}{part}"))
                port, at_socket = (1e6 * statistics.median(took[door]) for door in ("port", "socket"))
                need(at_socket <= 1.05 * port, f"{name}: {at_socket:.0f} us at the socket file, {port:.0f} at the port")
                told.append(f"{name} {at_socket:.0f} us at the socket file, {port:.0f} at the port")
    return "medians of 1,000: " + "; ".join(told)


def main():
    words = argparse.ArgumentParser()
    words.add_argument("--program", default=str(TOP / "crates/incusd/out/incusd"))
    words.add_argument("--rounds", type=int, default=20)
    words.add_argument("--only", default="")
    said = words.parse_args()
    checks = {
        "alone": alone, "both": both, "stale": stale, "moved": moved, "live": live, "refused": refused, "users": users, "at once": at_once,
        "in turn": in_turn, "load": lambda program: load(program, said.rounds), "origin": origin, "log": logged, "figures": figures,
    }
    wrong = 0
    for name, check in checks.items():
        if said.only not in name:
            continue
        begun = time.monotonic()
        try:
            print(f"{name}: {check(said.program)}, {time.monotonic() - begun:.1f} s", flush=True)
        except (Wrong, OSError, KeyError, ValueError, subprocess.SubprocessError) as error:
            wrong += 1
            print(f"{name}: WRONG: {error!r}", flush=True)
    return 1 if wrong else 0


if __name__ == "__main__":
    sys.exit(main())
