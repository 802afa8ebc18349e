"""The two servers that peers.py compares, each started anew and asked through the same calls: Incus over its unix socket, ours over TCP."""
import base64
import http.client
import json
import os
import shutil
import signal
import socket
import struct
import subprocess
import sys
import tempfile
import textwrap
import threading
import time
from collections import Counter
from pathlib import Path

TOP = Path(__file__).resolve().parent.parent
# How long one request may take, in seconds: some of Incus take longer than a minute.
PATIENCE = 300
# How long a start may take: sources that are not proved are compiled first.
START = 900
TICKS = os.sysconf("SC_CLK_TCK")
INCUS_PROGRAMS = ("/usr/libexec/incus/incusd", "/usr/lib/incus/incusd", "/opt/incus/bin/incusd")


class Wrong(Exception):
    """Something that a measurement needs did not come about."""


class Reply:
    """What a server answered: the status, the JSON of the body, and the ETag."""

    def __init__(self, status, text, etag=None):
        self.status, self.etag = status, etag
        self.body = json.loads(text) if text else {}

    @property
    def is_well(self):
        return self.status < 400 and self.body.get("type") != "error"

    @property
    def metadata(self):
        return self.body.get("metadata")

    def in_short(self):
        """The status, with the rule or the begin of the text where it is a refusal."""
        if self.is_well:
            return str(self.status)
        rule = (self.metadata or {}).get("rule") if isinstance(self.metadata, dict) else None
        return f"{self.status} {rule or textwrap.shorten(self.body.get('error', ''), 64, placeholder=' ..')}".strip()


class UnixConnection(http.client.HTTPConnection):
    def __init__(self, path):
        super().__init__("localhost", timeout=PATIENCE)
        self.path = path

    def connect(self):
        self.sock = socket.socket(socket.AF_UNIX)
        self.sock.settimeout(PATIENCE)
        self.sock.connect(self.path)


class Link:
    """One connection that is kept open."""

    def __init__(self, server):
        self.http = server.connection()
        self.http.connect()

    def __enter__(self):
        return self

    def __exit__(self, *_):
        self.http.close()

    def ask(self, method, path, body=None, headers=None):
        text = None if body is None else json.dumps(body)
        self.http.request(method, path, text, {"Content-Type": "application/json", **(headers or {})})
        reply = self.http.getresponse()
        return Reply(reply.status, reply.read(), reply.getheader("ETag"))

    def end(self, reply):
        """What an accepted request came to: the operation's end where there is one, and else the reply."""
        if reply.status != 202:
            return reply
        ended = self.ask("GET", reply.body["operation"].split("?")[0] + "/wait" + query_of(reply.body["operation"]))
        told = ended.metadata if isinstance(ended.metadata, dict) else {}
        return Reply(200 if told.get("status") == "Success" else 400, json.dumps({
            "type": "sync" if told.get("status") == "Success" else "error",
            "error": told.get("err") or told.get("status") or ended.body.get("error", ""), "metadata": {}}))

    def do(self, method, path, body=None, headers=None):
        return self.end(self.ask(method, path, body, headers))


def query_of(target):
    return f"?{target.split('?', 1)[1]}" if "?" in target else ""


class Server:
    """A daemon in a folder of its own. `ask` and `do` use one connection that is kept."""

    name = None

    def __init__(self):
        self.folder = tempfile.mkdtemp(prefix="peers.")
        self.process = self.kept = self.log = None

    def __enter__(self):
        try:
            self.start()
        except BaseException:
            self.__exit__()
            raise
        return self

    def __exit__(self, *_):
        self.end()
        shutil.rmtree(self.folder, ignore_errors=True)

    def run(self, words, **how):
        self.log = open(f"{self.folder}/said", "ab")
        self.process = subprocess.Popen(words, stdout=self.log, stderr=self.log, start_new_session=True, **how)

    def start(self):
        """Starts the program, and returns the seconds until it first answers."""
        begun = time.monotonic()
        self.begin()
        while True:
            if self.process.poll() is not None:
                raise Wrong(f"{self.name} ended at once: {Path(self.folder, 'said').read_text()[-300:]}")
            try:
                with Link(self) as link:
                    if link.ask("GET", "/1.0").is_well:
                        break
            except (OSError, http.client.HTTPException):
                pass
            if time.monotonic() - begun > START:
                raise Wrong(f"{self.name} does not answer")
            time.sleep(0.01)
        taken = time.monotonic() - begun
        self.kept, self.used = Link(self), time.monotonic()
        return taken

    def end(self, how=signal.SIGKILL):
        if self.kept:
            self.kept.http.close()
        if self.process and self.process.poll() is None:
            os.killpg(self.process.pid, how)
            self.process.wait()
        if self.log:
            self.log.close()

    def link(self):
        """The connection that is kept, or a new one where it was idle for so long that the server may have closed it."""
        if time.monotonic() - self.used > 10:
            self.kept.http.close()
            self.kept = Link(self)
        return self.kept

    def ask(self, *words):
        reply = self.link().ask(*words)
        self.used = time.monotonic()
        return reply

    def tagged(self, path):
        """A GET, with the entity tag of what it shows."""
        return self.ask("GET", path)

    def do(self, *words):
        reply = self.link().do(*words)
        self.used = time.monotonic()
        return reply

    def must(self, *words):
        reply = self.do(*words)
        if not reply.is_well:
            raise Wrong(f"{self.name}: {words[0]} {words[1]}: {reply.in_short()}")
        return reply

    def clock(self):
        """The processor seconds that the program and the children that it waited for have used."""
        fields = Path(f"/proc/{self.process.pid}/stat").read_text().rsplit(")", 1)[1].split()
        own = time.clock_gettime(~self.process.pid << 3 | 2)  # of the whole process, see clock_getcpuclockid(3)
        return own + sum(map(int, fields[13:15])) / TICKS

    def memory(self):
        """The memory that the program holds, in MB."""
        lines = Path(f"/proc/{self.process.pid}/status").read_text().splitlines()
        return next(int(line.split()[1]) for line in lines if line.startswith("VmRSS")) / 1024


class Incus(Server):
    name = "Incus"

    def __init__(self, program):
        super().__init__()
        self.program, self.socket = program, f"{self.folder}/unix.socket"

    def begin(self):
        self.run([self.program], env={**os.environ, "INCUS_DIR": self.folder})

    def connection(self):
        return UnixConnection(self.socket)

    def end(self, how=signal.SIGKILL):
        super().end(how)
        mounts = [line.split()[1] for line in Path("/proc/mounts").read_text().splitlines()]
        for path in reversed([it for it in mounts if it.startswith(f"{self.folder}/")]):
            subprocess.run(["umount", "-l", path], check=False, capture_output=True)

    def has_storage(self, project, name):
        return any(Path(self.folder, "storage-pools/p0", kind, f"{project}_{name}").exists() for kind in ("containers",))

    @staticmethod
    def why_not():
        """Why it can't be run here, or nothing, and its program."""
        program = next((it for it in INCUS_PROGRAMS if os.access(it, os.X_OK)), None)
        if program is None:
            return "the packages incus-base and incus-client (6.0.4, of Debian's backports) are not installed", None
        if os.getuid():
            return "incusd needs root", None
        return None, program

    def version(self):
        return self.ask("GET", "/1.0").metadata["environment"]["server_version"]


class Ours(Server):
    name = "ours"

    def __init__(self, words):
        super().__init__()
        self.words = words
        with socket.socket() as probe:
            probe.bind(("127.0.0.1", 0))
            self.port = probe.getsockname()[1]

    def begin(self):
        self.run([*self.words, "--port", str(self.port), "--socket", f"{self.folder}/incusd.socket", "--db", f"{self.folder}/rows.db"],
                 stdin=subprocess.DEVNULL)

    def tagged(self, path):
        """A GET at the socket file, where entity tags are told."""
        link = UnixConnection(f"{self.folder}/incusd.socket")
        link.request("GET", path)
        reply = link.getresponse()
        return Reply(reply.status, reply.read(), reply.getheader("ETag"))

    def connection(self):
        connection = http.client.HTTPConnection("127.0.0.1", self.port, timeout=PATIENCE)
        connection.connect()
        connection.sock.setsockopt(socket.IPPROTO_TCP, socket.TCP_NODELAY, 1)
        connection.connect = lambda: None
        return connection

    def has_storage(self, project, name):
        """The host is a modelled one: nothing lies on a disk, so there is nothing to look at."""
        return True


class Listener:
    """A client of `/1.0/events`, which collects what it is told on a thread of its own."""

    def __init__(self, server, query=""):
        http_link = server.connection()
        http_link.connect()
        self.sock, self.held, self.events = http_link.sock, b"", []
        key = base64.b64encode(os.urandom(16)).decode()
        self.sock.sendall((f"GET /1.0/events{query} HTTP/1.1\r\nHost: localhost\r\nUpgrade: websocket\r\nConnection: Upgrade\r\n"
                           f"Sec-WebSocket-Version: 13\r\nSec-WebSocket-Key: {key}\r\n\r\n").encode())
        while b"\r\n\r\n" not in self.held:
            self.more()
        head, self.held = self.held.split(b"\r\n\r\n", 1)
        if b" 101 " not in head.split(b"\r\n")[0]:
            raise Wrong(f"{server.name}: no session of events: {head[:200]}")
        self.thread = threading.Thread(target=self.collect, daemon=True)
        self.thread.start()

    def more(self):
        piece = self.sock.recv(65536)
        if not piece:
            raise OSError("the session of events ended")
        self.held += piece

    def take(self, count):
        while len(self.held) < count:
            self.more()
        taken, self.held = self.held[:count], self.held[count:]
        return taken

    def collect(self):
        try:
            while True:
                first, length = self.take(2)
                if length == 126:
                    length = struct.unpack(">H", self.take(2))[0]
                elif length == 127:
                    length = struct.unpack(">Q", self.take(8))[0]
                content = self.take(length)
                if first == 0x81:
                    self.events.append(json.loads(content))
        except OSError:
            pass

    def close(self):
        self.sock.close()


# ---- what tests of both servers are made of

def furnish(server):
    server.must("POST", "/1.0/storage-pools", {"driver": "dir", "name": "p0"})


def root_disk(size=None):
    return {"root": {"path": "/", "pool": "p0", "type": "disk", **({"size": size} if size else {})}}


def add_project(server, name, config=None, profile=None, size=None):
    """A project with its profile `default`, which has a root disk."""
    server.must("POST", "/1.0/projects", {"name": name, "config": config or {}})
    server.must("PUT", f"/1.0/profiles/default?project={name}", {"config": profile or {}, "devices": root_disk(size)})


def instance(name, config=None, **more):
    return {"name": name, "source": {"type": "none"}, "config": config or {}, **more}


def create(server, project, name, config=None, **more):
    return server.must("POST", f"/1.0/instances?project={project}", instance(name, config, **more))


def configure(server, project, **changes):
    """Puts settings of a project, the others as they are; dots stand for double underscores."""
    row = server.must("GET", f"/1.0/projects/{project}").metadata
    config = {**row["config"], **{key.replace("__", ".").replace("_", "-"): value for key, value in changes.items()}}
    return server.do("PUT", f"/1.0/projects/{project}", {"config": config, "description": row["description"]})


def rows(server, path):
    return server.must("GET", path).metadata


def instances(server, project):
    return rows(server, f"/1.0/instances?project={project}&recursion=1")


def summed(server, project, key):
    """The sum of a setting that is a plain number, over the instances of a project as they are with their profiles."""
    return sum(int(row["expanded_config"].get(key, "0")) for row in instances(server, project))


def at_once(server, requests):
    """Sends requests, each on a connection of its own, and returns what they came to, in their order."""
    gate, ends = threading.Barrier(len(requests)), [None] * len(requests)

    def send(place, words):
        with Link(server) as link:
            gate.wait()
            ends[place] = link.do(*words)

    threads = [threading.Thread(target=send, args=each) for each in enumerate(requests)]
    for thread in threads:
        thread.start()
    for thread in threads:
        thread.join()
    if None in ends:
        raise Wrong(f"{server.name}: a request at once was not answered")
    return ends


def counted(replies):
    """How many replies there were of each kind, as a text."""
    found = Counter(reply.in_short() for reply in replies)
    return ", ".join(f"{count} times {what}" for what, count in found.most_common(3))


def say(text):
    print(text, file=sys.stderr, flush=True)
