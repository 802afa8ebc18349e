#!/usr/bin/env python3
"""Runs the stock client, the command `incus` 6.0.4, against incusd over a Unix socket; nothing stands between them.

    tests/stock_client.py [--program FILE] [--only WORD] [--table] [--together N]
    tests/stock_client.py --incus [--only WORD] [--table]

The program is crates/incusd/out/incusd without `--program` (`bin/incusd --prove` makes it). The client is in Debian's backports:

    apt-get install -y -t bookworm-backports --no-install-recommends incus-client

Where it is not installed, one line says so, and the status is 0. Each command has a server of its own, in which the state before the command
is made by requests over the same socket. A command ends well where its status is 0, and where what the table says of its output holds. Each
one that is to end well has to, and each other one has its reason in the table, and has to end otherwise; so whoever makes one more end well
has to say so here. No command may take longer than 20 seconds.

`--table` prints the commands that do not end well here, each with the reason and with the last line that the client printed.
`--together N` runs all commands N times over one server, beside 8 `incus monitor`: none may hang.

`--incus` runs the commands on Incus 6.0.4 itself, as root, and prints those that end well there and not here, and how many of those that end
well there do so here. It needs also the packages incus-base, busybox-static (a container's image is made of it), dnsmasq-base and nftables.
`monitor` and `top`, which don't end by themselves, count on neither side. It ends with status 1 where that is less than 93 of 100.

It ends with status 1 where something is otherwise.
"""
import argparse
import http.client
import json
import os
import shutil
import signal
import socket
import subprocess
import sys
import tempfile
import time
from pathlib import Path

sys.dont_write_bytecode = True

TOP = Path(__file__).resolve().parent.parent
# How long a command may take, in seconds.
PATIENCE = 20
PACKAGES = "apt-get install -y -t bookworm-backports --no-install-recommends incus-client"
# The least part of the commands which end well on Incus 6.0.4 itself that has to end well here.
LEAST = 0.93
INCUS = "/usr/libexec/incus/incusd"

ROOT = {"path": "/", "pool": "p0", "size": "1GiB", "type": "disk"}
# The requests that make a state, by its word; each may stand on those before it.
STATES = {
    "": [("POST", "/1.0/storage-pools", {"driver": "dir", "name": "p0"}),
         ("PUT", "/1.0/profiles/default", {"devices": {"root": ROOT}})],
    "network": [("POST", "/1.0/networks", {"name": "n0", "type": "bridge"})],
    "profile": [("POST", "/1.0/profiles", {"name": "web", "config": {"limits.cpu": "1"}})],
    "nic": [("PUT", "/1.0/profiles/web", {"config": {}, "devices": {"eth0": {"type": "nic", "network": "n0"}}})],
    "volume": [("POST", "/1.0/storage-pools/p0/volumes/custom", {"name": "v0", "config": {"size": "1GiB"}})],
    "pool": [("POST", "/1.0/storage-pools", {"driver": "dir", "name": "p1"})],
    "project": [("POST", "/1.0/projects", {"name": "lab", "config": {"features.profiles": "false"}})],
    "full": [("POST", "/1.0/projects", {"name": "full", "config": {"features.profiles": "false", "limits.instances": "0"}})],
    "instance": [("POST", "/1.0/instances", {"name": "c1", "source": {"type": "none"}, "config": {"user.a": "1"}})],
    "device": [("PATCH", "/1.0/instances/c1", {"devices": {"d0": {"type": "disk", "pool": "p0", "source": "v0", "path": "/d"}}})],
    "second": [("POST", "/1.0/instances", {"name": "c2", "source": {"type": "none"}})],
    "running": [("PUT", "/1.0/instances/c1/state", {"action": "start"})],
    "paused": [("PUT", "/1.0/instances/c1/state", {"action": "freeze"})],
    "snapshot": [("POST", "/1.0/instances/c1/snapshots", {"name": "s0"})],
}

# Why a command does not end well here.
EXEC = "left out: commands, consoles and files inside an instance"
IMAGES = "left out: images, of which there are none"
BACKUPS = "left out: backups and their files"
CLUSTER = "left out: clusters"
TRUST = "left out: certificates and trust"
NETS = "left out: access lists, zones, forwards, peers and load balancers of networks"
BUCKETS = "left out: buckets"
VOLUME_SNAPSHOTS = "left out: snapshots of volumes"
RESOURCES = "left out: the resources of the machine"
SERVER = "left out: settings of the server"
BOTH = "refused on Incus too"
MOVES = "left out: copies and moves between projects"
INTERNAL = "left out: paths that are no part of the REST API"
METRICS = "left out: metrics"
POOL_MOVES = "left out: moves between pools"
REBUILD = "left out: instances made anew from an image"
STATEFUL = "left out: the kept memory of an instance"
SNAPSHOT_NAMES = "left out: renames of snapshots"
FORCE = "left out: the deletion of a project with all that it has"
NETWORK_STATE = "left out: the state, leases and addresses of networks"
SPACE = "left out: the space of pools and volumes"
STOPPED_ALONE = "refused here: only a stopped instance is taken back to a snapshot"
ALL_PROJECTS = "not yet: lists and events over all projects"
WHOLE = "not yet: instances shown with their state and snapshots"
WITH_SNAPSHOTS = "not yet: copies that take the snapshots along or leave them"
EXPIRY = "not yet: the expiry of snapshots"


def row(states, command, reason=None, says=None, sends=None):
    """A command after these states; why it does not end well here, if it does not; what it has to print; and its standard input."""
    return {"states": states.split(), "words": command.split(" "), "command": command, "reason": reason, "says": says, "sends": sends}


PROFILE_YAML = "config:\n  limits.cpu: \"2\"\ndescription: \"\"\ndevices: {}\nname: web\n"
INSTANCE_YAML = "architecture: \"\"\nconfig:\n  user.a: \"2\"\ndevices: {}\nephemeral: false\nprofiles:\n- default\nstateful: false\ndescription: \"\"\n"
PROJECT_YAML = "config:\n  features.profiles: \"false\"\n  limits.instances: \"3\"\ndescription: \"\"\n"
NETWORK_YAML = "config:\n  ipv4.address: none\ndescription: \"\"\n"
POOL_YAML = "config: {}\ndescription: \"\"\n"
VOLUME_YAML = "config:\n  size: 2GiB\ndescription: \"\"\n"

COMMANDS = [
    # the server
    row("", "version"),
    row("", "info"),
    row("", "remote list"),
    row("", "remote get-default"),
    row("", "query /1.0"),
    row("", "query /1.0/instances"),
    row("instance", "query /1.0/instances/c1"),
    row("instance", "query -X PATCH -d {\"config\":{\"user.b\":\"1\"}} /1.0/instances/c1"),
    row("", "query /1.0/nothing", reason=BOTH),
    row("", "config show"),
    row("", "config get core.https_address"),
    row("", "config set core.https_address :8443", reason=SERVER),
    row("", "config unset core.https_address", reason=SERVER),
    row("", "info --resources", reason=RESOURCES),
    row("", "admin waitready --timeout 5", reason=INTERNAL),
    row("", "monitor"),
    row("", "monitor --type=lifecycle"),
    row("", "monitor --all-projects", reason=ALL_PROJECTS),
    row("", "warning list"),
    row("", "cluster list", reason=CLUSTER),
    row("", "top", reason=METRICS),
    # instances: lists and views
    row("", "list"),
    row("instance", "list", says="c1"),
    row("instance", "list c1", says="c1"),
    row("instance second", "list c2", says="c2"),
    row("instance", "list --format json", says="c1"),
    row("instance", "list --format yaml", says="c1"),
    row("instance", "list --format csv", says="c1"),
    row("instance", "list --format compact", says="c1"),
    row("instance", "list --fast", says="c1"),
    row("instance", "list -c ns", says="c1"),
    row("instance", "list -c nsPt", says="c1"),
    row("instance snapshot", "list -c nS", says="c1"),
    row("instance running", "list status=running", says="c1"),
    row("instance", "list status=stopped", says="c1"),
    row("instance", "list user.a=1", says="c1"),
    row("instance", "list --all-projects", says="c1", reason=ALL_PROJECTS),
    row("instance project", "list --project lab"),
    row("instance", "info c1", says="c1", reason=WHOLE),
    row("instance running", "info c1", says="RUNNING", reason=WHOLE),
    row("instance snapshot", "info c1", says="s0", reason=WHOLE),
    row("", "info c9", reason=BOTH),
    row("instance", "info c1 --show-log", reason=WHOLE),
    # instances: made, changed, removed
    row("", "create --empty c1"),
    row("", "create --empty c1 -c user.a=1 -c limits.cpu=2"),
    row("profile", "create --empty c1 -p default -p web"),
    row("", "create --empty c1 --no-profiles", reason=BOTH),
    row("", "create --empty c1 -s p0"),
    row("network", "create --empty c1 -n n0"),
    row("", "create --empty c1 -d root,size=2GiB"),
    row("", "create --empty c1 --vm"),
    row("", "create --empty c1 --ephemeral"),
    row("", "create --empty c1 -t c2-m4"),
    row("", "create c1 --empty", sends="config:\n  limits.cpu: \"1\"\n"),
    row("project", "create --empty c1 --project lab"),
    row("full", "create --empty c1 --project full", reason=BOTH),
    row("instance", "create --empty c1", reason=BOTH),
    row("", "create images:debian/12 c1"),
    row("", "launch --empty c1"),
    row("", "init --empty c1"),
    row("instance", "delete c1"),
    row("instance second", "delete c1 c2"),
    row("instance running", "delete c1", reason=BOTH),
    row("instance running", "delete -f c1"),
    row("", "delete c9", reason=BOTH),
    row("instance", "rename c1 c3"),
    row("instance second", "rename c1 c2", reason=BOTH),
    row("instance", "move c1 c3"),
    row("instance pool", "move c1 -s p1", reason=POOL_MOVES),
    row("instance project", "move c1 --target-project lab", reason=MOVES),
    row("instance", "copy c1 c3"),
    row("instance snapshot", "copy c1 c3"),
    row("instance snapshot", "copy c1/s0 c3"),
    row("instance", "copy c1 c3 --instance-only", reason=WITH_SNAPSHOTS),
    row("instance", "copy c1 c3 -c user.b=2"),
    row("instance profile", "copy c1 c3 -p web -p default"),
    row("instance project", "copy c1 c3 --target-project lab", reason=MOVES),
    row("instance", "copy c1 c3 --ephemeral"),
    row("instance", "rebuild --empty c1", reason=REBUILD),
    # instances: their states
    row("instance", "start c1"),
    row("instance second", "start c1 c2"),
    row("instance", "start --all"),
    row("instance running", "start c1", reason=BOTH),
    row("instance running", "stop c1"),
    row("instance running", "stop -f c1"),
    row("instance running", "stop --all"),
    row("instance running", "stop --timeout 5 c1"),
    row("instance", "stop c1", reason=BOTH),
    row("instance running", "restart c1"),
    row("instance running", "restart -f c1"),
    row("instance", "restart c1", reason=BOTH),
    row("instance running", "pause c1"),
    row("instance running paused", "resume c1"),
    row("instance running paused", "start c1"),
    row("instance", "resume c1", reason=BOTH),
    row("instance running", "stop --stateful c1", reason=STATEFUL),
    # snapshots
    row("instance", "snapshot create c1"),
    row("instance", "snapshot create c1 s1"),
    row("instance running", "snapshot create c1 s1"),
    row("instance", "snapshot create c1 s1 --no-expiry", reason=EXPIRY),
    row("instance snapshot", "snapshot create c1 s0", reason=BOTH),
    row("instance snapshot", "snapshot create c1 s0 --reuse"),
    row("instance snapshot", "snapshot list c1", says="s0"),
    row("instance snapshot", "snapshot show c1 s0", says="s0"),
    row("instance snapshot", "snapshot restore c1 s0"),
    row("instance snapshot running", "snapshot restore c1 s0", reason=STOPPED_ALONE),
    row("instance", "snapshot restore c1 s9", reason=BOTH),
    row("instance snapshot", "snapshot rename c1 s0 s1", reason=SNAPSHOT_NAMES),
    row("instance snapshot", "snapshot delete c1 s0"),
    row("instance", "snapshot delete c1 s9", reason=BOTH),
    # settings and devices of instances
    row("instance", "config show c1", says="user.a"),
    row("instance", "config show c1 --expanded", says="root"),
    row("instance snapshot", "config show c1/s0", says="user.a"),
    row("instance", "config get c1 user.a", says="1"),
    row("instance", "config get c1 user.z"),
    row("instance", "config set c1 user.b=2"),
    row("instance", "config set c1 limits.cpu=2 limits.memory=1GiB"),
    row("instance", "config set c1 limits.cpu=none", reason=BOTH),
    row("instance", "config set c1 nothing=1", reason=BOTH),
    row("instance", "config unset c1 user.a"),
    row("instance", "config edit c1", sends=INSTANCE_YAML),
    row("instance", "config device list c1"),
    row("instance volume device", "config device list c1", says="d0"),
    row("instance volume device", "config device show c1", says="v0"),
    row("instance volume device", "config device get c1 d0 path", says="/d"),
    row("instance volume device", "config device set c1 d0 path=/e"),
    row("instance volume device", "config device unset c1 d0 readonly"),
    row("instance volume device", "config device remove c1 d0"),
    row("instance volume", "config device add c1 d0 disk pool=p0 source=v0 path=/d"),
    row("instance", "config device add c1 d0 disk pool=p0 source=v9 path=/d", reason=BOTH),
    row("instance network", "config device add c1 eth0 nic network=n0"),
    row("instance", "config device override c1 root size=2GiB"),
    row("instance", "config device add c1 e0 none"),
    row("instance", "config metadata show c1", reason=EXEC),
    row("instance", "config template list c1", reason=EXEC),
    row("", "config trust list"),
    row("", "config trust list-tokens"),
    # profiles
    row("", "profile list", says="default"),
    row("profile", "profile list", says="web"),
    row("profile", "profile list --format csv", says="web"),
    row("profile", "profile show web", says="limits.cpu"),
    row("", "profile show nothing", reason=BOTH),
    row("", "profile create web"),
    row("", "profile create web", sends=PROFILE_YAML),
    row("profile", "profile create web", reason=BOTH),
    row("profile", "profile copy web db"),
    row("profile", "profile edit web", sends=PROFILE_YAML),
    row("profile", "profile get web limits.cpu", says="1"),
    row("profile", "profile set web limits.cpu=2"),
    row("profile", "profile set web limits.cpu=none", reason=BOTH),
    row("profile", "profile unset web limits.cpu"),
    row("profile", "profile rename web db"),
    row("profile", "profile delete web"),
    row("", "profile delete default", reason=BOTH),
    row("instance profile", "profile add c1 web"),
    row("instance profile", "profile assign c1 default,web"),
    row("instance profile", "profile remove c1 default", reason=BOTH),
    row("profile", "profile device list web"),
    row("profile network nic", "profile device list web", says="eth0"),
    row("profile network nic", "profile device show web", says="n0"),
    row("profile network nic", "profile device get web eth0 network", says="n0"),
    row("profile network nic", "profile device set web eth0 network=n0"),
    row("profile network nic", "profile device unset web eth0 mtu"),
    row("profile network nic", "profile device remove web eth0"),
    row("profile network", "profile device add web eth0 nic network=n0"),
    # projects
    row("", "project list", says="default"),
    row("project", "project list", says="lab"),
    row("project", "project list --format json", says="lab"),
    row("", "project create lab"),
    row("", "project create lab -c features.profiles=false -c limits.instances=3"),
    row("", "project create lab", sends=PROJECT_YAML),
    row("project", "project create lab", reason=BOTH),
    row("project", "project show lab", says="lab"),
    row("project", "project edit lab", sends=PROJECT_YAML),
    row("project", "project get lab features.profiles", says="false"),
    row("project", "project set lab limits.instances=3"),
    row("project", "project set lab limits.instances=many", reason=BOTH),
    row("project", "project unset lab limits.instances"),
    row("project", "project rename lab den"),
    row("project", "project delete lab"),
    row("", "project delete default", reason=BOTH),
    row("project", "project delete lab --force", reason=FORCE),
    row("project", "project info lab", says="INSTANCES"),
    row("project", "project switch lab"),
    row("", "project get-current", says="default"),
    # networks
    row("", "network list"),
    row("network", "network list", says="n0"),
    row("network", "network list --format yaml", says="n0"),
    row("network", "network list --all-projects", says="n0", reason=ALL_PROJECTS),
    row("", "network create n0"),
    row("", "network create n0 --type=bridge ipv4.address=none"),
    row("network", "network create n0", reason=BOTH),
    row("network", "network show n0", says="n0"),
    row("network", "network edit n0", sends=NETWORK_YAML),
    row("network", "network get n0 ipv4.address"),
    row("network", "network set n0 ipv4.address=none"),
    row("network", "network unset n0 ipv4.address"),
    row("network", "network rename n0 n1"),
    row("network", "network delete n0"),
    row("network profile nic", "network delete n0", reason=BOTH),
    row("network", "network info n0", reason=NETWORK_STATE),
    row("network instance", "network attach n0 c1 eth0"),
    row("network profile", "network attach-profile n0 web eth0"),
    row("network profile nic", "network detach-profile n0 web eth0"),
    row("network", "network list-leases n0", reason=NETWORK_STATE),
    row("network", "network list-allocations", reason=NETWORK_STATE),
    row("", "network acl list"),
    row("", "network zone list"),
    row("network", "network forward list n0"),
    row("network", "network peer list n0", reason=NETS),
    row("network", "network load-balancer list n0", reason=NETS),
    row("", "network integration list", reason=NETS),
    row("", "network acl create a0", reason=NETS),
    # pools and volumes
    row("", "storage list", says="p0"),
    row("", "storage show p0", says="p0"),
    row("", "storage create p1 dir"),
    row("", "storage create p0 dir", reason=BOTH),
    row("pool", "storage delete p1"),
    row("", "storage delete p0", reason=BOTH),
    row("pool", "storage edit p1", sends=POOL_YAML),
    row("", "storage get p0 size"),
    row("pool", "storage set p1 user.a=1"),
    row("pool", "storage unset p1 user.a"),
    row("", "storage info p0", reason=SPACE),
    row("", "storage volume list"),
    row("", "storage volume list p0"),
    row("volume", "storage volume list p0", says="v0"),
    row("volume", "storage volume list p0 --format csv", says="v0"),
    row("volume", "storage volume show p0 v0", says="v0"),
    row("", "storage volume create p0 v0"),
    row("", "storage volume create p0 v0 size=1GiB"),
    row("volume", "storage volume create p0 v0", reason=BOTH),
    row("volume", "storage volume edit p0 v0", sends=VOLUME_YAML),
    row("volume", "storage volume get p0 v0 size", says="1GiB"),
    row("volume", "storage volume set p0 v0 size=2GiB"),
    row("volume", "storage volume unset p0 v0 size"),
    row("volume", "storage volume rename p0 v0 v1"),
    row("volume", "storage volume delete p0 v0"),
    row("volume instance device", "storage volume delete p0 v0", reason=BOTH),
    row("volume", "storage volume copy p0/v0 p0/v1"),
    row("volume pool", "storage volume copy p0/v0 p1/v0"),
    row("volume pool", "storage volume move p0/v0 p1/v0", reason=POOL_MOVES),
    row("volume instance", "storage volume attach p0 v0 c1 /d"),
    row("volume instance device", "storage volume detach p0 v0 c1"),
    row("volume profile", "storage volume attach-profile p0 v0 web /d"),
    row("volume", "storage volume info p0 v0", reason=SPACE),
    row("volume", "storage volume snapshot create p0 v0", reason=VOLUME_SNAPSHOTS),
    row("volume", "storage volume snapshot list p0 v0", reason=VOLUME_SNAPSHOTS),
    row("", "storage bucket list p0"),
    row("", "storage bucket create p0 b0", reason=BUCKETS),
    # operations
    row("", "operation list"),
    row("instance", "operation list"),
    row("", "operation show 00000000-0000-0000-0000-000000000000", reason=BOTH),
    row("", "operation delete 00000000-0000-0000-0000-000000000000", reason=BOTH),
    # images, and what is left out
    row("", "image list"),
    row("", "image alias list"),
    row("", "image info nothing", reason=BOTH),
    row("", "image show nothing", reason=BOTH),
    row("instance running", "exec c1 -- true", reason=EXEC),
    row("instance running", "file push /etc/hostname c1/tmp/", reason=EXEC),
    row("instance running", "file pull c1/etc/hostname -", reason=EXEC),
    row("instance running", "console c1 --show-log", reason=EXEC),
    row("instance", "export c1 /tmp/stock_client_c1.tar.gz", reason=BACKUPS),
    row("instance", "publish c1 --alias a", reason=IMAGES),
    row("instance", "config metadata edit c1", reason=EXEC, sends="{}\n"),
    row("", "import /nothing.tar.gz", reason=BOTH),
]


class Unix(http.client.HTTPConnection):
    """A connection to a Unix socket."""

    def __init__(self, path):
        super().__init__("localhost", timeout=PATIENCE)
        self.path = path

    def connect(self):
        self.sock = socket.socket(socket.AF_UNIX)
        self.sock.settimeout(PATIENCE)
        self.sock.connect(self.path)


class Server:
    """A server on a socket of its own, in a folder of its own."""

    def __init__(self, program):
        self.folder = tempfile.mkdtemp(prefix="stock-client-")
        self.path = os.path.join(self.folder, "socket")
        self.process = subprocess.Popen([*program, "--socket", self.path, "--stop-at-end-of-input"], stdin=subprocess.PIPE,
                                        stdout=subprocess.DEVNULL, stderr=subprocess.DEVNULL)
        end = time.monotonic() + PATIENCE
        while not os.path.exists(self.path):
            if time.monotonic() > end or self.process.poll() is not None:
                raise SystemExit("the server did not begin")
            time.sleep(0.01)

    def ask(self, method, target, body=None):
        link = Unix(self.path)
        try:
            link.request(method, target, body=None if body is None else json.dumps(body))
            reply = link.getresponse()
            return reply.status, json.loads(reply.read())
        finally:
            link.close()

    def make(self, words):
        """Makes the state of these words, and waits for what is made in the background."""
        for word in ["", *words]:
            for method, target, body in STATES[word]:
                status, reply = self.ask(method, target, body)
                if status == 202:
                    status, reply = self.ask("GET", reply["operation"] + "/wait")
                    status = 200 if reply["metadata"]["status"] == "Success" else 500
                if status not in (200, 201):
                    raise SystemExit(f"the state {word or 'of all'} was not made: {method} {target}: {reply}")

    def stop(self):
        self.process.stdin.close()
        try:
            self.process.wait(PATIENCE)
        except subprocess.TimeoutExpired:
            self.process.kill()
        shutil.rmtree(self.folder, ignore_errors=True)


class Incus(Server):
    """Incus itself, in a folder of its own. Its instances are made of a small image, so that they can run."""

    def __init__(self, image):
        self.folder = tempfile.mkdtemp(prefix="stock-client-")
        self.path = os.path.join(self.folder, "unix.socket")
        self.log = open(os.path.join(self.folder, "log"), "w", encoding="utf-8")
        self.process = subprocess.Popen([INCUS], env={**os.environ, "INCUS_DIR": self.folder}, stdin=subprocess.DEVNULL, stdout=self.log,
                                        stderr=self.log, start_new_session=True)
        end = time.monotonic() + 3 * PATIENCE
        while not self.answers():
            if time.monotonic() > end or self.process.poll() is not None:
                raise SystemExit("Incus did not begin")
            time.sleep(0.1)
        self.client(["image", "import", image, "--alias", "small"])

    def answers(self):
        try:
            return self.ask("GET", "/1.0")[0] == 200
        except OSError:
            return False

    def client(self, words):
        environment = {"PATH": os.environ["PATH"], "HOME": self.folder, "INCUS_CONF": self.folder, "INCUS_SOCKET": self.path}
        subprocess.run(["incus", *words], env=environment, check=True, capture_output=True, stdin=subprocess.DEVNULL, timeout=PATIENCE)

    def ask(self, method, target, body=None):
        if body is not None and body.get("source", {}).get("type") == "none":
            body = {**body, "source": {"type": "image", "alias": "small"}}
        if method == "POST" and target == "/1.0/networks":
            body = {**body, "config": {"ipv4.address": "none", "ipv6.address": "none"}}
        return super().ask(method, target, body)

    def stop(self):
        self.process.kill()
        self.process.wait()
        self.log.close()
        for word in ("lxc monitor", "forkstart"):
            subprocess.run(["pkill", "-9", "-f", f"{word}.*{self.folder}"], check=False)
        mounts = [line.split()[1] for line in Path("/proc/mounts").read_text(encoding="utf-8").splitlines()]
        for path in reversed([it for it in mounts if it.startswith(f"{self.folder}/")]):
            subprocess.run(["umount", "-l", path], check=False, capture_output=True)
        subprocess.run(["ip", "link", "delete", "n0"], check=False, capture_output=True)
        shutil.rmtree(self.folder, ignore_errors=True)


def small_image(folder):
    """An image whose first process waits."""
    root = Path(folder, "image", "rootfs")
    for name in ("bin", "sbin", "etc", "proc", "sys", "dev", "tmp", "root"):
        (root / name).mkdir(parents=True)
    shutil.copy("/bin/busybox", root / "bin/busybox")
    for name in ("sh", "sleep", "true", "cat", "ls"):
        (root / "bin" / name).symlink_to("busybox")
    init = root / "sbin/init"
    init.write_text('#!/bin/busybox sh\ntrap "exit 0" TERM PWR INT\nwhile true; do /bin/busybox sleep 1; done\n', encoding="utf-8")
    init.chmod(0o755)
    Path(folder, "image/metadata.yaml").write_text("architecture: x86_64\ncreation_date: 1\nproperties:\n  os: busybox\n", encoding="utf-8")
    target = str(Path(folder, "small.tar.gz"))
    subprocess.run(["tar", "-C", str(Path(folder, "image")), "-czf", target, "metadata.yaml", "rootfs"], check=True)
    return target


def compare(entries, shows_table):
    """How many of the commands that end well on Incus itself end well here, by the table."""
    counted = [entry for entry in entries if entry["words"][0] not in ("monitor", "top")]
    there = both = 0
    with tempfile.TemporaryDirectory() as folder:
        image = small_image(folder)
        for entry in counted:
            server = Incus(image)
            try:
                server.make(entry["states"])
                well, _, printed = run(server, entry)
            finally:
                server.stop()
            there += well
            both += well and entry["reason"] is None
            state = f" (after {', '.join(entry['states'])})" if entry["states"] else ""
            if well and entry["reason"] is not None:
                print(f"incus {entry['command']}{state}: ends well on Incus alone: {entry['reason']}", flush=True)
            elif shows_table and not well and entry["reason"] != BOTH:
                print(f"incus {entry['command']}{state}: does not end well on Incus: {last_line(printed)}", flush=True)
    part = both / there if there else 0
    print(f"{len(counted)} commands, {there} end well on Incus, {both} of them here: {100 * part:.1f} %")
    return part >= LEAST


def run(server, entry):
    """Runs a command: whether it ended well, whether it hung, and what it printed."""
    home = os.path.join(server.folder, "home")
    os.makedirs(home, exist_ok=True)
    environment = {"PATH": os.environ["PATH"], "HOME": home, "INCUS_CONF": home, "INCUS_SOCKET": server.path, "LANG": "C.UTF-8"}
    listens = entry["words"][0] in ("monitor", "top")
    child = subprocess.Popen(["incus", *entry["words"]], env=environment, stdout=subprocess.PIPE, stderr=subprocess.STDOUT, text=True,
                             errors="replace", stdin=subprocess.DEVNULL if entry["sends"] is None else subprocess.PIPE)
    try:
        printed, _ = child.communicate(entry["sends"], timeout=2 if listens else PATIENCE)
    except subprocess.TimeoutExpired:
        child.send_signal(signal.SIGKILL)
        printed, _ = child.communicate()
        return listens, not listens, printed
    well = child.returncode == 0 and not listens and (entry["says"] is None or entry["says"] in printed)
    return well, False, printed


def last_line(printed):
    lines = [line for line in printed.splitlines() if line.strip()]
    return lines[-1][:160] if lines else ""


def judge(program, entries, shows_table):
    """Each command over a server of its own."""
    wrong = ended = 0
    for entry in entries:
        server = Server(program)
        try:
            server.make(entry["states"])
            well, hung, printed = run(server, entry)
        finally:
            server.stop()
        ended += well
        due = entry["reason"] is None
        state = f" (after {', '.join(entry['states'])})" if entry["states"] else ""
        if hung:
            print(f"incus {entry['command']}{state}: hangs")
            wrong += 1
        elif well != due:
            print(f"incus {entry['command']}{state}: ended {'well' if well else 'otherwise'}: {last_line(printed)}")
            wrong += 1
        elif shows_table and not due:
            print(f"incus {entry['command']}{state}: {entry['reason']}: {last_line(printed)}")
    print(f"{len(entries)} commands, {ended} ended well, {wrong} wrong")
    return wrong == 0


def together(program, entries, rounds):
    """All commands one after the other over one server, so often, beside 8 that listen: none may hang."""
    server = Server(program)
    hung = 0
    environment = {"PATH": os.environ["PATH"], "HOME": server.folder, "INCUS_CONF": server.folder, "INCUS_SOCKET": server.path}
    listeners = [subprocess.Popen(["incus", "monitor"], env=environment, stdin=subprocess.DEVNULL, stdout=subprocess.DEVNULL,
                                  stderr=subprocess.DEVNULL) for _ in range(8)]
    try:
        server.make([])
        for round_ in range(rounds):
            for entry in entries:
                if entry["words"][0] in ("monitor", "top"):
                    continue
                _, hangs, _ = run(server, entry)
                if hangs:
                    print(f"incus {entry['command']}: hangs in round {round_ + 1}")
                    hung += 1
        lost = sum(listener.poll() is not None for listener in listeners)
    finally:
        for listener in listeners:
            listener.kill()
            listener.wait()
        server.stop()
    print(f"{rounds} rounds of {len(entries)} commands beside 8 that listen: {hung} hung, {lost} listeners ended")
    return hung == 0 and lost == 0


def main():
    words = argparse.ArgumentParser()
    words.add_argument("--program", nargs="+", default=[str(TOP / "crates/incusd/out/incusd")])
    words.add_argument("--only", default="")
    words.add_argument("--table", action="store_true")
    words.add_argument("--together", type=int, default=0)
    words.add_argument("--incus", action="store_true")
    given = words.parse_args()
    if shutil.which("incus") is None:
        print(f"skipped: the client is not installed: {PACKAGES}")
        return 0
    entries = [entry for entry in COMMANDS if given.only in entry["command"]]
    if given.incus:
        if os.getuid() or not all(os.access(program, os.X_OK) for program in (INCUS, "/bin/busybox")):
            print("skipped: Incus is run as root, and needs the packages incus-base, busybox-static, dnsmasq-base and nftables")
            return 0
        is_well = compare(entries, given.table)
    elif given.together:
        is_well = together(given.program, entries, given.together)
    else:
        is_well = judge(given.program, entries, given.table)
    return 0 if is_well else 1


if __name__ == "__main__":
    sys.exit(main())
