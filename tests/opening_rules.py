#!/usr/bin/env python3
"""Hands incus_run files whose rows break a rule, and entries that are no rows.

    tests/opening_rules.py [--program FILE] [--only WORD] [--small]

The program is crates/incus_run/out/incus_run without `--program` (`bin/incus_run --prove` makes it). `check --db` makes a file; the stock
SQLite writes entries into it, spelt here and not by the program; and `check --db` has to end with status 7 and with one line on standard
error that names the first row at fault by its kind and key, and the rule that it breaks; or the first entry that is damaged. Each rule of
an opening has its cases (N1 to N3, B3, V1 to V5, F1 to F7, L0 to L9, C1, C2), and each kind of row its damages, spelt here and as a run of
the program left it; files whose rows are good have to open. The file has to keep the entries that it had.

`--only` tries the cases whose description has this word. `--small` leaves out the tables with more rows than there may be of instances,
volumes and snapshots. It ends with status 1 where something is otherwise.
"""
import argparse
import json
import shutil
import subprocess
import sys
import tempfile
from pathlib import Path

sys.dont_write_bytecode = True
import row_entries  # noqa: E402
from row_entries import (FEATURES, INSTANCE, KINDS, NETWORK, POOL, PROFILE, PROJECT, ROOT, SNAPSHOT, VOLUME, devices, instance, listed,
                         machine, network, pool, profile, project, settings, snapshot, text, volume)

TOP = Path(__file__).resolve().parent.parent
TANK = pool("tank")
BOX = instance("default/box")
# A project whose rows are all its own, with its profile `default`.
OWN = {"features.networks": "true", "features.profiles": "true", "features.storage.volumes": "true"}
LAB = [project("lab", OWN), profile("lab/default"), TANK]


def lab(**config):
    """The project `lab` with all of its rows its own, and these settings, whose dots are written as two underscores."""
    return [project("lab", OWN | {key.replace("__", ".").replace("_", "-"): value for key, value in config.items()}),
            profile("lab/default"), TANK]


def restricted(**config):
    return lab(restricted="true", **{f"restricted__{key}": value for key, value in config.items()})


# ---- the rules: what is said of a case, its entries, and the kind, the key and the rule that are named

def gone(kind, key):
    """The entry of this kind and key is taken out."""
    return kind, key, None


NAMES = [
    ("the project default is missing", [gone(PROJECT, "default")], PROJECT, "default", "N1"),
    ("the project default is missing beside another", [gone(PROJECT, "default"), *LAB], PROJECT, "default", "N1"),
    *((f"a row of kind {KINDS[row[0] - 1]} whose project is missing", [TANK, row], row[0], row[1], "N1") for row in (
        profile("ghost/web"), network("ghost/net0"), volume("ghost/tank/disk"), instance("ghost/box"), snapshot("ghost/box/first"))),
    *((f"a row of kind {KINDS[row[0] - 1]} in a project without that feature", [project("lab", {}), TANK, row], row[0], row[1], "N1") for row in (
        profile("lab/web"), network("lab/net0"), volume("lab/tank/disk"))),
    ("the pool of a volume is missing", [volume("default/tank/disk")], VOLUME, "default/tank/disk", "N2"),
    ("the instance of a snapshot is missing", [TANK, BOX, snapshot("default/cell/first")], SNAPSHOT, "default/cell/first", "N2"),
    ("the instance of a snapshot stands in another project", [*LAB, BOX, snapshot("lab/box/first")], SNAPSHOT, "lab/box/first", "N2"),
    ("an instance has a profile twice", [TANK, instance("default/box", profiles=("default", "default"))],
     INSTANCE, "default/box", "N3"),
    ("an instance has 65 profiles", [TANK, instance("default/box", profiles=[f"p{at}" for at in range(65)])],
     INSTANCE, "default/box", "N3"),
    ("a snapshot has a profile twice", [TANK, BOX, snapshot("default/box/first", profiles=("a", "b", "a"))],
     SNAPSHOT, "default/box/first", "N3"),
    ("a snapshot has 65 profiles", [TANK, BOX, snapshot("default/box/first", profiles=[f"p{at}" for at in range(65)])],
     SNAPSHOT, "default/box/first", "N3"),
    *((f"the project default lacks {key}", [project("default", {name: "true" for name in FEATURES if name != key})],
       PROJECT, "default", "B3") for key in FEATURES),
    ("a feature of the project default is false", [project("default", FEATURES | {"features.images": "false"})],
     PROJECT, "default", "B3"),
    ("the profile default is missing", [gone(PROFILE, "default/default")], PROJECT, "default", "B3"),
    ("a project with profiles of its own has no profile default", [project("lab", OWN)], PROJECT, "lab", "B3"),
]

GPU = {"type": "gpu"}
NIC = {"type": "nic", "network": "net0"}
NET = network("default/net0")
EVERY = (lambda config: project("lab", config), lambda config: profile("default/web", config), lambda config: network("default/net0", config),
         lambda config: pool("tank", config), lambda config: volume("default/tank/disk", config),
         lambda config: instance("default/box", config))
MALFORMED = ({"limits.instances": "many"}, {"limits.memory": "lots"}, {"bridge.mtu": "0"}, {"size": "big"}, {"size": "9XB"},
             {"limits.processes": "-1"})


def devices_of(named, *more):
    """The devices in a profile, and in an instance that has a root disk besides."""
    return [([*more, profile("default/web", named=named)], PROFILE, "default/web"),
            ([*more, TANK, instance("default/box", named=ROOT | named)], INSTANCE, "default/box")]


def at_device(said, rule, named, *more):
    return [(f"{said}, {KINDS[kind - 1]}", rows, kind, key, rule) for rows, kind, key in devices_of(named, *more)]


SETTINGS = [
    *((f"an unknown key, {KINDS[row[0] - 1]}", [TANK, row], row[0], row[1], "V1") for row in
      (make({"colour": "red"}) for make in EVERY)),
    ("a key of virtual machines in a container", [TANK, instance("default/box", {"raw.qemu": "-s"})], INSTANCE, "default/box", "V1"),
    ("a key of containers in a virtual machine", [TANK, machine("default/box", {"raw.lxc": "x"})], INSTANCE, "default/box", "V1"),
    *((f"a malformed value, {KINDS[row[0] - 1]}", [TANK, row], row[0], row[1], "V2") for row in
      (make(config) for make, config in zip(EVERY, MALFORMED))),
    ("a limit of 2^63", [project("lab", {"limits.cpu": str(2 ** 63)})], PROJECT, "lab", "V2"),
    ("an unknown key after a malformed value", [project("lab", {"limits.cpu": "x", "zone": "y"})], PROJECT, "lab", "V2"),
    *at_device("a device with no good name", "V3", {"a b": GPU}),
    *at_device("a device with an empty name", "V3", {"": GPU}),
    *at_device("a device without a type", "V3", {"eth0": {"network": "net0"}}),
    *at_device("a device of an unknown type", "V3", {"eth0": {"type": "radio"}}),
    *at_device("an unknown key of a device", "V3", {"eth0": NIC | {"colour": "red"}}),
    *at_device("a malformed value of a device", "V3", {"eth0": NIC | {"mtu": "0"}}),
    *at_device("a nic with a network and a type", "V3", {"eth0": NIC | {"nictype": "bridged"}}),
    *at_device("a nic with neither", "V3", {"eth0": {"type": "nic"}}),
    *at_device("a disk with no source", "V3", {"data": {"type": "disk", "path": "/data", "pool": "tank"}}),
    ("an instance has no root disk", [TANK, instance("default/box", named={})], INSTANCE, "default/box", "V4"),
    ("an instance has two root disks", [TANK, instance("default/box", named=ROOT | {"more": ROOT["root"]})],
     INSTANCE, "default/box", "V4"),
    ("an instance has one root disk and a profile another", [TANK, profile("default/web", named={"disk": ROOT["root"]}),
     instance("default/box", profiles=("web",))], INSTANCE, "default/box", "V4"),
    ("a profile of an instance is missing", [TANK, instance("default/box", profiles=("default", "web"))],
     INSTANCE, "default/box", "V5"),
    *at_device("a missing network", "V5", {"eth0": NIC}),
    *at_device("a missing pool", "V5", {"data": {"type": "disk", "path": "/data", "pool": "lake", "source": "disk"}}, TANK),
    *at_device("a missing volume", "V5", {"data": {"type": "disk", "path": "/data", "pool": "tank", "source": "disk"}}, TANK),
    ("the pool of a root disk is missing", [instance("default/box")], INSTANCE, "default/box", "V5"),
    ("a missing network of a profile's device, in a project with networks of its own",
     [*LAB, NET, profile("lab/web", named={"eth0": NIC})], PROFILE, "lab/web", "V5"),
]

FORBIDDEN = [
    ("F1", {"security.nesting": "true"}, {}, restricted()),
    ("F2", {"security.privileged": "true"}, {}, restricted()),
    ("F2", {"security.privileged": "true"}, {}, restricted(containers__privilege="isolated")),
    *(("F3", {key: "1"}, {}, restricted()) for key in ("linux.kernel_modules", "raw.apparmor", "raw.idmap", "raw.lxc", "raw.seccomp")),
    *(("F5", {f"security.syscalls.intercept.{call}": "true"}, {}, restricted()) for call in ("mknod", "mount", "setxattr")),
    ("F5", {"security.syscalls.intercept.mount": "true"}, {}, restricted(containers__interception="allow")),
    ("F6", {}, {"card": GPU}, restricted()),
    ("F6", {}, {"port": {"type": "proxy"}}, restricted()),
    *(("F6", {}, {"port": {"type": kind}}, restricted()) for kind in ("unix-block", "unix-char", "usb")),
    ("F6", {}, {"data": {"type": "disk", "path": "/data", "source": "/srv"}}, restricted()),
    ("F6", {}, {"data": {"type": "disk", "path": "/data", "source": "disk", "pool": "tank"}},
     [*restricted(devices__disk="block"), volume("lab/tank/disk")]),
    ("F6", {}, {"eth0": {"type": "nic", "nictype": "bridged"}}, restricted()),
    ("F6", {}, {"eth0": NIC}, [*restricted(devices__nic="block"), network("lab/net0")]),
    ("F7", {}, {"eth0": NIC}, [*restricted(networks__access="net1,net2"), network("lab/net0")]),
]

POLICY = [
    *((f"a profile is forbidden {', '.join(config) or ', '.join(device['type'] for device in named.values())}",
       [*rows, profile("lab/web", config, named)], PROFILE, "lab/web", rule) for rule, config, named, rows in FORBIDDEN),
    *((f"an instance is forbidden {', '.join(config) or ', '.join(device['type'] for device in named.values())}",
       [*rows, instance("lab/box", config, ROOT | named)], INSTANCE, "lab/box", rule) for rule, config, named, rows in FORBIDDEN),
    ("a profile is forbidden raw.qemu", [*restricted(), profile("lab/web", {"raw.qemu": "-s"})], PROFILE, "lab/web", "F4"),
    *((f"a virtual machine is forbidden {key}", [*restricted(), machine("lab/box", {key: "1"})], INSTANCE, "lab/box", "F4")
      for key in ("raw.qemu", "raw.apparmor", "raw.idmap")),
    ("a container is not isolated", [*restricted(containers__privilege="isolated"), instance("lab/box")], INSTANCE, "lab/box", "F2"),
    ("an instance is forbidden what a profile of another project gives it",
     [project("lab", {"restricted": "true"}), TANK, profile("default/web", {"security.nesting": "true"}),
      instance("lab/box", profiles=("web",))], INSTANCE, "lab/box", "F1"),
    ("F1 at a later row comes before F3 at an earlier one",
     [*restricted(), profile("lab/web", {"raw.lxc": "x"}), instance("lab/box", {"security.nesting": "true"})],
     INSTANCE, "lab/box", "F1"),
]

FULL = {"limits.cpu": "2", "limits.memory": "2MiB", "limits.processes": "2"}
SIZED = {"root": ROOT["root"] | {"size": "2MiB"}}


def above(rule, key, value, *rows):
    return f"{key} is exceeded", [*lab(**{key.replace("-", "_").replace(".", "__"): value}), *rows], PROJECT, "lab", rule


LIMITS = [
    *((f"an instance gives no number for {key}", [*lab(**{key.replace(".", "__"): "1GiB" if key in ("limits.memory", "limits.disk") else "9"}),
       instance("lab/box")], INSTANCE, "lab/box", "L0") for key in ("limits.cpu", "limits.memory", "limits.processes", "limits.disk")),
    ("a pinned processor is no number", [*lab(limits__cpu="9"), instance("lab/box", {"limits.cpu": "0-1"})], INSTANCE, "lab/box", "L0"),
    ("a percentage is no number", [*lab(limits__memory="1GiB"), instance("lab/box", {"limits.memory": "50%"})],
     INSTANCE, "lab/box", "L0"),
    ("a volume gives no number for limits.disk", [*lab(limits__disk="1GiB"), volume("lab/tank/disk")], VOLUME, "lab/tank/disk", "L0"),
    above("L1", "limits.instances", "1", instance("lab/box"), machine("lab/cell")),
    above("L2", "limits.containers", "1", instance("lab/box"), instance("lab/cell")),
    above("L3", "limits.virtual-machines", "0", machine("lab/box")),
    above("L4", "limits.cpu", "3", instance("lab/box", FULL), instance("lab/cell", FULL)),
    above("L5", "limits.memory", "3MiB", instance("lab/box", FULL), instance("lab/cell", FULL)),
    above("L6", "limits.processes", "3", instance("lab/box", FULL), instance("lab/cell", FULL)),
    above("L7", "limits.disk", "3MiB", instance("lab/box", named=SIZED), volume("lab/tank/disk", {"size": "2MiB"})),
    above("L8", "limits.networks", "1", network("lab/net0"), network("lab/net1")),
    ("an instance has no size on a limited pool", [*lab(limits__disk__pool__tank="1GiB"), instance("lab/box")],
     INSTANCE, "lab/box", "L0"),
    ("a volume has no size on a limited pool", [*lab(limits__disk__pool__tank="1GiB"), volume("lab/tank/disk")],
     VOLUME, "lab/tank/disk", "L0"),
    above("L9", "limits.disk.pool.tank", "3MiB", instance("lab/box", named=SIZED), volume("lab/tank/disk", {"size": "2MiB"})),
    ("L4 of a later project comes before L8 of an earlier one",
     [project("den", OWN | {"limits.networks": "0"}), profile("den/default"), network("den/net0"),
      *lab(limits__cpu="1"), instance("lab/box", FULL)], PROJECT, "lab", "L4"),
]

# How many rows of a kind there may be, and the row of a number.
MOST = [
    (1024, lambda at: project(f"p{at:05}", {}), PROJECT),
    (16384, lambda at: profile(f"default/p{at:05}"), PROFILE),
    (1024, lambda at: network(f"default/n{at:05}"), NETWORK),
    (64, lambda at: pool(f"s{at:05}"), POOL),
    (65536, lambda at: volume(f"default/tank/v{at:05}"), VOLUME),
    (65536, lambda at: instance(f"default/i{at:05}"), INSTANCE),
    (65536, lambda at: snapshot(f"default/box/s{at:05}"), SNAPSHOT),
]
# What stands beside these rows, and how many rows of their kind that is.
BESIDE = {PROJECT: ([], 1), PROFILE: ([], 1), NETWORK: ([], 0), POOL: ([], 0), VOLUME: ([TANK], 0), INSTANCE: ([TANK], 0),
          SNAPSHOT: ([TANK, BOX], 0)}
LARGEST = 65536


def tables():
    """One row more than there may be. All keys but those of `default` begin with a later letter."""
    for most, make, kind in MOST:
        beside, there = BESIDE[kind]
        rows = [make(at) for at in range(most - there + 1)]
        yield f"{most + 1} rows, {KINDS[kind - 1]}", [*beside, *rows], kind, rows[-1][1], "C1", most > 20_000


def filled(make, size):
    """A row whose body has this size, by its description."""
    return make("x" * (size - len(make("")[2])))


LARGE = [lambda said: project("lab", {}, said), lambda said: profile("default/web", description=said),
         lambda said: network("default/net0", description=said), lambda said: pool("tank", description=said),
         lambda said: volume("default/tank/disk", description=said), lambda said: instance("default/box", description=said)]


def beside(row):
    return [TANK] if row[0] in (VOLUME, INSTANCE) else []


SIZES = [
    *((f"65,537 bytes, {KINDS[row[0] - 1]}", [*beside(row), row], row[0], row[1], "C2")
      for row in (filled(make, LARGEST + 1) for make in LARGE)),
    ("65,537 bytes, snapshot", [TANK, BOX, filled(lambda said: snapshot("default/box/first", {"user.x": said}), LARGEST + 1)],
     SNAPSHOT, "default/box/first", "C2"),
]

# ---- entries that are no rows

GOOD = [project("lab", OWN, "for tests"), profile("lab/web", {"limits.cpu": "2"}, {"eth0": {"type": "none"}}, "web"),
        network("lab/net0", {"bridge.mtu": "1500"}, "net"), pool("tank", {"size": "9GiB"}, "tank", 3),
        volume("lab/tank/disk", {"size": "1GiB"}, "disk", 7), instance("lab/box", {"limits.cpu": "2"}, ROOT, ("default", "web")),
        snapshot("lab/box/first", {"limits.cpu": "2"}, ROOT, ("default",), 7, 9)]
STANDING = [profile("lab/default"), *GOOD]


# Where the first length or count of a body begins, if not after the version.
FIRST_LENGTH = {POOL: 2, INSTANCE: 3, SNAPSHOT: 17}


def with_body(row, body):
    return row[0], row[1], body


def changed(row, at, byte):
    return with_body(row, row[2][:at] + bytes([byte]) + row[2][at + 1:])


def with_key(row, key):
    return row[0], key, row[2]


def damages():
    """An entry of each kind that is damaged in each of these ways."""
    for row in GOOD:
        name = KINDS[row[0] - 1]
        yield f"one byte more, {name}", with_body(row, row[2] + b"\0")
        yield f"one byte fewer, {name}", with_body(row, row[2][:-1])
        yield f"another version, {name}", changed(row, 0, 2)
        yield f"no byte, {name}", with_body(row, b"")
        yield f"a length beyond the end, {name}", changed(row, FIRST_LENGTH.get(row[0], 1), 1)
    yield "a byte that is no UTF-8 in a description", changed(GOOD[0], 5, 0xFF)
    yield "another driver", changed(GOOD[3], 1, 4)
    yield "another kind of instance", changed(GOOD[5], 1, 2)
    yield "a boolean that is neither", changed(GOOD[5], 2, 2)
    yield "a moment in the year 10000", volume("lab/tank/disk", created=253_402_300_800)
    yield "an empty key of a setting", project("lab", OWN | {"": "x"})
    yield "an empty value of a setting", project("lab", OWN | {"user.x": ""})
    yield "settings in another order", with_body(GOOD[0], b"\1" + text("") + listed([text("b") + text("1"), text("a") + text("1")]))
    yield "a setting twice", with_body(GOOD[0], b"\1" + text("") + listed([text("a") + text("1"), text("a") + text("1")]))
    yield "devices in another order", with_body(GOOD[1], b"\1" + text("") + settings({}) + listed([
        text("b") + settings(GPU), text("a") + settings(GPU)]))
    yield "no good name of a project", with_key(GOOD[0], "-lab")
    yield "a project with a slash", with_key(GOOD[0], "lab/web")
    yield "a profile without a project", with_key(GOOD[1], "web")
    yield "a network with a name of 16 bytes", with_key(GOOD[2], "lab/net0123456789abc")
    yield "a volume without a pool", with_key(GOOD[4], "lab/disk")
    yield "an instance whose name begins with a digit", with_key(GOOD[5], "lab/1box")
    yield "a snapshot without an instance", with_key(GOOD[6], "lab/first")
    yield "kind 0", (0, "lab", GOOD[0][2])
    yield "kind 8", (8, "lab", GOOD[0][2])


def damage_cases():
    for said, row in damages():
        yield said, [*STANDING, row], row[0], row[1]
    yield "the first of two damaged entries is told", [*STANDING, with_body(GOOD[1], b""), with_body(GOOD[3], b"")], PROFILE, "lab/web"
    yield "a damaged entry after a row that breaks a rule", [project("ghost", OWN), with_body(GOOD[6], b"")], SNAPSHOT, "lab/box/first"


# ---- what a run leaves

# Requests that leave a row of each kind, in the project `default` and in one with rows of its own.
RUN = [
    ("POST", "/1.0/projects", {"name": "lab", "description": "for tests", "config": {"features.networks": "true", "limits.cpu": "9"}}),
    ("POST", "/1.0/storage-pools", {"name": "tank", "driver": "zfs", "config": {"size": "9GiB"}}),
    ("POST", "/1.0/networks", {"name": "net0", "type": "bridge"}),
    ("POST", "/1.0/networks?project=lab", {"name": "net1", "type": "bridge", "config": {"bridge.mtu": "1500"}}),
    *(("PUT", f"/1.0/profiles/default?project={name}", {"devices": ROOT, "config": {"limits.cpu": "2"}}) for name in ("default", "lab")),
    ("POST", "/1.0/profiles?project=lab", {"name": "web", "description": "web", "devices": {"eth0": {"type": "nic", "network": "net1"}}}),
    ("POST", "/1.0/storage-pools/tank/volumes/custom?project=lab", {"name": "disk", "config": {"size": "1GiB"}}),
    ("POST", "/1.0/instances", {"name": "cell", "type": "virtual-machine", "source": {"type": "image", "alias": "debian"}}),
    ("POST", "/1.0/instances?project=lab", {"name": "box", "source": {"type": "none"}, "profiles": ["default", "web"]}),
    ("POST", "/1.0/instances/box/snapshots?project=lab", {"name": "first"}),
]


def leave_rows(program, file):
    """Makes a file by a run, and gives its entries, which are of all kinds."""
    bodies = [(method, target, json.dumps(body).encode()) for method, target, body in RUN]
    text = b"".join(f"{method} {target} HTTP/1.1\r\nHost: localhost\r\nContent-Length: {len(body)}\r\n\r\n".encode() + body
                    for method, target, body in bodies)
    ran = subprocess.run([program, "run", "--now", "7", "--boot", "0", "--db", str(file)], input=text, capture_output=True, check=False)
    done = ran.stdout.count(b"HTTP/1.1 200 ") + ran.stdout.count(b"HTTP/1.1 202 ")
    entries = row_entries.read(file)
    if (ran.returncode, done) != (0, len(RUN)) or {kind for kind, _, _ in entries} != set(range(1, 8)):
        sys.exit(f"a run leaves no row of each kind: status {ran.returncode}, {ran.stdout.decode()}{ran.stderr.decode()}")
    return entries


def left_damages(entries):
    """Each entry that a run left with one byte more, with one fewer, and with another first byte."""
    for row in entries:
        name = f"{KINDS[row[0] - 1]} {row[1]} of a run"
        yield f"one byte more, {name}", with_body(row, row[2] + b"\0")
        yield f"one byte fewer, {name}", with_body(row, row[2][:-1])
        yield f"another first byte, {name}", changed(row, 0, 9)


# ---- files whose rows are good

OPENED = [
    ("a new file", []),
    ("a row of each kind", STANDING),
    ("a snapshot with settings that no table takes", [TANK, BOX, snapshot("default/box/first", {"colour": "red"}, {"a b": {"x": "y"}},
     ("gone",))]),
    ("rows of 65,536 bytes", [filled(make, LARGEST) for make in LARGE]),
    ("limits that are reached", [*lab(limits__instances="2", limits__containers="2", limits__cpu="4", limits__memory="4MiB",
     limits__processes="4", limits__disk="6MiB", limits__networks="1"), network("lab/net0"), instance("lab/box", FULL, SIZED),
     instance("lab/cell", FULL, SIZED), volume("lab/tank/disk", {"size": "2MiB"})]),
    ("a restricted project with what it allows", [*restricted(containers__nesting="allow", devices__gpu="allow", networks__access="net0"),
     network("lab/net0"), instance("lab/box", {"security.nesting": "true"}, ROOT | {"card": GPU, "eth0": NIC})]),
    ("restrictions without `restricted`", [*lab(restricted__containers__nesting="block"), instance("lab/box", {"security.nesting": "true"})]),
    ("64 pools", [pool(f"s{at:05}") for at in range(64)]),
]


# ---- trying them

class Tries:
    def __init__(self, program, folder):
        self.program, self.folder, self.faults, self.tried = program, Path(folder), [], 0
        self.first, self.left = self.folder / "first.db", self.folder / "left.db"
        ran = subprocess.run([program, "run", "--db", str(self.first)], stdin=subprocess.DEVNULL, capture_output=True, timeout=60)
        if ran.returncode != 0:
            sys.exit(f"a new file is not made: status {ran.returncode}, {ran.stderr.decode()}")
        self.entries = leave_rows(program, self.left)

    def file_with(self, entries, origin):
        """A copy of a file with these entries."""
        file = self.folder / "case.db"
        for ending in ("", "-wal"):
            made, copy = Path(f"{origin}{ending}"), Path(f"{file}{ending}")
            copy.unlink(missing_ok=True)
            if made.exists():
                shutil.copy(made, copy)
        row_entries.write(file, entries)
        return file

    def judge(self, said, entries, status, line, origin=None):
        self.tried += 1
        file = self.file_with(entries, origin or self.first)
        before = row_entries.read(file)
        ran = row_entries.check(self.program, file)
        written = ran.stderr.decode()
        if ran.returncode != status or written != line or (status != 0 and ran.stdout):
            self.faults.append(f"{said}: status {ran.returncode}, said {written!r}; due: {status}, {line!r}")
        if row_entries.read(file) != before:
            self.faults.append(f"{said}: the entries have changed")


def rules(small):
    yield from ((*case, False) for group in (NAMES, SETTINGS, POLICY, LIMITS, SIZES) for case in group)
    yield from (case for case in tables() if not (small and case[-1]))


def damaged(kind, key):
    return f'incus_run: the entry of kind {kind} with the key "{key}" is damaged\n'


def try_all(tries, only, small):
    for said, entries, kind, key, rule, _ in rules(small):
        if only in f"{rule} {said}":
            tries.judge(f"{rule}, {said}", entries, 7, f'incus_run: the row of kind {kind} with the key "{key}" breaks the rule {rule}\n')
    for said, entries, kind, key in damage_cases():
        if only in said:
            tries.judge(said, entries, 7, damaged(kind, key))
    for said, row in left_damages(tries.entries):
        if only in said:
            tries.judge(said, [row], 7, damaged(row[0], row[1]), tries.left)
    for said, entries in OPENED:
        if only in said:
            tries.judge(said, entries, 0, "")
    if only in "what a run left":
        tries.judge("what a run left", [], 0, "", tries.left)


def main():
    parser = argparse.ArgumentParser()
    parser.add_argument("--program", default=TOP / "crates/incus_run/out/incus_run")
    parser.add_argument("--only", default="")
    parser.add_argument("--small", action="store_true")
    arguments = parser.parse_args()
    program = Path(arguments.program).resolve()
    if not program.exists():
        sys.exit(f"there is no program {program}: bin/incus_run --prove makes it")
    with tempfile.TemporaryDirectory() as folder:
        tries = Tries(program, folder)
        try_all(tries, arguments.only, arguments.small)
    for fault in tries.faults:
        print(fault)
    print(f"{tries.tried} openings, {len(tries.faults)} faults")
    sys.exit(1 if tries.faults else 0)


main()
