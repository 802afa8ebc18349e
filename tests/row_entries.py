"""Rows as the entries in which incus_run keeps them: a kind, a key and a body each, spelt here and not by the program."""
import sqlite3
import subprocess

KINDS = ("project", "profile", "network", "pool", "volume", "instance", "snapshot")
PROJECT, PROFILE, NETWORK, POOL, VOLUME, INSTANCE, SNAPSHOT = range(1, 8)
FEATURES = dict.fromkeys(("features.images", "features.networks", "features.profiles", "features.storage.buckets",
                          "features.storage.volumes"), "true")
ROOT = {"root": {"type": "disk", "path": "/", "pool": "tank"}}


def number(value, width=8):
    return value.to_bytes(width, "big")


def text(value):
    spelt = value if isinstance(value, bytes) else value.encode()
    return number(len(spelt), 4) + spelt


def listed(items):
    return number(len(items), 4) + b"".join(items)


def in_order(named):
    return sorted(named.items(), key=lambda item: item[0].encode())


def settings(config):
    return listed([text(key) + text(value) for key, value in in_order(config)])


def devices(named):
    return listed([text(name) + settings(device) for name, device in in_order(named)])


def shape(profiles, config, named):
    return listed([text(name) for name in profiles]) + settings(config) + devices(named)


def project(name, config, description=""):
    return PROJECT, name, b"\1" + text(description) + settings(config)


def profile(key, config={}, named={}, description=""):
    return PROFILE, key, b"\1" + text(description) + settings(config) + devices(named)


def network(key, config={}, description=""):
    return NETWORK, key, b"\1" + text(description) + settings(config)


def pool(name, config={}, description="", driver=0):
    return POOL, name, b"\1" + bytes([driver]) + text(description) + settings(config)


def volume(key, config={}, description="", created=0):
    return VOLUME, key, b"\1" + text(description) + settings(config) + number(created)


def instance(key, config={}, named=ROOT, profiles=("default",), kind=0, ephemeral=0, description="", origin="", created=0):
    head = b"\1" + bytes([kind, ephemeral]) + text(description) + text(origin) + number(created)
    return INSTANCE, key, head + shape(profiles, config, named)


def machine(key, config={}, named=ROOT, profiles=("default",)):
    return instance(key, config, named, profiles, kind=1)


def snapshot(key, config={}, named={}, profiles=(), created=0, expires=0):
    return SNAPSHOT, key, b"\1" + number(created) + number(expires) + shape(profiles, config, named)


def check(program, file):
    """Opens a file."""
    return subprocess.run([program, "check", "--db", str(file)], capture_output=True, check=False, timeout=600)


def write(file, entries):
    """Puts entries into a file in place of those of the same kind and key; one without a body is taken out."""
    database = sqlite3.connect(file)
    with database:
        for kind, key, body in entries:
            if body is None:
                database.execute("DELETE FROM records WHERE kind = ? AND key = ?", (kind, key))
            else:
                database.execute("INSERT OR REPLACE INTO records VALUES (?, ?, ?)", (kind, key, body))
    database.close()


def add_records(file, entries):
    """Puts rows behind those of a journal, 1,024 of them in a record."""
    changes = [b"\1" + bytes([kind]) + text(key) + text(body) for kind, key, body in entries]
    records = (listed(changes[at:at + 1024]) for at in range(0, len(changes), 1024))
    behind = b"".join(b"\1" + number(len(record)) + record for record in records)
    file.write_bytes(file.read_bytes()[:-1] + behind + b"\0")


def read(file):
    database = sqlite3.connect(file)
    found = database.execute("SELECT kind, key, body FROM records ORDER BY kind, key").fetchall()
    database.close()
    return found
