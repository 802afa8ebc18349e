#!/usr/bin/env python3
"""Reads the options and routes that Incus' documentation lists, and prints them as the two tables beside this file.

    tests/incus_docs.py options FOLDER > tests/incus_options.tsv
    tests/incus_docs.py routes FOLDER > tests/incus_routes.tsv

FOLDER is Incus' folder `doc/`, as Debian's package `incus-base` lays it down in /usr/share/doc/incus-base, pages packed or not. The
tables that are committed were read from incus-base 6.0.4-2+deb13u7~bpo12+1. It reads nothing of this repository, so that the tables are
a second source for those of the program, and tests/tables.py compares both.
"""
import gzip
import re
import sys
from pathlib import Path

VERSION = "Incus 6.0.4 (Debian, incus-base 6.0.4-2+deb13u7~bpo12+1)"
# The groups of options in config_options.txt, and the table of each.
GROUPS = {
    "instance": ["instance-boot", "instance-cloud-init", "instance-migration", "instance-miscellaneous", "instance-nvidia", "instance-raw",
                 "instance-resource-limits", "instance-security", "instance-snapshots", "instance-volatile", "kernel-limits"],
    "project": ["project-features", "project-limits", "project-restricted", "project-specific"],
    "disk": ["devices-disk"], "unix": ["devices-unix-char-block"], "usb": ["devices-usb"],
}
# The pages with tables of options, and below which heading they stand.
PAGES = {
    "network": [("network_bridge.md", "Configuration options")],
    "pool": [(f"storage_{driver}.md", "Storage pool configuration") for driver in ("dir", "btrfs", "lvm", "zfs", "ceph", "cephfs")],
    "volume": [(f"storage_{driver}.md", "Storage volume configuration") for driver in ("dir", "btrfs", "lvm", "zfs", "ceph", "cephfs")],
    "nic": [("devices_nic.md", "Device options")], "gpu": [("devices_gpu.md", "Device options")],
    "proxy": [("devices_proxy.md", "Device options")],
}
# What a key that the tables of nic and gpu leave to their headings is called in these.
KINDS = {"nic": "nictype", "gpu": "gputype"}
TYPES = {"boolean": "bool", "int": "integer", "blob": "string"}
METHODS = ("get", "post", "put", "patch", "delete")


class Docs:
    def __init__(self, folder):
        self.folder = Path(folder)

    def page(self, name):
        for path in (self.folder / name, self.folder / "reference" / name):
            if path.exists():
                return path.read_text(encoding="utf-8")
            packed = path.with_name(path.name + ".gz")
            if packed.exists():
                return gzip.decompress(packed.read_bytes()).decode()
        raise SystemExit(f"there is no {name} in {self.folder}")


def plain(text):
    return re.sub(r"\{\w+\}`[^`]*:([^`]*)`", r"\1", text or "").replace("`", "").replace("\t", " ").strip(" -")


def words_in(text):
    """The words that are all that a value may be, where a text says so."""
    found = re.search(r"(?:Possible values are|Valid values are:?) ((?:`[\w.-]+`(?:, and |, or | or | and |, |))+)", text)
    found = found or re.search(r"\(((?:`\w+`/)+`\w+`)\)", text) or re.search(r"limit is (`hard` or `soft`)", text)
    return re.findall(r"`([^`]+)`", found[1]) if found else []


def range_in(text):
    found = re.search(r"integer between (\d+) and (\d+)", text)
    return f"{found[1]}..{found[2]}" if found else ""


def grouped(docs, table):
    text = docs.page("config_options.txt")
    for group in GROUPS[table]:
        for key, body in re.findall(rf"```\{{config:option\}} (\S+) {re.escape(group)}\n(.*?)\n```", text, re.S):
            said = dict(re.findall(r'^:(\w+): "(.*)"$', body, re.M))
            prose = said.get("shortdesc", "") + " " + re.sub(r"^:\w+: .*$", "", body, flags=re.M)
            initial = said.get("initialvaluedesc")
            default = plain(said.get("default", said.get("defaultdesc", "")))
            yield key, {
                "type": TYPES.get(said["type"], said["type"]), "words": " ".join(words_in(prose)), "range": range_in(prose),
                "default": default + (f", at first {plain(initial)}" if initial else ""), "for": plain(said.get("condition")),
                "page": f"config_options.txt, {group}",
            }


def rows_below(text, heading):
    """The rows of the tables below this heading, each by the names of its columns."""
    level, columns = None, None
    for line in text.splitlines():
        head = re.match(r"(#+) (.*)", line)
        if head:
            level = len(head[1]) if head[2] == heading else (None if level and len(head[1]) <= level else level)
            columns = None
        cells = [cell.strip() for cell in line.strip().strip("|").split("|")]
        if level is None or len(cells) < 3:
            columns = columns if level is not None and line.strip() else None
        elif columns is None:
            columns = cells
        elif not set(line) <= set(":-| "):
            yield dict(zip(columns, cells))


def tabled(docs, table):
    for page, heading in PAGES[table]:
        text = docs.page(page)
        for row in rows_below(text, heading):
            key = row["Key"].strip("` ")
            yield key, {
                "type": TYPES.get(row["Type"], row["Type"]), "words": " ".join(words_in(row["Description"])), "range": range_in(row["Description"]),
                "default": plain(row.get("Default")), "for": "", "page": page,
            }
        if table in KINDS:
            kinds = re.findall(rf"^#+ `{KINDS[table]}`: `(\w+)`", text, re.M)
            yield KINDS[table], {"type": "string", "words": " ".join(kinds), "range": "", "default": "", "for": "", "page": page}


def kinds_of_devices(docs):
    for name, condition in re.findall(r"^\| \d+ +\| \[`([\w-]+)`\]\([\w-]+\) +\| (\S+)", docs.page("devices.md"), re.M):
        yield name, {"type": "", "words": "", "range": "", "default": "", "for": condition.strip("-"), "page": "devices.md"}


def options(docs):
    yield f"# The options that the documentation of {VERSION} lists, read by tests/incus_docs.py and changed by nobody."
    yield "# A key that several pages list has the pages joined by `;`, and where they differ, what each says."
    columns = ("type", "words", "range", "default", "for", "page")
    yield "\t".join(("table", "key", *columns))
    for table in (*GROUPS, *PAGES, "device type"):
        read = grouped if table in GROUPS else tabled
        rows = {}
        for key, said in kinds_of_devices(docs) if table == "device type" else read(docs, table):
            for column in columns:
                if said[column] not in rows.setdefault(key, {name: [] for name in columns})[column]:
                    rows[key][column].append(said[column])
        for key in sorted(rows):
            yield "\t".join((table, key, *("; ".join(filter(None, rows[key][column])) for column in columns)))


def routes(docs):
    yield f"# The routes of the REST API of {VERSION}: rest-api.yaml, read by tests/incus_docs.py and changed by nobody."
    yield "path\tmethods"
    path, found = None, {}
    text = docs.page("rest-api.yaml").split("\npaths:\n", 1)[1]
    for line in text.splitlines():
        if re.match(r"\S", line):
            break
        at = re.match(r"    (/[^:]*):$", line)
        if at:
            path = at[1].split("?")[0]
            found.setdefault(path, set())
        method = re.match(r"        (\w+):$", line)
        if method and method[1] in METHODS:
            found[path].add(method[1])
    for path in sorted(found):
        yield f"{path}\t{' '.join(method.upper() for method in METHODS if method in found[path])}"


def main():
    if len(sys.argv) != 3 or sys.argv[1] not in ("options", "routes"):
        raise SystemExit(__doc__)
    for line in {"options": options, "routes": routes}[sys.argv[1]](Docs(sys.argv[2])):
        print(line)


if __name__ == "__main__":
    main()
