#!/usr/bin/env python3
"""Compares the tables of options, restrictions and routes with what Incus' documentation lists.

    tests/tables.py [--only WORD] [--docs FOLDER] [--show]

The definitions read the same tables as the code, so no proof finds a slip in one. Beside this file stand what Incus 6.0.4 documents:
incus_options.tsv and incus_routes.tsv, which incus_docs.py read, and incus_restrictions.tsv, which a person read. Here they are compared
with the tables of the sources:

1. `options`: keys, forms, kinds of instances, words, ranges and defaults, in crates/option_tables/src/tables.rt and form.rt.
2. `restrictions`: what each forbids, and the words where none is set, in crates/restrictions/src; where Incus' daemon was tried, what it did
   counts, and else the sentence.
3. `features`: which a new project has, in crates/rows_made/src/projects.rt.
4. `routes`: paths and methods, in crates/rest_routes/src/endpoints.rt.

Each difference has to be one of incus_differences.tsv, which gives the reason, and each of those has to be there still. One whose reason
is `not decided` is told each time. With `--docs` the tables are read anew from the documentation in FOLDER, and have to be those that stand
here. `--show` prints all differences. It ends with status 1 where something is otherwise.
"""
import argparse
import fnmatch
import re
import subprocess
import sys
from pathlib import Path

TOP = Path(__file__).resolve().parent.parent
CRATES = TOP / "crates"
# How our tables are named in Incus' list, each with its constant.
TABLES = {name: name.lower() for name in ("INSTANCE", "PROJECT", "NETWORK", "POOL", "VOLUME", "DISK", "NIC", "GPU", "PROXY", "UNIX", "USB")}
# A line of each kind of table.
OPTION = r'\(\s*"([^"]+)",\s*Form::(\w+)(?:\(([^)]*)\))?(?:,\s*Scope::(\w+))?,?\s*\)'
SETTING = r'\(\s*\d,\s*Judged::\w+,\s*Restriction::(\w+),\s*Word::(\w+),\s*"([^"]+)",\s*Against::(\w+),\s*\)'
DEVICE = r'\(\s*\d,\s*Restriction::(\w+),\s*Word::(\w+),\s*"([^"]+)",\s*Which::(\w+),?\s*\)'
ROUTE = r'\(\s*"([^"]+)",\s*Endpoint::\w+(?:\(ObjectKind::\w+\))?,\s*(\w+),?\s*\)'
KINDS = {"Any": "", "Container": "container", "Machine": "virtual machine"}
RESTRICTIONS = {
    "Nesting": "restricted.containers.nesting", "Privilege": "restricted.containers.privilege",
    "ContainerLow": "restricted.containers.lowlevel", "MachineLow": "restricted.virtual-machines.lowlevel",
    "Interception": "restricted.containers.interception", "Disk": "restricted.devices.disk", "Nic": "restricted.devices.nic",
    "Gpu": "restricted.devices.gpu", "Proxy": "restricted.devices.proxy", "UnixBlock": "restricted.devices.unix-block",
    "UnixChar": "restricted.devices.unix-char", "Usb": "restricted.devices.usb",
}
WHICH = {"Any": "any", "True": "true", "NotTrue": "not true", "WithoutPool": "without pool", "NotRoot": "not the root disk",
         "WithoutNetwork": "without network"}


def source(*names):
    return re.sub(r"//[^\n]*", "", CRATES.joinpath(*names).read_text(encoding="utf-8"))


def data(name):
    """The rows of a table beside this file, each by the names of its columns."""
    lines = [line for line in (TOP / "tests" / name).read_text(encoding="utf-8").splitlines() if line and not line.startswith("#")]
    columns = lines[0].split("\t")
    for line in lines[1:]:
        cells = line.split("\t")
        if len(cells) != len(columns):
            raise SystemExit(f"tests/{name}: a row of {len(cells)} cells, and {len(columns)} are due: {line}")
        yield dict(zip(columns, cells))


def lines_of(text, name, pattern, word):
    """The lines of a constant, each as the pattern splits it; each has this word once, so that none is passed over."""
    body = re.search(rf"const {name}: [^=]*= &\[(.*?)\n?\];", text, re.S)[1]
    lines = re.findall(pattern, body)
    if len(lines) != len(re.findall(rf"\b{word}\b", body)) or not lines:
        raise SystemExit(f"{name} has a line that is not read here")
    return lines


# ---- our tables

def words_of_forms():
    """The words of each list of words."""
    text = source("option_tables", "src", "form.rt")
    body = re.search(r"fn listed_words.*?\n    }\n", text, re.S)[0]
    return {name: re.findall(r'"([^"]*)"', words) for name, words in re.findall(r"Words::(\w+) => &\[(.*?)\]", body, re.S)}


def our_options():
    """Each line of the tables: the table and the key, with its form, kind, words and range."""
    text, words = source("option_tables", "src", "tables.rt"), words_of_forms()
    numbers = {name: value.replace("_", "") for name, value in re.findall(r"const (\w+): u64 = ([\d_]+);", text)}
    for name, table in TABLES.items():
        for key, form, given, kind in lines_of(text, name, OPTION, "Form"):
            ends = [numbers.get(each.strip(), each.strip().replace("_", "")) for each in given.split(",")] if form == "Count" else []
            # (a line that ends in `#` stands for each pool, as Incus' page writes it)
            key = key.removesuffix("#") + "POOL_NAME" if key.endswith("#") else key
            yield (table, key), {
                "form": form, "for": KINDS[kind] if kind else "", "words": words[given.split("::")[1]] if form == "One" else [],
                "range": "..".join(ends),
            }
    for kind in lines_of(text, "DEVICE_TYPES", r'\("([\w-]+)", DeviceType::', "DeviceType"):
        yield ("device type", kind), {"form": "", "for": "", "words": [], "range": ""}


def our_restrictions():
    text = source("restrictions", "src", "rows.rt")
    for name, word, key, against in lines_of(text, "SETTINGS", SETTING, "Restriction"):
        yield RESTRICTIONS[name], word.lower(), "key", key, WHICH[against]
    for name, word, kind, which in lines_of(text, "DEVICES", DEVICE, "Restriction"):
        yield RESTRICTIONS[name], word.lower(), "device", kind, WHICH[which]


def our_defaults():
    """The word of each restriction where a project does not set it."""
    text = source("restrictions", "src", "policy.rt")
    return {key: word.lower() for key, word in re.findall(r'word_of\(\s*project,\s*"([^"]+)",\s*Word::(\w+),?\s*\)', text)}


def our_features():
    """The features that a new project has."""
    return set(re.findall(r'turn_on\(&mut config, "([^"]+)"\)', source("rows_made", "src", "projects.rt")))


def our_routes():
    text = source("rest_routes", "src", "endpoints.rt")
    offered = {name: {verb.upper() for verb, is_offered in re.findall(r"(\w+): (true|false)", body) if is_offered == "true"}
               for name, body in re.findall(r"const (\w+): Methods = Methods \{(.*?)\};", text, re.S)}
    for path, offers in lines_of(text, "ROUTES", ROUTE, "Endpoint"):
        yield nameless(path), offered[offers]


def nameless(path):
    return re.sub(r"\{[^}]*\}", "{}", path).replace("/volumes/custom", "/volumes/{}")


# ---- what differs: the table, the key, in what, and what is said of it

def form_differs(ours, theirs):
    """Whether a form takes other values than the type says. Forms that read a text are stricter than `string`, which is no type of values."""
    of_type = {"Boolean": {"bool"}, "Count": {"integer"}}.get(ours["form"], {"string"})
    return not set(theirs["type"].split("; ")) <= of_type


def kind_of(condition):
    return "container" if "container" in condition else "virtual machine" if "virtual machine" in condition else ""


def options():
    ours = dict(our_options())
    theirs = {(row["table"], row["key"]): row for row in data("incus_options.tsv")}
    stars = [(table, key[:-1]) for table, key in ours if key.endswith("*")]
    for place in sorted(theirs.keys() - ours.keys()):
        if not any(place[0] == table and place[1].startswith(front) for table, front in stars):
            yield (*place, "left out", "")
    for place in sorted(ours.keys() - theirs.keys()):
        yield (*place, "added", ours[place]["form"])
    for place in sorted(ours.keys() & theirs.keys()):
        our, their = ours[place], theirs[place]
        if place[0] == "device type":
            continue
        if form_differs(our, their):
            yield (*place, "form", f"{our['form']}, and Incus {their['type']}")
        elif our["form"] not in ("Boolean", "Count", "Text") and not (our["form"] == "One" and their["words"]):
            yield (*place, "reader", f"{our['form']} {' '.join(our['words'])}".strip())
        if place[0] == "instance" and our["for"] != kind_of(their["for"]):
            yield (*place, "for", f"{our['for'] or 'both'}, and Incus {their['for'] or 'both'}")
        if their["words"] and set(our["words"]) != set(their["words"].split()):
            yield (*place, "words", f"{' '.join(our['words'])}, and Incus {their['words']}")
        if our["range"] and our["range"] != their["range"]:
            yield (*place, "range", f"{our['range']}, and Incus {their['range'] or 'says none'}")


def restrictions():
    ours = set(our_restrictions())
    theirs = {tuple(row[name] for name in ("restriction", "word", "what", "name", "which")) for row in data("incus_restrictions.tsv")
              if row["measured" if row["measured"] != "-" else "documented"] == "forbidden"}
    for restriction, *rest in sorted(theirs - ours):
        yield "restriction", restriction, "allowed", " ".join(rest)
    for restriction, *rest in sorted(ours - theirs):
        yield "restriction", restriction, "forbidden", " ".join(rest)
    defaults = our_defaults()
    for row in data("incus_options.tsv"):
        if row["table"] == "project" and row["key"] in defaults and defaults[row["key"]] != row["default"]:
            yield "restriction", row["key"], "default", f"{defaults[row['key']]}, and Incus {row['default']}"
    keys = {key for table, key in dict(our_options()) if table == "project" and key.startswith("restricted.")}
    for key in sorted(keys ^ (set(defaults) | {"restricted.networks.access"})):
        yield "restriction", key, "read", "only in one of the two crates"


def features():
    ours = our_features()
    known = {key for table, key in dict(our_options()) if table == "project"}
    for row in data("incus_options.tsv"):
        if row["table"] == "project" and row["key"] in known and "at first" in row["default"]:
            is_on = row["default"].endswith("at first true")
            if is_on != (row["key"] in ours):
                yield "feature", row["key"], "default", f"at first {row['key'] in ours}, and Incus {is_on}".lower()


def routes():
    ours, theirs = {}, {}
    for path, methods in our_routes():
        ours.setdefault(path, set()).update(methods)
    for row in data("incus_routes.tsv"):
        theirs.setdefault(re.sub(r"\{[^}]*\}", "{}", row["path"]), set()).update(row["methods"].split())
    for path in sorted(theirs.keys() - ours.keys()):
        yield "route", path, "left out", ""
    for path in sorted(ours.keys() - theirs.keys()):
        yield "route", path, "added", " ".join(sorted(ours[path]))
    for path in sorted(ours.keys() & theirs.keys()):
        for word, methods in (("fewer", theirs[path] - ours[path]), ("more", ours[path] - theirs[path])):
            if methods:
                yield "route", path, word, " ".join(sorted(methods))


# ---- the reasons

class Reasons:
    """The differences that are meant, each with how often it was met."""

    def __init__(self):
        self.rows = list(data("incus_differences.tsv"))
        self.met = [0] * len(self.rows)

    def of(self, difference):
        table, key, what, said = difference
        for place, row in enumerate(self.rows):
            if row["table"] == table and row["what"] == what and fnmatch.fnmatchcase(key, row["key"]) and row["said"] in ("", said):
                self.met[place] += 1
                return row["reason"]
        return None

    def unmet(self, tables):
        return [row for row, met in zip(self.rows, self.met) if not met and row["table"] in tables]


CHECKS = {"options": (options, {*TABLES.values(), "device type"}), "restrictions": (restrictions, {"restriction"}),
          "features": (features, {"feature"}), "routes": (routes, {"route"})}


def compare(name, reasons, show):
    check, tables = CHECKS[name]
    differences = list(check())
    unexplained = []
    for difference in differences:
        reason = reasons.of(difference)
        if show:
            print("\t".join((*difference, reason or "?")))
        if reason is None:
            unexplained.append(difference)
        elif reason.startswith("not decided"):
            print(f"{name}: {reason}: {' '.join(difference[:2])}: {difference[2]} {difference[3]}".rstrip())
    for table, key, what, said in unexplained:
        print(f"{name}: unexplained: {table} {key}: {what} {said}".rstrip())
    gone = reasons.unmet(tables)
    for row in gone:
        print(f"{name}: no longer so: {row['table']} {row['key']}: {row['what']} {row['said']}".rstrip())
    print(f"{name}: {len(differences)} differences, {len(unexplained)} unexplained")
    return len(unexplained) + len(gone)


def read_anew(folder):
    """Whether the documentation says what the tables here say."""
    wrong = 0
    for kind in ("options", "routes"):
        read = subprocess.run([sys.executable, TOP / "tests/incus_docs.py", kind, folder], capture_output=True, text=True, check=True).stdout
        is_same = read == (TOP / f"tests/incus_{kind}.tsv").read_text(encoding="utf-8")
        print(f"docs: incus_{kind}.tsv is {'' if is_same else 'NOT '}what {folder} says")
        wrong += not is_same
    return wrong


def main():
    words = argparse.ArgumentParser()
    words.add_argument("--only", default="")
    words.add_argument("--docs", help="the folder of Incus' documentation")
    words.add_argument("--show", action="store_true")
    said = words.parse_args()
    reasons = Reasons()
    wrong = sum(compare(name, reasons, said.show) for name in CHECKS if said.only in name)
    if said.docs:
        wrong += read_anew(said.docs)
    return 1 if wrong else 0


if __name__ == "__main__":
    sys.exit(main())
