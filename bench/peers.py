#!/usr/bin/env python3
"""Runs Incus 6.0.4 and our server beside each other: holes, and speed.

    bench/peers.py [holes | speed] [--program FILE] [--only WORD] [--save]

1. `holes`: 23 things that were done to Incus 6.0.4 and that went past a limit or a rule. Each is done to both servers; a line of the table says
   what was done, what Incus answers, and what we answer.
2. `speed`: creations, lists, reads by many connections, events, the start and the memory, as milliseconds of the wall clock and of the processors.

Without a word both are run. Incus runs where its program is installed, as root, with its state in a folder of /tmp (`apt-get install
--no-install-recommends -t bookworm-backports incus-base incus-client`); elsewhere a line says so, and ours runs alone. Ours is
crates/incusd/out/incusd, or the program that `--program` names; where there is none, bin/incusd runs the sources unproved, of which only the
holes are asked. Rows of both lie in files.

`--only WORD` runs those alone whose name has the word. `--save` writes what was seen to bench/peers.json, which docs/PEERS.md and
bench/pictures.py show, and the tables into docs/PEERS.md and README.md.

It ends with status 1 where a hole of ours is open, but for those of which the table says that we do not offer what they are about.
"""
import argparse
import json
import os
import sys
import time

sys.dont_write_bytecode = True
from peer_holes import HOLES  # noqa: E402
from peer_servers import TOP, Incus, Ours, Wrong, furnish, say  # noqa: E402
from peer_speed import measure  # noqa: E402

FIGURES = TOP / "bench/peers.json"
PAGE = TOP / "docs/PEERS.md"
README = TOP / "README.md"
# What README.md shows of the speeds.
CHOSEN = ("creation of instance 250, five limits", "PUT of a profile that 250 instances use, five limits", "list of 1,000 projects, recursion",
          "GET /1.0 on 8 connections", "memory with 1,000 instances")


def servers(program):
    """What can be run here: Incus where it is installed, and ours."""
    found = {}
    why, incus = Incus.why_not()
    if why:
        print(f"Incus is skipped: {why}")
    else:
        found["Incus"] = lambda: Incus(incus)
    proved = program or str(TOP / "crates/incusd/out/incusd")
    is_there = os.access(proved, os.X_OK)
    found["ours"] = lambda: Ours([proved] if is_there else [str(TOP / "bin/incusd")])
    return found, is_there


def ask_holes(make, only):
    """What came of each hole: whether it is open, and what was seen. A hole that could not be tried counts as open."""
    seen = {}
    with make() as server:
        furnish(server)
        if server.name == "Incus":
            say(f"Incus {server.version()}")
        for hole in HOLES:
            if only not in hole.__name__:
                continue
            try:
                is_open, text = hole(server)
            except Wrong as error:
                is_open, text = True, f"not tried: {error}"
            seen[hole.__name__] = {"open": is_open, "seen": text}
            say(f"{server.name}: {hole.__name__}: {state_of(is_open)}: {text}")
    return seen


def state_of(is_open):
    return {True: "open", False: "closed", None: "not offered"}[is_open]


def holes_table(seen):
    """The table of holes, of what was seen of each server by its name."""
    lines = ["| | what was done | Incus 6.0.4 | here |", "|---|---|---|---|"]
    for number, hole in enumerate(HOLES, 1):
        cells = [cell_of(seen.get(name, {}).get(hole.__name__)) for name in ("Incus", "ours")]
        lines.append(f"| {number} | {hole.__doc__} | {cells[0]} | {cells[1]} |")
    return lines


def cell_of(found):
    return "not run" if found is None else f"**{state_of(found['open'])}**: {found['seen']}".replace("|", "\\|")


def speed_table(seen):
    """The table of speeds: of each server what was measured, and how many times as much processor time Incus takes."""
    names = dict.fromkeys(name for figures in seen.values() for name in figures)
    names = sorted(names, key=lambda name: not name.startswith("creation"))
    lines = ["| what | Incus 6.0.4 | here | ratio |", "|---|---|---|---|"]
    for name in names:
        pair = [seen.get(server, {}).get(name) for server in ("Incus", "ours")]
        lines.append(f"| {name} | {figure_of(pair[0])} | {figure_of(pair[1])} | {ratio_of(*pair)} |")
    return lines


def figure_of(figure):
    if figure is None:
        return "not run"
    parts = []
    if "rate" in figure:
        parts.append(f"{figure['rate']:,.0f} a second")
    if "seconds" in figure:
        parts.append(f"{figure['seconds']:.2f} s")
    if "wall" in figure:
        parts.append(f"{number_of(figure['wall'])} ms")
    if "processor" in figure:
        parts.append(f"{number_of(figure['processor'])} ms of a processor")
    if "MB" in figure:
        parts.append(f"{figure['MB']:,.0f} MB")
    if not figure.get("status", "200").startswith("2"):
        parts.append(f"answered {figure['status']}")
    return ", ".join(parts)


def number_of(figure):
    return f"{figure:,.0f}" if figure >= 100 else f"{figure:.1f}" if figure >= 1 else f"{figure:.2f}"


def ratio_of(incus, ours):
    """How many times as much Incus takes: of processor time where there is any, else of memory."""
    for key in ("processor", "MB"):
        if incus and ours and incus.get(key) and ours.get(key):
            return f"{incus[key] / ours[key]:,.0f}"
    return ""


def put_between(page, name, lines):
    """The page with these lines between the two marks of the name."""
    begin, end = f"<!-- {name}: bench/peers.py writes this -->", f"<!-- end of {name} -->"
    before, rest = page.split(begin)
    return f"{before}{begin}\n" + "\n".join(lines) + f"\n{end}" + rest.split(end)[1]


def save(what, tables):
    kept = json.loads(FIGURES.read_text()) if FIGURES.exists() else {}
    for name, seen in what.items():
        for server, found in seen.items():
            kept.setdefault(name, {}).setdefault(server, {}).update(found)
    kept["when"], kept["processors"] = time.strftime("%Y-%m-%d"), os.cpu_count()
    FIGURES.write_text(json.dumps(kept, indent=1) + "\n")
    page = PAGE.read_text()
    for name, table in tables.items():
        page = put_between(page, name, table(kept[name]))
    PAGE.write_text(page)
    chosen = {server: {name: figures[name] for name in CHOSEN if name in figures} for server, figures in kept.get("speed", {}).items()}
    README.write_text(put_between(README.read_text(), "figures", speed_table(chosen)))


def main():
    words = argparse.ArgumentParser(description=__doc__, formatter_class=argparse.RawDescriptionHelpFormatter)
    words.add_argument("what", nargs="?", choices=("holes", "speed"))
    words.add_argument("--program")
    words.add_argument("--only", default="")
    words.add_argument("--save", action="store_true")
    said = words.parse_args()
    found, is_proved = servers(said.program)
    seen, tables = {}, {}
    if said.what != "speed":
        seen["holes"], tables["holes"] = {name: ask_holes(make, said.only) for name, make in found.items()}, holes_table
        print("\n".join(holes_table(seen["holes"])))
    if said.what != "holes":
        seen["speed"], tables["speed"] = {}, speed_table
        for name, make in found.items():
            if name == "ours" and not is_proved:
                print("ours is not measured: no program was built (bin/incusd --prove)")
                continue
            with make() as server:
                furnish(server)
                seen["speed"][name] = measure(server)
        print("\n".join(speed_table(seen["speed"])))
    if said.save:
        save(seen, tables)
    ours = seen.get("holes", {}).get("ours", {})
    still_open = [name for name, it in ours.items() if it["open"]]
    if still_open:
        print(f"open here: {', '.join(still_open)}")
    return 1 if still_open else 0


if __name__ == "__main__":
    try:
        sys.exit(main())
    except Wrong as error:
        sys.exit(f"peers.py: {error}")
