#!/usr/bin/env python3
"""Measures creations in a project that limits storage pools, beside one that limits its disk in all and one without limits.

    bench/pools.py [--program FILE] [--counts N,N..] [--runs N] [--instructions]

The program is crates/incus_run/out/incus_run without `--program` (`bin/incus_run --prove` makes it). A journal is written without it: a
pool, a project with rows of its own, and 250, 1,000 and 60,000 instances of 1 GiB on that pool, each with settings. `run --steps 0` opens
a copy of it, and accepts a creation, which sums what the project uses, then 900 more; at last it waits for all of them, and only then are
they done and committed. Told are the milliseconds of the processor for the first acceptance, for a further one and for a wait, the
shortest of a number of runs (3), by turns, and the most memory held. ~ marks what was too short for the clock.

`--instructions` counts the instructions of a further acceptance by callgrind (of valgrind) in place of it, so without the load of the
machine: over the same rows once with 100 creations and once with 200, of which the difference is 100.

It ends with status 1 where the ratios are above what they are to be: 1.3 for an acceptance with a limit on the pool to one with
`limits.disk`, 1.5 for it at the most instances to the fewest, 2 for 1,000 such limits to one, and 1.1 for memory to that with
`limits.disk`.
"""
import argparse
import shutil
import subprocess
import sys
import tempfile
import time
from pathlib import Path

TOP = Path(__file__).resolve().parent.parent
sys.dont_write_bytecode = True
sys.path.insert(0, str(TOP / "tests"))
import pace  # noqa: E402
import row_entries  # noqa: E402
import stream  # noqa: E402

OWN = {"features.profiles": "true", "features.storage.volumes": "true"}
MOST = "1000TiB"
NONE, DISK, POOL, POOLS = "no limit", "limits.disk", "a limit on the pool", "1,000 such limits"
LIMITS = {
    NONE: {},
    DISK: {"limits.disk": MOST},
    POOL: {"limits.disk.pool.p0": MOST},
    POOLS: {f"limits.disk.pool.p{at}": MOST for at in range(1000)},
}
ROOT = {"root": {"type": "disk", "path": "/", "pool": "p0", "size": "1GiB"}}
CREATIONS, COUNTED = 900, 100
OPTIONS = ["--steps", "0", "--now", "0", "--boot", "0"]


def rows(limits, count):
    yield row_entries.pool("p0")
    yield row_entries.project("lab", OWN | LIMITS[limits])
    yield row_entries.profile("lab/default", named=ROOT)
    for at in range(1, count + 1):
        config = {"limits.cpu": str(1 + at % 4), "limits.memory": "512MiB", "limits.processes": "500"}
        yield row_entries.instance("lab/" + stream.name("i", at), config, named={})


def creations(count, more):
    return b"".join(stream.creations("lab", count + 1, count + more))


class Sample:
    """The rows of a number of instances under some limits, and what was seen of runs over them."""

    def __init__(self, program, folder, limits, count):
        self.program, self.folder, self.limits, self.count = program, Path(folder, f"{count}-{len(LIMITS[limits])}-{limits[0]}"), limits, count
        self.rows, self.journal, self.seen = self.folder / "rows", self.folder / "journal", []
        self.folder.mkdir()
        subprocess.run([program, "run", "--journal", self.rows], input=b"", capture_output=True, check=True)
        row_entries.add_records(self.rows, list(rows(limits, count)))

    def options(self):
        """Each run is over a copy, since its waits are committed."""
        shutil.copyfile(self.rows, self.journal)
        return [*OPTIONS, "--journal", str(self.journal)]

    def pace(self):
        """The seconds, how far off they may be, and the megabytes held after each section."""
        requests = b"".join(stream.gets(1)) + creations(self.count, 1 + CREATIONS) + b"".join(stream.waits(1, 1 + CREATIONS))
        (self.folder / "requests").write_bytes(requests)
        sections = [(1, ""), (1, ""), (CREATIONS, ""), (1 + CREATIONS, "")]
        self.seen.append(list(pace.measure(self.program, self.folder, time.time() + 500, sections, self.options()))[1:5])

    def best(self, place):
        """Seconds of one request, and whether they are rough."""
        seen = min((run[place] for run in self.seen), key=pace.rank)
        return seen[0] / (1, CREATIONS, 1 + CREATIONS)[place], pace.is_rough(seen)

    def acceptance(self):
        return self.best(1)[0]

    def memory(self):
        return min(run[3][2] for run in self.seen)

    def collected(self, more):
        command = ["valgrind", "--tool=callgrind", "--callgrind-out-file=/dev/null", self.program, "run", *self.options()]
        ran = subprocess.run(command, input=creations(self.count, more), capture_output=True, check=True)
        if ran.stdout.count(b"HTTP/1.1 202 ") != more:
            sys.exit(f"{self.limits}, {self.count} instances: not all creations were accepted")
        return next(int(line.split()[-1]) for line in ran.stderr.splitlines() if b"Collected" in line)

    def instructions(self):
        return (self.collected(2 * COUNTED) - self.collected(COUNTED)) / COUNTED


def shown(of):
    seconds, is_rough = of
    return f"{'~ ' if is_rough else ''}{seconds * 1000:.3f}"


def tell(samples):
    print(f"{'':22}{'instances':>10}{'first acceptance':>18}{'acceptance':>13}{'wait':>13}{'MB':>9}")
    for sample in samples:
        first, one, wait = map(shown, map(sample.best, range(3)))
        print(f"{sample.limits:22}{sample.count:10,}{first:>18}{one:>13}{wait:>13}{sample.memory():9.1f}")


def judge(said, ratio, most):
    print(f"{said}: {ratio:.2f}, at most {most} wanted" + ("" if ratio <= most else ", NOT MET"))
    return ratio <= most


def judge_all(of, counts):
    """The ratios of acceptances, by a function of limits and a count."""
    return all([
        *(judge(f"{POOL} to {DISK}, {count:,} instances", of(POOL, count) / of(DISK, count), 1.3) for count in counts),
        *(judge(f"{POOLS} to one, {count:,} instances", of(POOLS, count) / of(POOL, count), 2) for count in counts),
        judge(f"{POOL}, {counts[-1]:,} instances to {counts[0]:,}", of(POOL, counts[-1]) / of(POOL, counts[0]), 1.5),
    ])


def main():
    words = argparse.ArgumentParser(description=__doc__, formatter_class=argparse.RawDescriptionHelpFormatter)
    words.add_argument("--program", default=TOP / "crates/incus_run/out/incus_run")
    words.add_argument("--counts", default="250,1000,60000")
    words.add_argument("--runs", type=int, default=3)
    words.add_argument("--instructions", action="store_true")
    said = words.parse_args()
    program, counts = Path(said.program).resolve(), sorted(map(int, said.counts.split(",")))
    if not program.exists():
        sys.exit(f"there is no program {program}: bin/incus_run --prove makes it")
    with tempfile.TemporaryDirectory() as folder:
        samples = {(limits, count): Sample(str(program), folder, limits, count) for count in counts for limits in LIMITS}
        if said.instructions:
            taken = {}
            for key, sample in samples.items():
                taken[key] = sample.instructions()
                print(f"{sample.limits:22}{sample.count:10,}{taken[key]:12,.0f} instructions", flush=True)
            met = judge_all(lambda *key: taken[key], counts)
        else:
            for _ in range(said.runs):
                for sample in samples.values():
                    sample.pace()
            tell(samples.values())
            met = judge_all(lambda *key: samples[key].acceptance(), counts)
            for count in counts:
                met &= judge(f"memory, {POOL} to {DISK}, {count:,} instances",
                             samples[POOL, count].memory() / samples[DISK, count].memory(), 1.1)
    sys.exit(0 if met else 1)


main()
