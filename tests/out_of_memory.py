#!/usr/bin/env python3
"""Refuses memory in each part of a session of incus_run, and judges what is answered.

    tests/out_of_memory.py SESSION [--program FILE] [--allocation N] [--every N] [WORD..]

SESSION is a file of requests, as those of examples/, and the words are further ones of `run`: `--boot 1 --steps 0` without any, as
examples/lifecycle.http wants. Or it is `day`, the run "A day of a user" of crates/tests_sessions/stdin with its own words.

FILE is incus_run, built and proved. Each of its allocations is refused in turn, from the first one to the last one of the session, by a
library that stands before malloc; with `--every N` one in N. Without a FILE the program is run by `rt try` (unproved, checked at run time), and
its Nth allocation is refused (3,000): once for each of many beginnings of requests that come before the session, so that it falls into each part
of its first N allocations; with `--every N` for one beginning in N. What is answered must be one of these:

- the replies of the run in which all goes well;
- those of the run without one request, and in the place of its reply 500 with the rule M1: nothing was changed by it;
- those of the run in which all goes well, but for the reply to one wait, which is 500 with M1: its operation had ended by then;
- a beginning of the replies, and status 9: memory for the text of a reply was refused;
- those of the run in which an operation fails, but that it tells `no memory`: at a call on the host, or at its end as where the
  keeper fails: its rows are as they were, its share went back, and all goes on as there. Where an end commits nothing there is no
  such run, and the status of the instance must be `Error` afterwards.

It prints how many runs there were of each sort, and how often each operation failed for memory. It ends with status 1 where a run is
none of these, or where an operation never failed so, but of those that are cancelled, which takes no memory.
"""
import argparse
import collections
import itertools
import mmap
import os
import re
import struct
import subprocess
import sys
import tempfile
from pathlib import Path

sys.dont_write_bytecode = True
from session_runs import DAY, bytes_of  # noqa: E402

TOP = Path(__file__).resolve().parent.parent
ALLOCATION = 3000
# Two requests that take a different number of allocations.
LONG, SHORT = (b"GET %s HTTP/1.1\r\nHost: localhost\r\n\r\n" % path for path in (b"/", b"/x"))
# Counts the allocations of a program in a file of two numbers, and refuses the one whose number is the second.
SHIM = r"""
typedef unsigned long size;
extern void *__libc_malloc(size), *__libc_calloc(size, size), *__libc_realloc(void *, size), *__libc_memalign(size, size);
extern int open(const char *, int, ...);
extern void *mmap(void *, size, int, int, int, long);
extern char *getenv(const char *);
static long *counts;
__attribute__((constructor)) static void begin(void) {
    counts = mmap(0, 16, 3, 1, open(getenv("REFUSED_ALLOCATION"), 2), 0);
}
static int is_refused(void) { return counts && ++counts[0] == counts[1]; }
void *malloc(size bytes) { return is_refused() ? 0 : __libc_malloc(bytes); }
void *calloc(size count, size bytes) { return is_refused() ? 0 : __libc_calloc(count, bytes); }
void *realloc(void *old, size bytes) { return is_refused() ? 0 : __libc_realloc(old, bytes); }
void *aligned_alloc(size step, size bytes) { return is_refused() ? 0 : __libc_memalign(step, bytes); }
void *memalign(size step, size bytes) { return is_refused() ? 0 : __libc_memalign(step, bytes); }
int posix_memalign(void **to, size step, size bytes) { return (*to = aligned_alloc(step, bytes)) ? 0 : 12; }
"""


def requests_of(text):
    """The requests of a session, each with its body."""
    found, at = [], 0
    while end := re.compile(rb"\r?\n\r?\n").search(text, at):
        length = re.search(rb"(?i)content-length: *(\d+)", text[at:end.end()])
        stop = end.end() + (int(length[1]) if length else 0)
        found.append(text[at:stop])
        at = stop
    return found


def replies_of(text):
    """The whole replies in an output, each its status and its body."""
    found, at = [], 0
    while (end := text.find(b"\r\n\r\n", at)) >= 0:
        length = re.search(rb"Content-Length: (\d+)", text[at:end])
        stop = end + 4 + int(length[1])
        if len(text) < stop:
            break
        found.append((text[at + 9:at + 12].decode(), text[end + 4:stop].decode()))
        at = stop
    return found


def run_all(words, cases, *flags):
    """The replies to each session, which goes with further words, and the exit status: all by one build."""
    with tempfile.TemporaryDirectory() as folder:
        for name, (session, more) in cases.items():
            Path(folder, name).write_bytes(session)
            if more:
                Path(folder, f"{name}.args").write_text("".join(f"{word}\n" for word in more))
        ran = subprocess.run(
            ["rt", "try", "--seconds", "600", *flags, "--cases", folder, "--", "run", "--now", "0", *words],
            cwd=TOP / "crates/incus_run", capture_output=True, check=False,
        )
    parts = re.split(rb"(?m)^== (\S+)\n", ran.stdout)
    replies = {parts[at].decode(): replies_of(parts[at + 1]) for at in range(1, len(parts) - 1, 2)}
    ends = dict(re.findall(r"(?m)^case=(\S+) run=ended status=(\d+)", ran.stderr.decode(errors="replace")))
    if missing := [name for name in cases if name not in ends]:
        sys.exit(f"{len(missing)} of {len(cases)} runs did not end:\n{ran.stderr[-2000:].decode(errors='replace')}")
    return {name: (replies.get(name, []), int(ends[name])) for name in cases}


def run_program(program, words, cases, environment=None):
    """The same by a program that is built."""
    came = {}
    for name, (session, more) in cases.items():
        ran = subprocess.run([program, "run", "--now", "0", *words, *more], input=session, capture_output=True, check=False, env=environment)
        came[name] = (replies_of(ran.stdout), ran.returncode)
    return came


def refused_one_by_one(program, words, text, every):
    """The replies to a session and the exit status, for each number of an allocation that is refused."""
    with tempfile.TemporaryDirectory() as folder:
        source, library, counts = (Path(folder, name) for name in ("shim.c", "shim.so", "counts"))
        source.write_text(SHIM)
        subprocess.run(["cc", "-O1", "-shared", "-fPIC", "-o", library, source], check=True)
        counts.write_bytes(bytes(16))
        environment = dict(os.environ, LD_PRELOAD=str(library), REFUSED_ALLOCATION=str(counts))
        with open(counts, "r+b") as file, mmap.mmap(file.fileno(), 16) as seen:
            for number in itertools.count(1, every):
                struct.pack_into("2q", seen, 0, 0, number)
                came = run_program(program, words, {"": (text, [])}, environment)[""]
                if struct.unpack_from("q", seen)[0] < number:
                    return
                yield f"allocation {number}", *came


def refused_after_others(words, text, allocation, every):
    """The same for each beginning of requests after which an allocation of this number falls into the session."""
    beginnings = [(long, short) for long in range(0, allocation // 20, every) for short in (0, 3)]
    cases = {f"{long}-{short}": (LONG * long + SHORT * short + text, []) for long, short in beginnings}
    for name, (replies, status) in run_all(words, cases, "--fail-alloc", str(allocation)).items():
        before = sum(map(int, name.split("-")))
        if len(replies) < before or any(is_refused_memory(reply) for reply in replies[:before]):
            continue  # the allocation fell into what comes before the session
        yield f"{name} requests before it", replies[before:], status


def is_refused_memory(reply):
    return reply[0] == "500" and '"rule":"M1"' in reply[1]


def without_memory(reply):
    """A reply that tells a failed keeper or host, as it is where memory was refused."""
    failed = r'"err":"(?:keeper|host call) failed",("id":"[^"]*","may_cancel":false,)"metadata":\{[^}]*\}'
    return reply[0], re.sub(failed, r'"err":"no memory",\1"metadata":null', reply[1])


def failed_for_memory(replies):
    """The number of the operation that a reply tells to have failed so, or that a list of operations has as the only failed one."""
    for _, body in replies:
        found = re.search(r'"err":"no memory","id":"([^"]*)"', body) or re.search(r'"failure":\["/1\.0/operations/([^"]*)"\]', body)
        if found:
            return int(found[1][-12:], 16)
    return None


def tells_error(reply):
    """Whether a reply shows an instance whose status is `Error`, or refuses a request for it."""
    return '"status":"Error"' in reply[1] or '"key":"Error"' in reply[1] and '"rule":"B2"' in reply[1]


class Session:
    def __init__(self, text, words, program):
        self.requests = requests = requests_of(text)
        cases = {"well": (text, [])}
        for at in range(len(requests)):
            cases[f"without-{at}"] = (b"".join(requests[:at] + requests[at + 1:]), [])
            cases[f"keeper-{at}"] = (text, ["--fail-keeper", str(at + 3)])
            cases[f"host-{at}"] = (text, ["--fail-host", str(at + 1)])
        self.runs = run_program(program, words, cases) if program else run_all(words, cases)
        self.well = self.runs["well"][0]
        self.at_a_call, self.at_an_end = (
            [[without_memory(reply) for reply in self.runs[f"{who}-{at}"][0]] for at in range(len(requests))]
            for who in ("host", "keeper"))
        started = (re.search(r'"operation":"/1\.0/operations/[^"]*-([0-9a-f]{12})"', body) for status, body in self.well
                   if status == "202")
        self.operations = [int(found[1], 16) for found in started if found]
        self.cancelled = [number for number in self.operations if any(
            f'-{number:012x}' in body and '"err":"operation was cancelled"' in body for _, body in self.well)]

    def sort(self, replies, status):
        """What a run is, and the operation at whose end memory was refused."""
        if replies == self.well:
            return "all went well", None
        if status == 9 and replies == self.well[:len(replies)]:
            return "a reply without memory", None
        refused = [at for at, reply in enumerate(replies) if is_refused_memory(reply)]
        if len(refused) == 1:
            at = refused[0]
            others = replies[:at] + replies[at + 1:]
            if others == self.runs[f"without-{at}"][0]:
                return "a request without memory", None
            if b"/wait " in self.requests[at] and others == self.well[:at] + self.well[at + 1:]:
                return "a wait without memory, after its operation", None
        operation = failed_for_memory(replies)
        if operation and replies in self.at_a_call:
            return "an operation without memory, at a call or at an end that leaves as much", operation
        if operation and (replies in self.at_an_end or any(map(tells_error, replies))):
            return "an operation without memory, at its end", operation
        return "WRONG", None


def main():
    parser = argparse.ArgumentParser(description=__doc__, formatter_class=argparse.RawDescriptionHelpFormatter, allow_abbrev=False)
    parser.add_argument("session")
    parser.add_argument("--program")
    parser.add_argument("--allocation", type=int, default=ALLOCATION)
    parser.add_argument("--every", type=int, default=1)
    said, words = parser.parse_known_args()
    of_day, day = bytes_of(DAY)
    text = day if said.session == "day" else Path(said.session).read_bytes()
    words = words or (of_day[2:] if said.session == "day" else ["--boot", "1", "--steps", "0"])
    session = Session(text, words, said.program)
    if said.program:
        came = refused_one_by_one(said.program, words, text, said.every)
    else:
        came = refused_after_others(words, text, said.allocation, said.every)
    sorts, ends, wrong = collections.Counter(), collections.Counter(), []
    for name, replies, status in came:
        what, operation = session.sort(replies, status)
        sorts[what] += 1
        ends[operation] += operation is not None
        if what == "WRONG":
            wrong.append((name, status, replies))
    for what, count in sorts.most_common():
        print(f"{count:6} {what}")
    for operation in session.operations:
        print(f"operation {operation}: failed for memory in {ends[operation]} runs")
    for name, status, replies in wrong[:3]:
        print(f"wrong at {name}, status {status}:", *replies, sep="\n")
    missed = [number for number in session.operations if not ends[number] and number not in session.cancelled]
    return 1 if wrong or missed or not session.operations else 0


if __name__ == "__main__":
    sys.exit(main())
