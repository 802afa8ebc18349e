#!/usr/bin/env python3
"""Runs a program on a file of requests, and tells for each section of it how many requests a second were answered.

Usage: pace.py PROGRAM FOLDER RUNS UNTIL [OPTION..]

`PROGRAM run OPTION..` reads FOLDER/requests and writes FOLDER/replies, both files, RUNS times, or fewer where a further run would
not end before the moment UNTIL (of `date +%s`). While it runs, some thousand times a second, the size of FOLDER/replies is
looked at beside the processor time that the program has used and the memory that it holds. Afterwards the replies are
split, so for each of them it is known when it was there. Seconds are seconds of the program's processor time: it has one
thread and waits for nothing, and what other programs on the machine use does not count.

Each line of FOLDER/sections tells, with a tab between, how many requests a section has and what is printed of it; nothing
is printed where that is empty. Of several runs the fastest counts, for each section by itself. A line with ~ may be off by
more than a twentieth in each run: the looks at the program were too far apart, as on a machine that is busy.

A reply other than a 200 or a 202, too few of them, another exit status than 0, and a run that has not ended at UNTIL are errors.
"""
import bisect
import os
import subprocess
import sys
import time

PAGE = os.sysconf("SC_PAGE_SIZE") / 1e6
OK = (b"HTTP/1.1 200 OK\r\n", b"HTTP/1.1 202 Accepted\r\n")


class Watched:
    """What was seen of one run: looks (size of the replies, moment, memory held), and clocks (moment, processor time).
    The system brings the processor time of another process up to date some hundred times a second: a clock is kept where
    it has changed."""

    def __init__(self, program, folder, until, options):
        begun = time.monotonic()
        self.looks, self.clocks, self.held, self.most = [(0, begun, 0.0)], [(begun, 0.0)], 0.0, 0.0
        with open(f"{folder}/requests", "rb") as requests, open(f"{folder}/replies", "wb") as replies:
            child = subprocess.Popen([program, "run", *options], stdin=requests, stdout=replies)
            with open(f"/proc/{child.pid}/statm", "rb", buffering=0) as memory:
                while True:
                    pid, status, usage = os.wait4(child.pid, os.WNOHANG)
                    if pid:
                        break
                    self.look(child.pid, memory, replies)
                    if time.time() > until:
                        child.kill()
                    time.sleep(0.00005)
            ended = time.monotonic()
            self.looks.append((os.fstat(replies.fileno()).st_size, ended, self.held))
        self.seconds, self.passed = usage.ru_utime + usage.ru_stime, ended - begun
        self.clocks.append((ended, self.seconds))
        child.returncode = os.waitstatus_to_exitcode(status)
        if child.returncode:
            sys.exit(f"{program} ended with {child.returncode}" + (": out of time" if time.time() > until else ""))

    def look(self, pid, memory, replies):
        self.held = int(os.pread(memory.fileno(), 99, 0).split()[1]) * PAGE or self.held  # an ended one has none
        self.most = max(self.most, self.held)
        used = time.clock_gettime(~pid << 3 | 2)  # of the whole process, see clock_getcpuclockid(3)
        before = time.monotonic()
        size = os.fstat(replies.fileno()).st_size
        now = time.monotonic()
        if now - before > 0.0001:
            return  # the program may have gone on between the two
        if self.clocks[-1][1] != used:
            self.clocks.append((now, used))
        if len(self.looks) > 1 and self.looks[-2][0] == self.looks[-1][0] == size:
            self.looks.pop()
        self.looks.append((size, now, self.held))

    def moments(self, ends):
        """When each reply was there, in processor time; how far off that may be; and the memory held then."""
        sizes = [size for size, _, _ in self.looks]
        walls = [wall for wall, _ in self.clocks]
        for end in ends:
            place = bisect.bisect_left(sizes, end)
            (size, first, _), (next_size, last, held) = self.looks[place - 1:place + 1]
            wall = first + (last - first) * (end - size) / (next_size - size)
            place = bisect.bisect_left(walls, wall)
            (first_wall, used), (last_wall, next_used) = self.clocks[place - 1:place + 1]
            ran, passed = next_used - used, last_wall - first_wall
            yield used + ran * (wall - first_wall) / passed, last - first + max(passed - ran, 0.0), held


def ends_of(text):
    """Where each reply ends."""
    at = 0
    while at < len(text):
        head = text.index(b"\r\n\r\n", at)
        fields = text[at:head].split(b"\r\n")
        if not text.startswith(OK, at):
            sys.exit(f"a reply is neither a 200 nor a 202: {text[at:at + 300]!r}")
        length = next(field for field in fields if field.lower().startswith(b"content-length:"))
        at = head + 4 + int(length.split(b":")[1])
        yield at


def measure(program, folder, until, sections, options):
    """For each section its seconds, how far off they may be, and the memory held at its end. The whole run is told last:
    its seconds and its most memory, and the seconds that passed."""
    watched = Watched(program, folder, until, options)
    with open(f"{folder}/replies", "rb") as replies:
        text = replies.read()
    ends = list(ends_of(text))
    wanted = sum(count for count, _ in sections)
    if len(ends) != wanted:
        sys.exit(f"{wanted} requests, {len(ends)} replies")
    times, place, start, off_before = list(watched.moments(ends)), 0, 0.0, 0.0
    for count, _ in sections:
        place += count
        end, off, held = times[place - 1]
        yield end - start, off_before + off, held
        start, off_before = end, off
    yield watched.seconds, 0.0, watched.most
    yield watched.passed, 0.0, watched.most


def is_rough(result):
    """Whether seconds may be off by more than a twentieth."""
    seconds, off, _ = result
    return 20 * off > seconds


def rank(result):
    """The fastest goes first, and after all others those that may be far off, the most exact of them first."""
    seconds, off, _ = result
    return (True, off / max(seconds, 1e-9)) if is_rough(result) else (False, seconds)


def main(program, folder, runs, until, *options):
    with open(f"{folder}/sections") as lines:
        sections = [line.rstrip("\n").split("\t", 1) for line in lines]
    sections = [(int(count), shown) for count, shown in sections]
    results, longest = [], 0.0
    while len(results) < int(runs) and (not results or time.time() + 1.2 * longest < float(until)):
        begun = time.time()
        results.append(list(measure(program, folder, float(until), sections, options)))
        longest = max(longest, time.time() - begun)
    best = [min(each, key=rank) for each in zip(*results)]
    for (count, shown), result in zip(sections, best):
        if shown:
            seconds, held = max(result[0], 1e-9), result[2]
            pace = f"{count / seconds:9,.1f} a second {seconds / count * 1e3:10.3f} ms each"
            print(f"{'~ ' if is_rough(result) else '  '}{shown} {count:6} requests {pace} {held:7.1f} MB held")
    (seconds, _, most), (passed, _, _) = best[-2:]
    total = sum(count for count, _ in sections)
    print(f"  in all {total} requests: {seconds:.2f} s ({passed:.2f} s passed), at most {most:.1f} MB")


if __name__ == "__main__":
    if len(sys.argv) < 5:
        sys.exit(__doc__)
    main(*sys.argv[1:])
