#!/usr/bin/env python3
"""Lets writes and syncs of incusd fail, and compares the rows that are kept then with what it had answered.

    tests/failing_disk.py [--program FILE] [--rounds N] [--seed N]

The program is crates/incusd/out/incusd without `--program` (`bin/incusd --prove` makes it). A small library that `cc` makes here stands
before the C library, and lets chosen calls of pwrite, fdatasync and fsync fail. In each of N rounds (200) one write, one sync, ten
writes in a row or ten syncs in a row fail, at random moments, with EIO or ENOSPC, while one change is asked after the other. Then:

1. Each answer is 2xx or 503 (K1), and the server shows every change that it acknowledged, and none that it refused.
2. Where its file could not be opened again, it ends with status 6 once it answered, and standard error tells why. Over the same file a
   new server has every acknowledged change, and one of the refused ones at most.
3. Standard error tells once when changes begin to be refused, with the cause, and once when they are made again.
4. In the end a server ends with status 0, and the file alone, copied without its log, has the same rows.

It ends with status 1 where something is otherwise.
"""
import argparse
import http.client
import json
import mmap
import os
import random
import shutil
import socket
import struct
import subprocess
import sys
import tempfile
import time
from pathlib import Path

TOP = Path(__file__).resolve().parent.parent
LOADER = ["/opt/rattle/toolchain/lib/ld-linux-x86-64.so.2", "--inhibit-cache", "--library-path", "/opt/rattle/toolchain/lib"]
EIO, ENOSPC = 5, 28
SHIM = r"""
/* Calls fail by numbers that a file shares with the test: how many pass before, how many fail then, and with which error. */
typedef long word;
struct plan { int passing, failing, error; };
struct plans { struct plan writes, syncs; };
extern int *__errno_location(void);
extern char *getenv(const char *);
static word call(word n, word a, word b, word c, word d, word e, word f)
{
    word r;
    register word r10 __asm__("r10") = d, r8 __asm__("r8") = e, r9 __asm__("r9") = f;
    __asm__ volatile("syscall" : "=a"(r) : "a"(n), "D"(a), "S"(b), "d"(c), "r"(r10), "r"(r8), "r"(r9) : "rcx", "r11", "memory");
    return r;
}
static struct plans *plans(void)
{
    static struct plans *found;
    if (!found) {
        word file = call(2, (word)getenv("FAILING_DISK"), 2, 0, 0, 0, 0);
        found = (struct plans *)call(9, 0, sizeof(struct plans), 3, 1, file, 0);
        call(3, file, 0, 0, 0, 0, 0);
    }
    return found;
}
static int fails(struct plan *plan)
{
    if (__atomic_load_n(&plan->failing, __ATOMIC_SEQ_CST) <= 0) return 0;
    if (__atomic_fetch_sub(&plan->passing, 1, __ATOMIC_SEQ_CST) > 0) return 0;
    __atomic_fetch_sub(&plan->failing, 1, __ATOMIC_SEQ_CST);
    *__errno_location() = plan->error;
    return 1;
}
static word answered(word r)
{
    if (r < 0 && r > -4096) { *__errno_location() = (int)-r; return -1; }
    return r;
}
word pwrite64(int file, const void *bytes, unsigned long length, word at)
{
    return fails(&plans()->writes) ? -1 : answered(call(18, file, (word)bytes, (word)length, at, 0, 0));
}
word pwrite(int file, const void *bytes, unsigned long length, word at) { return pwrite64(file, bytes, length, at); }
int fdatasync(int file) { return fails(&plans()->syncs) ? -1 : (int)answered(call(75, file, 0, 0, 0, 0, 0)); }
int fsync(int file) { return fails(&plans()->syncs) ? -1 : (int)answered(call(74, file, 0, 0, 0, 0, 0)); }
"""


def need(holds, what):
    if not holds:
        raise SystemExit(f"otherwise than it has to be: {what}")


class Disk:
    """What is to fail next."""

    def __init__(self, folder):
        source, self.library, self.plans = (Path(folder, name) for name in ("shim.c", "shim.so", "plans"))
        source.write_text(SHIM)
        subprocess.run(["cc", "-O1", "-shared", "-fPIC", "-nostdlib", "-o", self.library, source], check=True)
        self.plans.write_bytes(bytes(24))
        with open(self.plans, "r+b") as file:
            self.map = mmap.mmap(file.fileno(), 24)

    def plan(self, kind, passing, failing, error):
        struct.pack_into("3i", self.map, 12 if kind == "sync" else 0, passing, failing, error)

    def clear(self):
        self.map[:] = bytes(24)

    def left(self):
        """How many calls are to fail still."""
        return struct.unpack_from("i", self.map, 4)[0] + struct.unpack_from("i", self.map, 16)[0]


def free_port():
    with socket.socket() as probe:
        probe.bind(("127.0.0.1", 0))
        return probe.getsockname()[1]


class Server:
    """The program over a file, asked on one connection, after which it ends."""

    def __init__(self, program, disk, file):
        self.port, self.said = free_port(), tempfile.TemporaryFile()
        words = [str(program), "--port", str(self.port), "--connections", "1", "--idle", "3600", "--db", str(file)]
        environment = dict(os.environ, LD_PRELOAD=str(disk.library), FAILING_DISK=str(disk.plans))
        environment["ASAN_OPTIONS"] = "verify_asan_link_order=0"
        is_linked = b"/lib64/ld-linux" in Path(program).read_bytes()[:4096]
        self.process = subprocess.Popen(
            words if is_linked else LOADER + words, stdin=subprocess.DEVNULL, stderr=self.said, env=environment)
        self.link = None

    def meet(self):
        """Whether it serves; it may end before."""
        for _ in range(6000):
            if self.process.poll() is not None:
                return False
            try:
                self.link = http.client.HTTPConnection("127.0.0.1", self.port, timeout=60)
                self.link.connect()
                return True
            except ConnectionRefusedError:
                time.sleep(0.01)
        raise SystemExit("the server doesn't listen")

    def ask(self, method, target, body=None):
        """The status and the value of a reply, or None where the server has ended."""
        try:
            self.link.request(method, target, body=None if body is None else json.dumps(body))
            reply = self.link.getresponse()
            return reply.status, json.loads(reply.read())
        except (http.client.HTTPException, ConnectionError, socket.timeout):
            return None

    def end(self):
        """Its exit status, and what it said."""
        if self.link:
            self.link.close()
        status = self.process.wait(timeout=60)
        self.said.seek(0)
        said = self.said.read().decode()
        self.said.close()
        return status, said

    def rows(self):
        status, reply = self.ask("GET", "/1.0/projects?recursion=1")
        need(status == 200, reply)
        return {row["name"]: row["description"] for row in reply["metadata"] if row["name"] != "default"}


class Rows:
    """The descriptions of the projects that were acknowledged, and the changes that were refused since a server began."""

    def __init__(self, chance):
        self.chance, self.there, self.refused, self.made = chance, {}, [], 0

    def next_change(self):
        self.made += 1
        names, text = list(self.there), f"change {self.made} " + "x" * self.chance.choice((0, 30, 5000))
        deed = self.chance.random()
        if len(names) < 5 or deed < 0.4 and len(names) < 60:
            name = f"p{self.made}"
            return name, text, ("POST", "/1.0/projects", {"name": name, "description": text})
        name = self.chance.choice(names)
        if deed < 0.8:
            return name, text, ("PATCH", f"/1.0/projects/{name}", {"description": text})
        return name, None, ("DELETE", f"/1.0/projects/{name}", None)

    def after(self, changes):
        rows = dict(self.there)
        for name, text in changes:
            if text is None:
                rows.pop(name, None)
            else:
                rows[name] = text
        return rows

    def take(self, name, text):
        self.there = self.after([(name, text)])


def change(server, rows, count):
    """So many changes; the statuses that were answered, the last of them None where the server has ended."""
    answered = []
    for _ in range(count):
        name, text, asked = rows.next_change()
        reply = server.ask(*asked)
        answered.append(reply and reply[0])
        if reply is None:
            break
        if reply[0] == 503:
            need("K1" in json.dumps(reply[1]) or reply[1].get("error_code") == 503, reply)
            rows.refused.append((name, text))
        else:
            need(reply[0] in (200, 201, 202), (asked, reply))
            rows.take(name, text)
    return answered


def judge_lines(answered, said):
    """What standard error has to tell of these answers."""
    lines = said.splitlines()
    begun = sum(1 for before, now in zip([200] + answered, answered) if now == 503 and before != 503)
    refusals = [line for line in lines if ": changes are refused: " in line]
    need(len(refusals) == begun, (answered, said))
    need(all(line.split(": changes are refused: ")[1] for line in refusals), said)
    again = sum(1 for before, now in zip(answered, answered[1:]) if before == 503 and now and now != 503)
    need(sum(line.endswith(": changes are kept again") for line in lines) == again, (answered, said))


def begin(program, disk, file):
    disk.clear()
    server = Server(program, disk, file)
    need(server.meet(), "the server began")
    return server


def try_round(program, disk, file, rows, chance, counts):
    server = begin(program, disk, file)
    need(server.rows() == rows.there, "rows of a new server")
    rows.refused = []
    answered = change(server, rows, chance.randrange(3))
    kind, times = chance.choice(("write", "sync")), chance.choice((1, 1, 10))
    disk.plan(kind, chance.randrange(7), times, chance.choice((EIO, ENOSPC)))
    answered += change(server, rows, 12)
    left = disk.left()
    disk.clear()
    answered += change(server, rows, 2)
    ended = None in answered
    answered = [status for status in answered if status is not None]
    need(ended or server.rows() == rows.there, ("what it shows", answered))
    status, said = server.end()
    need(status == (6 if ended else 0), (status, said))
    counts[f"{kind} {times}", status] = counts.get((f"{kind} {times}", status), 0) + 1
    counts["refused"] = counts.get("refused", 0) + answered.count(503)
    counts["acknowledged"] = counts.get("acknowledged", 0) + sum(1 for one in answered if one and one != 503)
    counts["mended"] = counts.get("mended", 0) + said.count("which was found kept")
    judge_lines(answered, said)
    if ended:
        counts["lost"] = counts.get("lost", 0) + 1
        settle(program, disk, file, rows)
    return left


def settle(program, disk, file, rows):
    """After a server that lost its file, the acknowledged rows are there, and of what it refused one change at most."""
    server = begin(program, disk, file)
    found = server.rows()
    status, said = server.end()
    need(status == 0, said)
    allowed = [rows.there] + [rows.after([one]) for one in rows.refused]
    need(found in allowed, "rows after a server that lost its file")
    rows.there = found


def main():
    parser = argparse.ArgumentParser()
    parser.add_argument("--program", default=TOP / "crates/incusd/out/incusd")
    parser.add_argument("--rounds", type=int, default=200)
    parser.add_argument("--seed", type=int, default=7)
    arguments = parser.parse_args()
    program = Path(arguments.program).resolve()
    if not program.exists():
        sys.exit(f"there is no program {program}: bin/incusd --prove makes it")
    with tempfile.TemporaryDirectory() as folder:
        disk, file, chance, counts = Disk(folder), Path(folder, "rows.db"), random.Random(arguments.seed), {}
        rows = Rows(chance)
        for _ in range(arguments.rounds):
            try_round(program, disk, file, rows, chance, counts)
        alone = Path(folder, "alone.db")
        shutil.copy(file, alone)
        server = begin(program, disk, alone)
        need(server.rows() == rows.there, "rows of the file alone")
        need(server.end()[0] == 0, "the end over the copy")
    for what, count in sorted(counts.items(), key=str):
        print(what, count)
    print(f"{arguments.rounds} rounds: nothing that was acknowledged is lost")


main()
