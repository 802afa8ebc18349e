#!/usr/bin/env python3
"""Hands incus_run files that are not its own, and looks at them with the stock SQLite.

    tests/kept_files.py [PROGRAM]

PROGRAM is crates/incus_run/out/incus_run without it (`bin/incus_run --prove` makes it). Each file that is refused has to end the program
with status 6, nothing on standard output and one sentence on standard error, and has to stay as it was, byte for byte. Of a file that
the program made, SQLite has to find the two tables, sound, and the program has to open it again where SQLite has written to it. `check`
makes no file. A file with the table `records` alone opens, and gets its version with the first change. After a clean end a copy of the
file without its log has all rows.
It ends with status 1 where something is otherwise.
"""
import os
import shutil
import sqlite3
import subprocess
import sys
import tempfile
from pathlib import Path

TOP = Path(__file__).resolve().parent.parent
FORMAT = "CREATE TABLE format (version INTEGER NOT NULL)"
RECORDS = (
    "CREATE TABLE records (kind INTEGER NOT NULL, key TEXT NOT NULL, body BLOB NOT NULL, PRIMARY KEY (kind, key))")
OURS = [FORMAT, RECORDS, "INSERT INTO format VALUES (1)"]
CANNOT_OPEN = "the file cannot be opened for reading and writing, or made"
NO_DATABASE = "the file is not a whole SQLite database"
OTHER = "the file is a database of another program"
NO_ENTRY = "a row of the table records is not one that this program writes"
AUTO_VACUUM = (
    "the file has auto_vacuum, which this program doesn't read: PRAGMA auto_vacuum = 0; VACUUM by sqlite3 takes it off")
MISSING = "there is no such file, or it is empty"
NEWER = "the file was made by a newer version of this program (format 2, this one reads 1)"
PROJECT = b'POST /1.0/projects HTTP/1.1\r\nHost: localhost\r\nContent-Length: 14\r\n\r\n{"name":"lab"}'
faults = []


def database(*statements, mode="delete"):
    def make(file):
        made = sqlite3.connect(file, isolation_level=None)
        made.execute(f"PRAGMA journal_mode = {mode}")
        for statement in statements:
            made.execute(statement)
        made.close()
    return make


def content(text):
    return lambda file: file.write_bytes(text)


def read_only(file):
    database(*OURS)(file)
    file.chmod(0o444)


def auto_vacuum(file):
    """The tables of the program in a database whose pages SQLite moves."""
    made = sqlite3.connect(file, isolation_level=None)
    made.execute("PRAGMA auto_vacuum = 1")
    made.close()
    database(*OURS)(file)


REFUSED = [
    ("a text", content(b"bread, milk\n"), NO_DATABASE),
    ("one byte", content(b"x"), NO_DATABASE),
    ("zip", content(b"PK\3\4" + bytes(1000)), NO_DATABASE),
    ("the beginning of a database", content(b"SQLite format 3\0" + bytes(100)), NO_DATABASE),
    ("a database of another program", database("CREATE TABLE notes (title TEXT)", "INSERT INTO notes VALUES ('milk')"), OTHER),
    ("one with a log", database("CREATE TABLE notes (title TEXT)", "INSERT INTO notes VALUES ('milk')", mode="wal"), OTHER),
    ("one with views and triggers", database(
        "CREATE TABLE notes (title TEXT)", "CREATE VIEW titles AS SELECT title FROM notes",
        "CREATE TRIGGER noted AFTER INSERT ON notes BEGIN DELETE FROM notes; END"), OTHER),
    ("records and another table", database(RECORDS, "CREATE TABLE notes (title TEXT)"), OTHER),
    ("auto_vacuum", auto_vacuum, AUTO_VACUUM),
    ("records of another shape", database(FORMAT, "CREATE TABLE records (kind, key)", "INSERT INTO format VALUES (1)"), OTHER),
    ("a table more", database(*OURS, "CREATE TABLE notes (title TEXT)"), OTHER),
    ("no version", database(FORMAT, RECORDS), OTHER),
    ("the next version", database(FORMAT, RECORDS, "INSERT INTO format VALUES (2)"), NEWER),
    ("the next version with other tables", database(
        FORMAT, "CREATE TABLE entries (id INTEGER PRIMARY KEY)", "INSERT INTO format VALUES (2)", mode="wal"), NEWER),
    ("a kind that is no kind", database(*OURS, "INSERT INTO records VALUES (256, 'a', x'00')"), NO_ENTRY),
    ("a key that is no text", database(*OURS, "INSERT INTO records VALUES (1, x'61', x'00')"), NO_ENTRY),
    ("a file that may only be read", read_only, CANNOT_OPEN),
    ("a folder", lambda file: file.mkdir(), CANNOT_OPEN),
    ("a missing folder", None, CANNOT_OPEN),
]


def as_nobody():
    """For root every file may be written to, so the program is run by nobody."""
    if os.getuid() == 0:
        os.setgroups([])
        os.setgid(65534)
        os.setuid(65534)


def run(program, file, text=b"", command="run"):
    return subprocess.run([program, command, "--db", str(file)], input=text, capture_output=True, check=False, preexec_fn=as_nobody)


def bytes_of(folder):
    return {name.name: name.read_bytes() for name in folder.iterdir() if name.is_file()}


def is_as_it_was(before, now):
    """Whether each file is as it was; one beside the database may be new, and is empty or has no more than a log's head."""
    same = all(now.get(name) == was for name, was in before.items())
    return same and all(name.endswith("-wal") and len(now[name]) <= 41 for name in now.keys() - before.keys())


def try_refused(program, folder, case, make, sentence):
    folder.mkdir()
    folder.chmod(0o777)
    file = folder / "rows.db" if make else folder / "missing/rows.db"
    if make:
        make(file)
        if file.is_file() and make is not read_only:
            file.chmod(0o666)
    before = bytes_of(folder)
    ran = run(program, file)
    said = ran.stderr.decode()
    wanted = f"incus_run: {file}: {sentence}\n"
    if ran.returncode != 6 or ran.stdout or said != wanted:
        faults.append(f"{case}: status {ran.returncode}, said {said!r}, wanted {wanted!r}")
    if not is_as_it_was(before, bytes_of(folder)):
        faults.append(f"{case}: the file has changed")


def select(file, statement):
    read = sqlite3.connect(file)
    found = read.execute(statement).fetchall()
    read.close()
    return found


def try_kept(program, folder):
    folder.mkdir()
    folder.chmod(0o777)
    file = folder / "rows.db"
    ran = run(program, file, PROJECT)
    if ran.returncode != 0 or ran.stderr:
        faults.append(f"a new file: status {ran.returncode}, said {ran.stderr.decode()!r}")
    if select(file, "PRAGMA integrity_check") != [("ok",)]:
        faults.append("a new file is not sound")
    if select(file, "SELECT sql FROM sqlite_schema WHERE sql IS NOT NULL ORDER BY name") != [(FORMAT,), (RECORDS,)]:
        faults.append("a new file has other tables")
    rows = select(file, "SELECT kind, key, length(body) FROM records ORDER BY kind, key")
    if not any(row[1].startswith("lab") or "lab" in row[1] for row in rows):
        faults.append(f"a new file has no row of its project: {rows}")
    write = sqlite3.connect(file)
    write.execute("VACUUM")
    write.execute("ANALYZE")
    write.close()
    for name in folder.iterdir():
        name.chmod(0o666)
    ran = run(program, file, b"GET /1.0/projects HTTP/1.1\r\nHost: localhost\r\n\r\n")
    if ran.returncode != 0 or b"/1.0/projects/lab" not in ran.stdout:
        faults.append(f"opened after SQLite: status {ran.returncode}, said {ran.stderr.decode()!r}, {ran.stdout!r}")


def open_folder(folder):
    folder.mkdir()
    folder.chmod(0o777)


def open_files(folder):
    for name in folder.iterdir():
        name.chmod(0o666)


def try_missing(program, folder):
    """`check` tells what is kept, so it makes no file."""
    open_folder(folder)
    empty = folder / "empty.db"
    empty.touch()
    empty.chmod(0o666)
    for file in (folder / "rows.db", folder / "missing/rows.db", empty):
        ran = run(program, file, command="check")
        said, wanted = ran.stderr.decode(), f"incus_run: {file}: {MISSING}\n"
        if ran.returncode != 6 or ran.stdout or said != wanted:
            faults.append(f"check of no file: status {ran.returncode}, said {said!r}, wanted {wanted!r}")
    if list(folder.iterdir()) != [empty] or empty.stat().st_size:
        faults.append(f"check made {list(folder.iterdir())}")


def try_first_version(program, folder):
    """A file with the table `records` alone opens, and gets its version with the first change of a row."""
    open_folder(folder)
    file = folder / "rows.db"
    database(RECORDS)(file)
    open_files(folder)
    ran = run(program, file, PROJECT)
    if ran.returncode != 0 or ran.stderr:
        faults.append(f"records alone: status {ran.returncode}, said {ran.stderr.decode()!r}")
    if select(file, "SELECT sql FROM sqlite_schema WHERE sql IS NOT NULL ORDER BY name") != [(FORMAT,), (RECORDS,)]:
        faults.append("records alone: the file did not get its version")
    if select(file, "SELECT version FROM format") != [(1,)]:
        faults.append("records alone: another version")
    select(file, "PRAGMA journal_mode = delete")
    write = sqlite3.connect(file, isolation_level=None)
    write.execute("DROP TABLE format")
    write.close()
    open_files(folder)
    before = bytes_of(folder)
    ran = run(program, file, command="check")
    if ran.returncode != 0 or b"projects 2" not in ran.stdout:
        faults.append(f"check of records alone: status {ran.returncode}, said {ran.stderr.decode()!r}, {ran.stdout!r}")
    ran = run(program, file, b"GET /1.0/projects HTTP/1.1\r\nHost: localhost\r\n\r\n")
    if ran.returncode != 0 or b"/1.0/projects/lab" not in ran.stdout:
        faults.append(f"opened records alone: status {ran.returncode}, said {ran.stderr.decode()!r}, {ran.stdout!r}")
    if not is_as_it_was(before, bytes_of(folder)):
        faults.append("records alone: the file has changed without a change")


def try_alone(program, folder):
    """After a clean end the file alone, copied without its log, has all rows, also for the stock SQLite."""
    open_folder(folder)
    file, copy = folder / "rows.db", folder / "copy.db"
    bodies = [b'{"name":"p%d"}' % number for number in range(300)]
    asked = [b"POST /1.0/projects HTTP/1.1\r\nHost: localhost\r\nContent-Length: %d\r\n\r\n%s" % (len(body), body) for body in bodies]
    ran = run(program, file, b"".join(asked))
    if ran.returncode != 0 or ran.stderr:
        faults.append(f"300 projects: status {ran.returncode}, said {ran.stderr.decode()!r}")
    shutil.copy(file, copy)
    found = select(copy, "SELECT count(*) FROM records WHERE key GLOB '*p[0-9]*'")
    if found[0][0] < 300:
        faults.append(f"the file alone has {found[0][0]} rows of 300 projects")
    open_files(folder)
    ran = run(program, copy, command="check")
    if ran.returncode != 0 or b"projects 301" not in ran.stdout:
        faults.append(f"the file alone: status {ran.returncode}, said {ran.stderr.decode()!r}, {ran.stdout!r}")


def main():
    program = Path(sys.argv[1] if len(sys.argv) > 1 else TOP / "crates/incus_run/out/incus_run").resolve()
    if not program.exists():
        sys.exit(f"there is no program {program}: bin/incus_run --prove makes it")
    with tempfile.TemporaryDirectory() as top:
        os.chmod(top, 0o755)
        program = Path(shutil.copy(program, top))
        for at, (case, make, sentence) in enumerate(REFUSED):
            try_refused(program, Path(top, str(at)), case, make, sentence)
        try_kept(program, Path(top, "kept"))
        try_missing(program, Path(top, "none"))
        try_first_version(program, Path(top, "first"))
        try_alone(program, Path(top, "alone"))
    for fault in faults:
        print(fault)
    print(f"{len(REFUSED)} files refused, {len(faults)} faults")
    sys.exit(1 if faults else 0)


main()
