#!/usr/bin/env python3
"""Reads a journal of rows without the program: the file has a header of 16 bytes, records, and a last gate byte that is not 1.

    tests/journal_reader.py FILE      prints the kind, the key and the body of each row

A record is its gate byte, which is 1, the length of its text in eight bytes, and its text: the number of its changes in four bytes, and
each change. A change is 1, a kind, a key and a body, of the row that is put; or 0, a kind and a key, of the row that is taken out. The
lengths of keys and bodies stand before them in four bytes; all numbers have their highest byte first.
"""
import sys
from pathlib import Path

HEADER = b"incus journal 1\n"


def take(data, at, count):
    if at + count > len(data):
        raise ValueError(f"the file ends before byte {at + count}")
    return data[at:at + count], at + count


def number(data, at, width):
    found, at = take(data, at, width)
    return int.from_bytes(found, "big"), at


def text(data, at):
    size, at = number(data, at, 4)
    return take(data, at, size)


def changes_of(data, at):
    """The changes of a record whose text begins there, each a kind, a key and a body or None; and where they end."""
    count, at = number(data, at, 4)
    changes = []
    for _ in range(count):
        (put, kind), at = take(data, at, 2)
        key, at = text(data, at)
        body, at = text(data, at) if put else (None, at)
        changes.append((kind, key.decode(), body))
    return changes, at


def records_of(data):
    """The records of a journal: where each begins, and its changes."""
    at, records = len(HEADER), []
    if data[:at] != HEADER:
        raise ValueError("no journal")
    while len(data) > at + 1 and data[at] == 1:
        begin, (size, at) = at, number(data, at + 1, 8)
        changes, end = changes_of(data, at)
        if end != at + size or end == len(data):
            raise ValueError(f"the record at byte {begin} is damaged")
        records.append((begin, changes))
        at = end
    return records


def rows_after(records):
    """The body of each row that the changes leave, by its kind and key."""
    rows = {}
    for _, changes in records:
        for kind, key, body in changes:
            rows.pop((kind, key), None) if body is None else rows.update({(kind, key): body})
    return rows


if __name__ == "__main__":
    for (kind, key), body in sorted(rows_after(records_of(Path(sys.argv[1]).read_bytes())).items()):
        print(kind, key, body.hex())
