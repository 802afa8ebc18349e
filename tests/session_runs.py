"""Runs of crates/tests_sessions/stdin as bytes: docs/RUNS.md has the format."""
from pathlib import Path

TOP = Path(__file__).resolve().parent.parent
RUNS = TOP / "crates/tests_sessions/stdin"
# The title of the run that is used by other tests.
DAY = "# A day of a user:"


def run_of(text, title):
    """The words of a run of a file of runs, and the lines of its requests: the first run whose title begins so."""
    at = text.index(title)
    header = text[text.rindex("\n~ ", 0, at):at].split("\n")[1]
    lines = text[at:].split("\n\n~ ")[0].split("\n\n####")[0].splitlines()
    return header[2:].split(" = ")[0].split(), [line for line in lines if line[:1].isalpha()]


def request(line):
    """The bytes of a request of a file of runs."""
    method, target, body = (line.split(" ", 2) + [""])[:3]
    return f"{method} {target} HTTP/1.1\r\nContent-Length: {len(body.encode())}\r\n\r\n{body}".encode()


def bytes_of(title):
    """The words behind the command of a run, and the bytes of all its requests."""
    words, lines = run_of(RUNS.read_text(), title)
    return words[1:], b"".join(map(request, lines))
