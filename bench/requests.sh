#!/usr/bin/env bash
# Reads 900,000 small requests (about 60 MB) from a file through `incus_run run`, beside a small C program that frames the
# same bytes, without replies and with one that stands ready: seconds, bytes a second, memory, and the ratios. The requests are
# the same, as those of a client that looks whether the server is there; then each has another head than the one before, which
# is read anew. Then the same of a few requests with large bodies. Files are made in bench/out/, which is not committed.
set -eu
cd "$(dirname "$0")"
mkdir -p out
count=${1:-900000}
python3 - "$count" > out/requests.http <<'PY'
import sys
request = b"GET /1.0 HTTP/1.1\r\nHost: localhost\r\nUser-Agent: requests.sh/1.0\r\n\r\n"
for _ in range(int(sys.argv[1])):
    sys.stdout.buffer.write(request)
PY
python3 - "$count" > out/heads.http <<'PY'
import sys
for made in range(int(sys.argv[1])):
    sys.stdout.buffer.write(b"GET /1.0 HTTP/1.1\r\nHost: localhost\r\nUser-Agent: requests.sh/1.%d\r\n\r\n" % (made % 2))
PY
python3 - $((count / 16000 + 1)) > out/bodies.http <<'PY'
import sys
body = b"x" * 1048576
request = b"POST /1.0/projects HTTP/1.1\r\nHost: localhost\r\nContent-Length: %d\r\n\r\n" % len(body)
for _ in range(int(sys.argv[1])):
    sys.stdout.buffer.write(request + body)
PY
cc -O2 -o out/frame frame.c
../bin/incus_run nothing || true # builds the program where it must; it reads no word `nothing`
measure() {
    local file=$1 best="" line
    shift
    for _ in 1 2 3; do
        line=$( { /usr/bin/time -f '%e %M' "$@" < "out/$file" > out/replies; } 2>&1 | tail -1)
        if [ -z "$best" ] || [ "$(printf '%s\n%s\n' "${line% *}" "${best% *}" | sort -n | head -1)" = "${line% *}" ]; then best=$line; fi
    done
    echo "$best"
}
compare() {
    local file=$1 what=$2 bytes
    bytes=$(stat -c %s "out/$file")
    read -r frame_seconds frame_memory < <(measure "$file" out/frame)
    read -r reply_seconds _ < <(measure "$file" out/frame reply)
    read -r seconds memory < <(measure "$file" ../bin/incus_run run)
    awk -v w="$what" -v b="$bytes" -v f="$frame_seconds" -v r="$reply_seconds" -v s="$seconds" -v fm="$frame_memory" -v m="$memory" 'BEGIN {
        printf "%s, bytes %d\n", w, b
        printf "  C program, framing alone: %.2f s, %.0f MB/s, %d KB\n", f, b / f / 1e6, fm
        printf "  C program, with a reply that stands ready: %.2f s, %.0f MB/s\n", r, b / r / 1e6
        printf "  incus_run run: %.2f s, %.0f MB/s, %d KB\n", s, b / s / 1e6, m
        printf "  ratios %.1f and %.1f\n", s / f, s / r
    }'
}
compare requests.http "$count small requests"
compare heads.http "$count small requests, each with another head than the one before"
compare bodies.http "requests with bodies of 1 MiB"
