#!/usr/bin/env bash
# Counts the instructions that `incus_run run` takes for one request, by callgrind (of valgrind), so without the load of the machine: a line for each
# request. Each is counted twice over the same rows, the second time with twice as many of them; the difference, divided by their number, is one.
# Those among many rows take some minutes.
#
#   PROGRAM   the program, ../bin/incus_run without it; it must stand: the script is not for one that is compiled first
set -eu
program=$(realpath "${PROGRAM:-$(dirname "$0")/../crates/incus_run/out/incus_run}")
cd "$(dirname "$0")"
mkdir -p out
options="--steps 0 --now 0 --boot 0"

stream() { python3 stream.py "$@"; }
collected() { # instructions of a run on the stream of standard input
    cat > out/counted.http
    valgrind --tool=callgrind --callgrind-out-file=/dev/null "$program" run $options < out/counted.http 2>&1 > /dev/null |
        awk '/Collected/ { print $NF }'
}
count() { # WHAT COUNT MAKE: what MAKE prints for a number are the rows and then so many of the request
    local once twice
    once=$("$3" "$2" | collected)
    twice=$("$3" $((2 * $2)) | collected)
    printf '%-72s %9d\n' "$1" $(((twice - once) / $2))
}
server() { stream reads /1.0 "$1"; }
server_of_agent() {
    local made
    for ((made = 0; made < $1; made++)); do
        printf 'GET /1.0 HTTP/1.1\r\nHost: localhost\r\nUser-Agent: requests.sh/1.0\r\n\r\n'
    done
}
server_of_agents() {
    local made
    for ((made = 0; made < $1; made++)); do
        printf 'GET /1.0 HTTP/1.1\r\nHost: localhost\r\nUser-Agent: requests.sh/1.%d\r\n\r\n' $((made % 2))
    done
}
profile_of_many() { stream profiles default 1 16000 && stream get-profiles default 16000 "$1"; }
new_profile_of_few() { stream profiles default 1 100 && stream profiles default 101 $((100 + $1)); }
new_profile_of_many() { stream profiles default 1 16000 && stream profiles default 16001 $((16000 + $1)); }
new_profile_of_many_projects() {
    local home
    home=$(stream name p 1)
    stream spread-projects 1 999 && stream profiles "$home" 1 15000 && stream profiles "$home" 15001 $((15000 + $1))
}
creation_of_few() { stream tenant lab limits && stream made lab 1 250 1 && stream creations lab 251 $((250 + $1)); }
creation_of_many() { stream tenant lab limits && stream made lab 1 10000 1 && stream creations lab 10001 $((10000 + $1)); }

count "GET /1.0, with the header Host" 1000 server
count "GET /1.0, with the headers Host and User-Agent" 1000 server_of_agent
count "the same, each with another head than the one before" 1000 server_of_agents
count "GET of a profile, of 16,000" 1000 profile_of_many
count "POST of a profile, of 100" 50 new_profile_of_few
count "POST of a profile, of 16,000" 50 new_profile_of_many
count "the same, in one of 1,000 projects" 50 new_profile_of_many_projects
count "creation in a project with five limits, of 250 instances, its acceptance" 50 creation_of_few
count "the same, of 10,000" 50 creation_of_many
