#!/usr/bin/env bash
# Creates instances through `incus_run run`, in a project without limits and in a restricted one with five, up to 1,000: at 10,
# 100, 250 and 1,000 instances, and at 10,000 and 60,000 where MOST says so, the acceptance of a creation, its wait, lists, the
# usage of the project, and a change of the profile that all use: requests a second and memory held, a line for each. The worker
# makes no step but while a request waits (`--steps 0`), so an acceptance and the work after it are told apart.
#
#   PROGRAM   the program, ../bin/incus_run without it
#   RUNS      how many times each stream is run, as far as there is time, 3 without it
#   MOST      how many instances there are at the end, 1000 without it, and 60000 at most
#   LIMIT     after how many seconds it ends with an error, 175 without it
set -eu
. "$(dirname "$0")/sections.sh"
most=${MOST:-1000}
options="--steps 0 --now 0 --boot 0"

rows() { # WHAT: how a section is shown, with the number of instances after it
    printf '%-40s %6d instances' "$1" "$count"
}
grow() { # LAST: instances up to this number are made, each waited for
    local first=$((count + 1)) last=$1
    [ "$last" -ge "$first" ] || return 0
    add $((2 * (last - first + 1))) "" made "$project" "$first" "$last" "$first"
    count=$last
}
try_at() { # ROWS: what is measured at this number of instances
    [ "$1" -le "$most" ] || return 0
    local first=$(($1 - 9)) reads=$((20000 / $1 + 1))
    grow $(($1 - 10))
    add 10 "$(rows "creation, its acceptance")" creations "$project" "$first" "$1"
    add 10 "$(rows "wait for a creation, with its work")" waits "$first" "$1"
    count=$1
    [ "$reads" -le 200 ] || reads=200
    add_reads "list" "/1.0/instances?project=$project" "$reads"
    add_reads "list, recursion" "/1.0/instances?project=$project&recursion=1" "$reads"
    add_reads "state of the project" "/1.0/projects/$project/state" "$reads"
    add "$reads" "$(rows "PUT of their profile")" put-profile "$project" "$reads"
}
for limits in "" limits; do
    echo "a project ${limits:+with }${limits:-without limits}"
    project=lab${limits:+-limited} count=0
    begin_stream "instances${limits:+-$limits}"
    add 3 "" tenant "$project" $limits
    for at in 10 100 250 1000 10000 60000; do
        try_at "$at"
    done
    measure
done
