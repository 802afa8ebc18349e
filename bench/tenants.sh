#!/usr/bin/env bash
# Makes tenants through `incus_run run`, each a restricted project with five limits and ten instances: 10, 50 and 200 of them. At
# each number requests of the first tenant alone: the acceptance of a creation, its wait, lists, the usage of the project, and a
# change of the profile that all its instances use: requests a second and memory held, a line for each. The worker makes no step but
# while a request waits (`--steps 0`).
#
#   PROGRAM   the program, ../bin/incus_run without it
#   RUNS      how many times each stream is run, as far as there is time, 3 without it
#   MOST      how many tenants there are at the end, 200 without it, and at most
#   LIMIT     after how many seconds it ends with an error, 175 without it
set -eu
. "$(dirname "$0")/sections.sh"
most=${MOST:-200} instances=10
options="--steps 0 --now 0 --boot 0"

rows() { # WHAT: how a section is shown, with the number of tenants after it
    printf '%-40s %5d tenants' "$1" "$tenants"
}
try_at() { # TENANTS: what is measured at this number of tenants
    [ "$1" -le "$most" ] || return 0
    local count=$(($1 - tenants))
    add $((pools + count * (2 + 2 * instances))) "" tenants $((tenants + 1)) "$1" "$instances" "$operation"
    operation=$((operation + count * instances)) tenants=$1 pools=0
    add 10 "$(rows "creation, its acceptance")" creations t1 $((made + 1)) $((made + 10))
    add 10 "$(rows "wait for a creation, with its work")" waits "$operation" $((operation + 9))
    operation=$((operation + 10)) made=$((made + 10))
    add_reads "list" "/1.0/instances?project=t1" 200
    add_reads "state of the project" "/1.0/projects/t1/state" 200
    add_reads "list of profiles" "/1.0/profiles?project=t1" 200
    add 20 "$(rows "PUT of their profile")" put-profile t1 20
}
tenants=0 operation=1 made=$instances pools=1
begin_stream tenants
for at in 10 50 200; do
    try_at "$at"
done
measure
