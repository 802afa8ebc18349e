#!/usr/bin/env bash
# Creates networks, storage pools and volumes through `incus_run run`, and reads, changes and lists them on the way, at 100, at
# 1,000 and at 10,000 rows, as far as there may be so many (1,024 networks, 64 pools): requests a second and memory held, a line for
# each. A list with recursion, and the users of one object, grow with the rows that they show and no faster. Four streams are read
# from files: networks; pools; the volumes of one pool; and profiles that all use one network and one pool.
#
#   PROGRAM   the program, ../bin/incus_run without it
#   RUNS      how many times each stream is run, as far as there is time, 3 without it
#   MOST      how many volumes, and profiles that use, there are at the end, 10000 without it, and 1001 at least
#   PART      a section of reads or changes has one PARTth of its requests, all of them without it
#   LIMIT     after how many seconds it ends with an error, 175 without it
set -eu
. "$(dirname "$0")/sections.sh"
most=${MOST:-10000}
pool=$(python3 stream.py name s 1) network=$(python3 stream.py name n 1)

begin() { # STREAM KIND LIST LETTER: the stream that sections are added to, and which rows it adds
    kind=$2 list=$3 letter=$4 count=0
    begin_stream "$1"
}
rows() { # WHAT: how a section is shown, with the number of rows after it
    printf '%-40s %6d %-9s' "$1" "$count" "$kind"
}
make() { # LAST WORDS..: rows up to this number are created
    local first=$((count + 1)) what="POST, from $((count + 1)) on"
    count=$1
    add $((count - first + 1)) "$(rows "$what")" "${@:2}" "$first" "$count"
}
use_rows() { # COUNT LISTS: how many times one is read, changed and renamed, and all are read
    local each lists
    each=$(few "$1") lists=$(few "$2")
    add "$each" "$(rows GET)" get-rows "$list" "$letter" "$count" "$each"
    add "$each" "$(rows PUT)" put-rows "$list" "$letter" "$count" "$each"
    add_reads "list" "$list" "$lists"
    add_reads "list, recursion" "$list?recursion=1" "$lists"
}
change_rows() { # FIRST LAST WORDS..: rows of these numbers are renamed there and back, deleted and made again
    local changed=$(($2 - $1 + 1))
    add $((2 * changed)) "$(rows rename)" move-rows "$list" "$letter" "$1" "$2"
    add "$changed" "$(rows DELETE)" delete-rows "$list" "$letter" "$1" "$2"
    add "$changed" "$(rows "POST, again")" "${@:3}" "$1" "$2"
}
own() { # LISTS: how many times the project is read that the rows belong to, with its users
    add_reads "GET of their project" /1.0/projects/default "$(few "$1")"
}
held() { # LISTS: how many times the pool is read that the rows are in, with its users
    add_reads "GET of their pool" "/1.0/storage-pools/$pool" "$(few "$1")"
}

echo "networks"
begin networks networks /1.0/networks n
make 100 networks
use_rows 500 200
own 200
change_rows 2 50 networks
make 1000 networks
use_rows 500 40
own 40
change_rows 2 100 networks
measure

echo "storage pools"
begin pools pools /1.0/storage-pools s
make 64 pools
use_rows 500 200
measure

echo "volumes of one pool"
begin volumes volumes "/1.0/storage-pools/$pool/volumes/custom" v
add 1 "" pools 1 1
make 100 volumes "$pool"
use_rows 500 200
own 200
held 200
change_rows 2 50 volumes "$pool"
make 1000 volumes "$pool"
use_rows 500 40
own 40
held 40
change_rows 2 100 volumes "$pool"
make "$most" volumes "$pool"
use_rows 500 5
own 10
held 10
change_rows 2 100 volumes "$pool"
measure

echo "profiles that use one network and one pool"
begin users profiles /1.0/profiles a
add 1 "" networks 1 1
add 1 "" pools 1 1
read_users() { # COUNT: how many times the network and the pool are read, with their users
    add_reads "GET of their network" "/1.0/networks/$network" "$(few "$1")"
    add_reads "GET of their pool" "/1.0/storage-pools/$pool" "$(few "$1")"
}
make 100 users "$network" "$pool"
read_users 200
make 1000 users "$network" "$pool"
read_users 40
make "$most" users "$network" "$pool"
read_users 10
measure
