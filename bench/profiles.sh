#!/usr/bin/env bash
# Creates 1,000 projects and 16,000 profiles through `incus_run run`, and reads, changes and lists them on the way: requests
# a second and memory held at 100, 1,000 and 16,000 rows, a line for each. Three streams are read from files, as in
# requests.sh: one of projects, one of the profiles of one project, and one of 1,000 projects and then the other profiles,
# all in one of them. What exists already, the project `default` and the profile `default` of each project, is counted.
# pace.py tells how the time is taken; of the runs of a stream the best counts.
#
#   PROGRAM   the program, ../bin/incus_run without it
#   RUNS      how many times each stream is run, as far as there is time, 3 without it
#   MOST      how many profiles there are at the end, 16000 without it, and 1501 at least
#   PART      a section of reads or changes has one PARTth of its requests, all of them without it
#   LIMIT     after how many seconds it ends with an error, 175 without it
#
# The last three are for a program that is slower, as one that was not built with optimizations.
set -eu
. "$(dirname "$0")/sections.sh"
most=${MOST:-16000}

# The project that profiles are added to, and one with its profile `default` alone. Of 1,000 projects some 600 stand before
# the first, and 240 before the second.
home=$(python3 stream.py name p 1) other=$(python3 stream.py name p 2)

begin() { # STREAM: the stream that sections are added to
    projects=1 profiles=1
    begin_stream "$1"
}
rows() { # WHAT: how a section is shown, with the numbers of rows after it
    printf '%-36s %5d projects %6d profiles' "$1" "$projects" "$profiles"
}
add_projects() { # FIRST LAST [WHAT]
    projects=$((projects + $2 - $1 + 1)) profiles=$((profiles + $2 - $1 + 1))
    add $(($2 - $1 + 1)) "${3:+$(rows "$3")}" spread-projects "$1" "$2"
}
add_profiles() { # FIRST LAST [WHAT]
    profiles=$((profiles + $2 - $1 + 1))
    add $(($2 - $1 + 1)) "${3:+$(rows "$3")}" profiles "$home" "$1" "$2"
}
use_projects() { # COUNT LINKS OBJECTS: how many times one is read, and the list without and with recursion
    add_reads "GET of a project" "/1.0/projects/$other" "$(few "$1")"
    add_reads "list of projects" /1.0/projects "$(few "$2")"
    add_reads "list of projects, recursion" "/1.0/projects?recursion=1" "$(few "$3")"
}
use_profiles() { # ROWS COUNT LISTS: how many there are beside `default`, and how many times one is used and all are read
    local count lists
    count=$(few "$2") lists=$(few "$3")
    add "$count" "$(rows "GET of a profile")" get-profiles "$home" "$1" "$count"
    add "$count" "$(rows "PUT of a profile")" put-profiles "$home" "$1" "$count"
    add_reads "list of one project's profiles" "/1.0/profiles?project=$home" "$lists"
    add_reads "the same, recursion" "/1.0/profiles?project=$home&recursion=1" "$lists"
    add_reads "GET of their project" "/1.0/projects/$home" "$lists"
}
change_projects() { # FIRST LAST: projects of these numbers are renamed there and back, deleted and made again; as many are patched
    local count=$(($2 - $1 + 1))
    add "$count" "$(rows "PATCH of a project")" patch-projects "$((projects - 1))" "$count"
    add $((2 * count)) "$(rows "rename of a project")" move-projects "$1" "$2"
    add "$count" "$(rows "DELETE of a project")" delete-projects "$1" "$2"
    projects=$((projects - count)) profiles=$((profiles - count))
    add_projects "$1" "$2"
}

echo "projects"
begin projects
add_reads "GET /" / "$(few 2000)"
add_projects 1 99 "POST of a project, the first 99"
use_projects 2000 500 100
change_projects 10 89
add_projects 100 899 "POST of a project, those between"
add_projects 900 999 "POST of a project, the last 100"
use_projects 2000 100 10
change_projects 100 299
measure

echo "profiles of one project"
begin profiles
add_projects 1 1
add_profiles 1 98 "POST of a profile, the first 98"
use_profiles 98 2000 200
add_profiles 99 798 "POST of a profile, those between"
add_profiles 799 998 "POST of a profile, the last 200"
use_profiles 998 2000 40
measure

echo "profiles of one of 1,000 projects"
begin both
add_projects 1 999 "POST of a project, all of them"
last=$((most - 1000))
add_profiles 1 $((last - 500)) "POST of a profile, all but the last"
add_profiles $((last - 499)) "$last" "POST of a profile, the last 500"
use_profiles "$last" 1000 5
use_projects 1000 100 3
change_projects 100 299
add_projects 1000 1019 "POST of a project, 20 more"
measure
