# What the scripts that measure requests by the number of rows have in common: streams of sections, and their measurement. A script
# sources it, and has a function `rows WHAT` of its own, which tells how a section is shown.
program=$(realpath "${PROGRAM:-$(dirname "$0")/../bin/incus_run}")
cd "$(dirname "$0")"
runs=${RUNS:-3} part=${PART:-1}
"$program" nothing || true # builds the program where it must; it reads no word `nothing`
until=$(($(date +%s) + ${LIMIT:-175}))

begin_stream() { # STREAM: the stream that sections are added to
    stream=out/$1
    mkdir -p "$stream"
    : > "$stream/requests"
    : > "$stream/sections"
    add 1 "" gets 1 # what comes before it is the start of the program
}
add() { # COUNT SHOWN KIND WORDS..: a section of so many requests
    python3 stream.py "${@:3}" >> "$stream/requests"
    printf '%d\t%s\n' "$1" "$2" >> "$stream/sections"
}
few() { # COUNT: one PARTth of it, and no less than 1
    echo $((($1 + part - 1) / part))
}
add_reads() { # WHAT TARGET COUNT
    add "$3" "$(rows "$1")" reads "$2" "$3"
}
measure() {
    python3 pace.py "$program" "$stream" "$runs" "$until" ${options:-}
}
