#!/usr/bin/env bash
# Reads ten million sizes and ten million CPU sets through `read_size` and `read_cpu`, beside the same by strtoull in C:
# seconds and the ratio. The program that calls the readers is made, proved and built in a folder of its own that is
# removed again.
set -eu
cd "$(dirname "$0")"
turns=${1:-10000000}
top=$(cd .. && pwd)
work=$(mktemp -d)
trap 'rm -rf "$work"' EXIT
mkdir -p "$work/crates/bench_values/src"
cp -r "$top/crates/size_values" "$work/crates/"
rm -rf "$work/crates/size_values/out" "$work/crates/size_values/must-fail"
printf 'size_values:\nbench_values: size_values\n' > "$work/crates.txt"
cat > "$work/crates/bench_values/src/main.rt" <<'RT'
//! Reads sizes or CPU sets, as many times as the second word says.
#![tactic(auto)]

use size_values::{Cpu, read_cpu, read_size};
use std::{env, io};

const SIZES: [&str; 8] = ["1GiB", "512MiB", "20GB", "4096", "9223372036854775807", "100kB", "7EiB", "12kb"];
const SETS: [&str; 8] = ["0-3", "0,2,4,6", "1-2,5-6,9", "0-63", "17,18", "100-200,300-400", "3-0", "1,2-"];

fn sum_of_sizes(turns: u64) -> u64 {
    let mut sum: u64 = 0;
    for turn in 0..turns {
        if let Ok(size) = read_size(SIZES[(turn % 8) as usize]) {
            sum ^= size.wrapping_add(turn);
        }
    }
    sum
}

fn sum_of_sets(turns: u64) -> u64 {
    let mut sum: u64 = 0;
    for turn in 0..turns {
        if let Ok(Cpu::Pinned) = read_cpu(SETS[(turn % 8) as usize]) {
            sum ^= turn;
        }
    }
    sum
}

fn main(rt: HostRuntime) -> io::Result<()> {
    let mut words = env::args(&rt)?;
    let _program = words.next();
    let of_sizes = words.next().is_some_and(|word| word.as_str() == "sizes");
    let turns = words.next().and_then(|word| word.as_str().parse::<u64>().ok()).unwrap_or(0);
    let sum = if of_sizes { sum_of_sizes(turns) } else { sum_of_sets(turns) };
    println!(rt; "{sum}")?;
    Ok(())
}
RT
cc -O2 -o "$work/values" values.c
(cd "$work/crates/bench_values" && rt run --jobs 1 -- sizes 8 > "$work/build.log" 2>&1) || { tail -20 "$work/build.log" >&2; exit 1; }
program=$work/crates/bench_values/out/bench_values
measure() { # the least seconds of three runs
    local best="" seconds
    for _ in 1 2 3; do
        seconds=$( { /usr/bin/time -f %U "$@" > "$work/sum"; } 2>&1 | tail -1)
        if [ -z "$best" ] || [ "$(printf '%s\n%s\n' "$seconds" "$best" | sort -n | head -1)" = "$seconds" ]; then best=$seconds; fi
    done
    echo "$best $(cat "$work/sum")"
}
for what in sizes sets; do
    read -r c_seconds c_sum < <(measure "$work/values" $what "$turns")
    read -r seconds sum < <(measure "$program" $what "$turns")
    [ "$sum" = "$c_sum" ] || { echo "$what: the sums differ, $sum and $c_sum" >&2; exit 1; }
    awk -v w="$what" -v n="$turns" -v c="$c_seconds" -v s="$seconds" 'BEGIN {
        printf "%s: %d texts, C %.2f s, ours %.2f s, ratio %.2f\n", w, n, c, s, s / c
    }'
done
