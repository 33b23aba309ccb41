#!/bin/sh
# What `run` costs on the job of `gen N` beside `drive N`, which drives that job alone: instructions, and the wall time with all
# workers on two processors, the least of five runs, since other work on the machine only adds. N is 7 where no number is named.
# `run` prints its journal and its image too, and `drive` compares all units in their place. Needs valgrind, and util-linux's taskset.
program=$(cd "$(dirname "$0")/.." && pwd)/crates/xvm/out/xvm
number=${1:-7}
work=$(mktemp -d)
trap 'rm -rf "$work"' EXIT
trap 'exit 130' HUP INT TERM
instructions() {
    valgrind --tool=callgrind --callgrind-out-file="$work/calls" "$program" "$@" < "$work/job" 2> "$work/log" > "$work/out" || exit 1
    awk '/Collected/ { print $NF }' "$work/log"
}
milliseconds() {
    for _ in 1 2 3 4 5; do
        start=$(date +%s%N)
        taskset -c 0,1 "$program" "$@" < "$work/job" > "$work/out" || : > "$work/failed"
        end=$(date +%s%N)
        echo $(((end - start) / 1000000))
    done | sort -n | head -n 1
}
"$program" gen "$number" > "$work/job" || exit 1
driven=$(instructions drive "$number") || exit 1
ran=$(instructions run) || exit 1
workers=$(grep -c '^worker ' "$work/out")
driven_time=$(milliseconds drive "$number")
ran_time=$(milliseconds run)
[ ! -e "$work/failed" ] || exit 1
echo "drive $number: $driven instructions, $driven_time ms"
echo "run of gen $number, $workers workers: $ran instructions, $ran_time ms"
awk "BEGIN { printf \"ratio of instructions %.2f, of time %.2f\\n\", $ran / $driven, $ran_time / $driven_time }"
