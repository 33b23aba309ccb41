#!/bin/sh
# How many instructions `drive N` takes, and `gen N` beside an awk that prints the same job line by line. N is 7 where no number
# is named; with a second number so many lines say where those of `drive` go. Needs valgrind.
program=$(cd "$(dirname "$0")/.." && pwd)/crates/xvm/out/xvm
number=${1:-7}
work=$(mktemp -d)
instructions() {
    valgrind --tool=callgrind --callgrind-out-file="$work/calls" "$@" < "$work/job" 2> "$work/log" > "$work/out" || exit 1
    awk '/Collected/ { print $NF }' "$work/log"
}
"$program" gen "$number" > "$work/job" || exit 1
printed=$(instructions awk '{ printf "%s\n", $0 }')
made=$(instructions "$program" gen "$number")
driven=$(instructions "$program" drive "$number")
[ -z "$2" ] || callgrind_annotate "$work/calls" | head -n "$2"
lines=$(wc -l < "$work/job")
rm -rf "$work"
echo "drive $number: $driven instructions"
echo "gen $number: $made instructions; awk prints its $lines lines in $printed"
awk "BEGIN { printf \"ratio %.2f\\n\", $made / $printed }"
