#!/bin/sh
# How the time of a replay grows with its input: an input of 400,000 writes against one of 40,000, in one run.
program=$(cd "$(dirname "$0")/.." && pwd)/crates/xvm/out/xvm
work=$(mktemp -d)
make_input() {
    printf 'job 1\npages 1 16\ndisk 16 16\nstreams 1\ncredit 4\noutbox 4\nregion 1\nrounds 1\ndirty 0\nguest\n'
    yes 'wr 0 7 1 a5' | head -n "$1"
    echo end
    yes 'guest 0' | head -n "$1"
    echo stop
}
seconds() {
    start=$(date +%s%N)
    "$program" replay < "$work/$1" > "$work/out" || exit 1
    end=$(date +%s%N)
    echo $(((end - start) / 1000000))
}
make_input 40000 > "$work/small"
make_input 400000 > "$work/large"
small=$(seconds small)
large=$(seconds large)
rm -rf "$work"
echo "40,000 writes: $small ms; 400,000 writes: $large ms"
awk "BEGIN { printf \"ratio %.1f\\n\", $large / $small }"
