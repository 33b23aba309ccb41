#!/bin/sh
# How long the replay of a job of about 60 MB takes, beside what `wc -l` and `cksum` together take on the same file, in one run.
program=$(cd "$(dirname "$0")/.." && pwd)/crates/xvm/out/xvm
work=$(mktemp -d)
pattern=$(yes a5 | head -n 64 | tr -d '\n')
{
    printf 'job 1\npages 1 16\ndisk 1024 64\nstreams 1\ncredit 4\noutbox 4\nregion 1\nrounds 1\ndirty 0\nguest\n'
    yes "wr 0 7 1 $pattern" | head -n "${1:-450000}"
    printf 'end\nstop\n'
} > "$work/input"
milliseconds() {
    start=$(date +%s%N)
    "$@" > "$work/out" || exit 1
    end=$(date +%s%N)
    echo $(((end - start) / 1000000))
}
count_and_sum() {
    LC_ALL=C wc -l < "$work/input"
    cksum < "$work/input"
}
replay() {
    "$program" replay < "$work/input"
}
count_and_sum > /dev/null
yardstick=$(milliseconds count_and_sum)
taken=$(milliseconds replay)
bytes=$(wc -c < "$work/input")
rm -rf "$work"
echo "$bytes bytes: replay $taken ms, wc -l and cksum $yardstick ms"
awk "BEGIN { printf \"ratio %.1f\\n\", $taken / $yardstick }"
