#!/bin/sh
# How many instructions the replay of the input that is named takes, and how their number grows: a script of 512 regions
# of a disk beside one of 256, with a guest's write behind each. Needs valgrind.
program=$(cd "$(dirname "$0")/.." && pwd)/crates/xvm/out/xvm
work=$(mktemp -d)
make_input() {
    awk -v regions="$1" 'BEGIN {
        print "job 1\npages 1 16\ndisk " 16 * regions " 512\nstreams 1\ncredit 64\noutbox 64\nregion 16\nrounds 1\ndirty 0\nguest"
        for (r = 0; r < regions; r++) print "wr 0 " 16 * r " 1 a5"
        print "end"
        for (r = 0; r < regions; r++) {
            print "begin 0"
            for (i = 0; i < 16; i++) print "read 0"
            print "advance 0\nguest 0"
            for (i = 0; i < 17; i++) print "send 0\ndeliver 0\napply"
            print "ack\ncredit"
        }
        print "stop"
    }'
}
instructions() {
    valgrind --tool=callgrind --callgrind-out-file="$work/calls" "$program" replay < "$1" 2> "$work/log" > "$work/out" || exit 1
    awk '/Collected/ { print $NF }' "$work/log"
}
if [ -n "$1" ]; then
    echo "$1: $(instructions "$1") instructions"
    [ -z "$2" ] || callgrind_annotate "$work/calls" | head -n "$2"
fi
make_input 256 > "$work/small"
make_input 512 > "$work/large"
small=$(instructions "$work/small")
large=$(instructions "$work/large")
rm -rf "$work"
echo "256 regions: $small instructions; 512 regions: $large instructions"
awk "BEGIN { printf \"ratio %.2f\\n\", $large / $small }"
