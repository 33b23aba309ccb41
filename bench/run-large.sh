#!/bin/sh
# How fast `run` migrates a job of 512 MiB, 256 MiB of pages and as much of a disk, while one guest stores to pages and another writes
# to blocks, beside `cp` of a file of as many bytes; the least time of three. The device of the source begins as zeros, so that little
# of the image is printed; with the word `filled` each unit begins with a pattern, and 2 GiB of image are printed. Takes about
# 1.5 GiB of memory, and 1 GiB of temporary files.
program=$(cd "$(dirname "$0")/.." && pwd)/crates/xvm/out/xvm
work=$(mktemp -d)
trap 'rm -rf "$work"' EXIT
trap 'exit 130' HUP INT TERM
mebibytes=512
units=$((mebibytes << 8)) # of 4,096 bytes each
awk -v half=$((units / 2)) -v filled="$1" 'BEGIN {
    print "job 1\npages " half " 4096\ndisk " half " 4096\nstreams 4\ncredit 1024\noutbox 1024\nregion 256\nrounds 4\ndirty 64"
    if (filled == "filled") for (u = 0; u < 2 * half; u++) printf "init %d %04x\n", u, u % 65535 + 1
    print "guest"
    for (i = 0; i < 20000; i++) print "st " i * 37 % half * 4096 + i % 64 * 64 " 64 a5"
    print "guest"
    for (i = 0; i < 5000; i++) print "wr 0 " i * 41 % (half - 4) " 4 5a"
    print "end"
}' > "$work/job"
yes xvm | head -c $((mebibytes << 20)) > "$work/bytes"
milliseconds() {
    for _ in 1 2 3; do
        start=$(date +%s%N)
        "$@" || : > "$work/failed"
        end=$(date +%s%N)
        echo $(((end - start) / 1000000))
    done | sort -n | head -n 1
}
run() {
    "$program" run < "$work/job" > /dev/null # status 0 only where it has switched over
}
ran=$(milliseconds run)
copied=$(milliseconds cp "$work/bytes" "$work/copy")
[ ! -e "$work/failed" ] || exit 1
awk "BEGIN { printf \"$mebibytes MiB: run $ran ms, %.0f MiB/s; cp $copied ms, %.0f MiB/s\\nratio %.1f\\n\",
    $mebibytes * 1000 / $ran, $mebibytes * 1000 / $copied, $ran / $copied }"
