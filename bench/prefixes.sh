#!/bin/sh
# Cuts each input in examples/ that is accepted behind each of its bytes but the last, and gives what stands before the cut to the built
# program: it must refuse it as one that ends early, on the line that is one more than its whole lines, and write nothing else. Of a
# longer input that many cuts are tried as --max says (1,000), spread evenly. Prints how many were tried, and each that is answered
# otherwise; the status is 1 where there is one.
root=$(cd "$(dirname "$0")/.." && pwd)
program=${XVM:-$root/crates/xvm/out/xvm}
most=1000
[ "$1" != --max ] || most=$2
work=$(mktemp -d)
trap 'rm -rf "$work"' EXIT
trap 'exit 130' HUP INT TERM
[ -x "$program" ] || { echo "no program is at $program: ./xvm builds it" >&2; exit 1; }
tried=0
wrong=0

# The words of an example; none where its whole input is not accepted.
words_of() {
    words=replay
    [ ! -f "$root/examples/$1.words" ] || words=$(cat "$root/examples/$1.words")
    case $words in replay* | run* | handover*) ;; *) return 1 ;; esac
    "$program" $words < "$root/examples/$1.in" > "$work/out" 2> "$work/err"
    case $? in 0 | 6 | 7) ;; *) return 1 ;; esac
}
cut_behind() {
    head -c "$1" "$input" > "$work/in"
    lines=$(wc -l < "$work/in")
    "$program" $words < "$work/in" > "$work/out" 2> "$work/err"
    status=$?
    tried=$((tried + 1))
    [ "$status" -eq 2 ] && echo "refused line $((lines + 1)) unended" | cmp -s - "$work/out" && return
    echo "$name, cut behind $1 bytes: status $status, $(head -c 80 "$work/out")"
    wrong=$((wrong + 1))
}

for input in "$root"/examples/*.in; do
    name=$(basename "$input" .in)
    words_of "$name" || continue
    bytes=$(wc -c < "$input")
    step=$(((bytes + most - 1) / most))
    cut=0
    while [ "$cut" -lt "$bytes" ]; do
        cut_behind "$cut"
        cut=$((cut + step))
    done
    # the last line without its end
    cut_behind $((bytes - 1))
done
echo "$tried cuts tried, $wrong answered otherwise"
[ "$tried" -gt 0 ] && [ "$wrong" -eq 0 ]
