#!/bin/sh
# Inputs that are too long for a test, words that are no UTF-8, and an input or output that is not there, tried on the built program. Prints
# a line for each that is answered otherwise than it should be, and how many were tried; the status is 1 where there is one.
program=${XVM:-$(cd "$(dirname "$0")/.." && pwd)/crates/xvm/out/xvm}
job='job 1\npages 1 16\nstreams 1\ncredit 1\noutbox 1\nregion 1\nrounds 1\ndirty 0\nguest\nend\n'
limit=67108864
work=$(mktemp -d)
trap 'rm -rf "$work"' EXIT
trap 'exit 130' HUP INT TERM
[ -x "$program" ] || { echo "no program is at $program: ./xvm builds it" >&2; exit 1; }
tried=0
wrong=0

# Compares the status and the output of the last call.
compare() {
    tried=$((tried + 1))
    if [ "$status" != "$2" ] || [ "$(cat "$work/out")" != "$3" ]; then
        echo "$1: status $status, $(head -c 80 "$work/out")"
        wrong=$((wrong + 1))
    fi
}
# A name, a status, what is written, and the words; the input is $work/in.
try() {
    name=$1 wanted=$2 text=$3
    shift 3
    "$program" "$@" < "$work/in" > "$work/out" 2> "$work/err"
    status=$?
    compare "$name" "$wanted" "$text"
}
letters() { head -c "$1" /dev/zero | tr '\0' 'a'; }
lines() { yes "$2" | head -n "$1"; }

for command in replay run handover; do
    letters "$limit" > "$work/in"
    try "$command: a line without an end, as long as an input may be" 2 'refused line 1 unended' "$command"
    letters 1 >> "$work/in"
    try "$command: one byte more" 2 'refused line 0 limit 1' "$command"
    { letters $((limit - 1)); echo; } > "$work/in"
    try "$command: a whole line, as long as an input may be" 2 'refused line 1 bad-word' "$command"
    head -c "$limit" /dev/zero | tr '\0' '\n' > "$work/in"
    try "$command: as many empty lines as an input may have" 2 'refused line 1 bad-word' "$command"
    : > "$work/in"
    try "$command: an input of no byte" 2 'refused line 1 unended' "$command"
done

# A script of waits: `cancel` has 7 bytes a line and `ack` 4, so that with `stop` any length is had.
printf "$job" > "$work/job"
rest=$((limit - $(wc -c < "$work/job") - 5))
acks=$((rest % 7 * 2))
cancels=$(((rest - 4 * acks) / 7))
{ cat "$work/job"; lines "$acks" ack; lines "$cancels" cancel; echo stop; } > "$work/in"
[ "$(wc -c < "$work/in")" -eq "$limit" ] || { echo "the longest input has another length"; exit 1; }
"$program" replay < "$work/in" > "$work/long" 2> "$work/err"
status=$?
{ grep -c '^ack wait nothing-there$' "$work/long"; grep -c '^cancel wait not-now$' "$work/long"; wc -l < "$work/long"; } > "$work/out"
compare 'replay: as many bytes as an input may have' 0 "$(printf '%s\n' "$acks" "$cancels" $((acks + cancels + 12)))"
echo >> "$work/in"
try 'replay: one byte more' 2 'refused line 0 limit 1' replay

{ lines 65536 'restart a'; echo stop; } > "$work/in"
"$program" handover < "$work/in" > "$work/long" 2> "$work/err"
status=$?
{ grep -c '^restart a done$' "$work/long"; tail -n 2 "$work/long"; } > "$work/out"
compare 'handover: as many lines as a script may have' 0 "$(printf '65536\na owner 0 0\nb idle 0 0\n')"
{ lines 65537 'restart a'; echo stop; } > "$work/in"
try 'handover: one line more' 2 'refused line 65537 limit 19' handover

printf "${job}stop\n" > "$work/in"
refused='refused words'
try 'a word that is no UTF-8' 1 "$refused" "$(printf '\377')"
try 'a second word that is no UTF-8' 1 "$refused" replay "$(printf 'a\200')"
try 'no word' 1 "$refused"
try 'an empty word' 1 "$refused" ''

nothing() { : > "$work/out"; }
nothing; "$program" replay <&- > "$work/out" 2> "$work/err"; status=$?
compare 'no input' 3 ''
"$program" replay < "$work" > "$work/out" 2> "$work/err"; status=$?
compare 'a folder as the input' 3 ''
nothing; "$program" replay < "$work/in" >&- 2> "$work/err"; status=$?
compare 'no output' 4 ''
nothing; "$program" replay <&- >&- 2> "$work/err"; status=$?
compare 'neither' 3 ''
nothing; "$program" gen 7 >&- 2> "$work/err"; status=$?
compare 'gen: no output' 4 ''
nothing; "$program" drive 7 >&- 2> "$work/err"; status=$?
compare 'drive: no output' 4 ''
nothing; "$program" >&- 2> "$work/err"; status=$?
compare 'a refusal: no output' 4 ''
nothing; "$program" gen 7 > /dev/full 2> "$work/err"; status=$?
compare 'a full device' 4 ''
"$program" gen 7 > "$work/wanted" 2> "$work/err"
"$program" gen 7 > "$work/out" 2>&-; status=$?
compare 'no error output' 0 "$(cat "$work/wanted")"
# The reader ends before the second of many writes.
nothing; { "$program" run < "$work/wanted"; echo $? > "$work/status"; } 2> "$work/err" | head -c 1 > /dev/null; status=$(cat "$work/status")
compare 'a pipe whose reader ends' 4 ''

echo "$tried tried, $wrong answered otherwise"
[ "$wrong" -eq 0 ]
