#!/bin/sh
# Refuses memory to the built program: each of its calls for memory in turn, and then all from each one on, for each of some loads. It must
# end with status 5 or with its whole output, and what it wrote before must be a front of that; of `run`, whose output differs from run to
# run, whole lines of events, or all that is beside its input in examples/. Prints what was tried, and each answer that is none of these;
# the status is 1 where there is one. Where a load has more calls than --max (2,000), that many are tried, spread evenly. Needs a C compiler.
root=$(cd "$(dirname "$0")/.." && pwd)
program=${XVM:-$root/crates/xvm/out/xvm}
most=2000
[ "$1" != --max ] || most=$2
work=$(mktemp -d)
trap 'rm -rf "$work"' EXIT
trap 'exit 130' HUP INT TERM
[ -x "$program" ] || { echo "no program is at $program: ./xvm builds it" >&2; exit 1; }
cat > "$work/refuse.c" <<'C'
// Counts the calls for memory that the program itself makes, and refuses those from REFUSE_FROM to REFUSE_TO. Tells on descriptor 9 of the
// first that is refused.
#define _GNU_SOURCE
#include <link.h>
#include <stdatomic.h>
#include <stdlib.h>
#include <sys/auxv.h>
#include <unistd.h>

extern void *__libc_malloc(size_t);
extern void *__libc_realloc(void *, size_t);

static char *code, *code_end;
static unsigned long from, to;
static atomic_ulong calls;

__attribute__((constructor)) static void look(void) {
    ElfW(Phdr) *headers = (void *)getauxval(AT_PHDR);
    char *base = 0;
    for (unsigned long i = 0; i < getauxval(AT_PHNUM); i++) {
        if (headers[i].p_type == PT_PHDR) base = (char *)headers - headers[i].p_vaddr;
        if (headers[i].p_type == PT_LOAD && headers[i].p_flags & PF_X) {
            code = base + headers[i].p_vaddr;
            code_end = code + headers[i].p_memsz;
        }
    }
    from = strtoul(getenv("REFUSE_FROM"), 0, 10);
    to = strtoul(getenv("REFUSE_TO"), 0, 10);
}

static int is_refused(char *caller) {
    if (caller < code || caller >= code_end) return 0;
    unsigned long call = atomic_fetch_add(&calls, 1) + 1;
    if (call == from && write(9, "x", 1) != 1) _exit(99);
    return call >= from && call <= to;
}

void *malloc(size_t size) {
    return is_refused(__builtin_return_address(0)) ? 0 : __libc_malloc(size);
}

void *realloc(void *old, size_t size) {
    return is_refused(__builtin_return_address(0)) ? 0 : __libc_realloc(old, size);
}
C
cc -shared -fPIC -O1 -o "$work/refuse.so" "$work/refuse.c" || exit 1
wrong=0
tried=0

# One run of the load, in which the calls from $1 to $2 are refused; says whether there was such a call.
refuse() {
    : > "$work/met"
    REFUSE_FROM=$1 REFUSE_TO=$2 LD_PRELOAD=$work/refuse.so timeout 60 "$program" $words < "$input" > "$work/out" 2> "$work/err" 9> "$work/met"
    status=$?
    [ -s "$work/met" ]
}
is_front() { cmp -s -n "$(wc -c < "$work/out")" "$work/out" "$work/whole"; }
are_events() { ! head -n -1 "$work/out" | grep -qvE '^(guest|begin|read|advance|release|round|page|send|deliver|apply|ack|credit|stun|switch|cancel)( |$)'; }
has_report() { ! grep -qvxFf "$work/out" "$report"; }
is_right() {
    case $status:$report in
        "$whole_status": | 5:) is_front && { [ "$status" = 5 ] || cmp -s "$work/out" "$work/whole"; } ;;
        5:*) [ ! -s "$work/out" ] || are_events ;;
        "$whole_status":*) has_report ;;
        *) false ;;
    esac
}
judge() {
    tried=$((tried + 1))
    [ "$status" -ne 5 ] || fives=$((fives + 1))
    is_right || { echo "$name, call $1$2: status $status, $(wc -c < "$work/out") bytes"; wrong=$((wrong + 1)); }
}
# How many calls for memory the load makes: the least number that none has.
count_calls() {
    low=1 high=1
    while refuse "$high" 0; do low=$high high=$((high * 2)); done
    while [ $((high - low)) -gt 1 ]; do
        middle=$(((low + high) / 2))
        if refuse "$middle" 0; then low=$middle; else high=$middle; fi
    done
    echo $((high - 1))
}
# A load: its name, its input, the lines that are in the output of every run, where they are not all of it, and the words.
load() {
    name=$1 input=$2 report=$3
    shift 3
    words=$*
    fives=0 before=$tried
    refuse 0 0
    whole_status=$status
    cp "$work/out" "$work/whole"
    calls=$(count_calls)
    step=$(((calls + most - 1) / most))
    [ "$step" -ge 1 ] || step=1
    call=1
    while [ "$call" -le "$calls" ]; do
        refuse "$call" "$call" && judge "$call" ''
        refuse "$call" 4000000000 && judge "$call" ' and all later'
        call=$((call + step))
    done
    echo "$name: $calls calls for memory, $((tried - before)) runs, $fives with status 5"
}
load 'replay of first-path' "$root/examples/first-path.in" '' replay
load 'replay of after-the-switch' "$root/examples/after-the-switch.in" '' replay
load 'replay --json of empty-script-json' "$root/examples/empty-script-json.in" '' replay --json
load 'handover of handover-repeats' "$root/examples/handover-repeats.in" '' handover
load 'run of run-two-guests' "$root/examples/run-two-guests.in" "$root/examples/run-two-guests.report" run
load 'gen 7' /dev/null '' gen 7
load 'drive 7' /dev/null '' drive 7
echo "$tried runs, $wrong answered otherwise"
[ "$wrong" -eq 0 ]
