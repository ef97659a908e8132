#!/usr/bin/env bash
# Tries the rack's host, from nothing: plays the schedules here and compares with the stored outputs, then its usage,
# its input errors and the core's faults; all of it once more under sanitizers (the library itself is not sanitized).
#
#   test.sh [LIB]   LIB is the core's libfinish.a (target/staticlib/libfinish.a)
#
# CC is the compiler and RUN what runs its programs, where they are not of this machine; SANITIZERS=0 where a sanitizer
# cannot run.
set -euo pipefail

here=$(cd "$(dirname "$0")" && pwd)
out=$here/../target/host
lib=${1:-${LIB:-$here/../target/staticlib/libfinish.a}}
read -ra run <<<"${RUN:-}"
rack=
failed=0
tried=0

fail() {
    echo "host: $*" >&2
    failed=$((failed + 1))
}

# schedule NAME [RECORDS]: the binary of a hex file, or its first records.
schedule() {
    grep -v '^#' "$here/$1.hex" | xxd -r -p | head -c "$((4 * ${2:-100000}))"
}

# same NAME: what is in $out/NAME.out is what is stored, and fits the bench's screen.
same() {
    tried=$((tried + 1))
    diff -u "$here/$1.expected" "$out/$1.out" || fail "$1: not the stored output"
    awk 'length > 78 { exit 1 }' "$out/$1.out" || fail "$1: a line of more than 78 columns"
}

# ends STATUS WORDS ARGUMENT..: standard input is passed on; WORDS must be in what is said on standard error.
ends() {
    local wanted=$1 words=$2 status=0
    shift 2
    tried=$((tried + 1))
    "${run[@]}" "$rack" "$@" >"$out/stdout" 2>"$out/stderr" || status=$?
    [ "$status" = "$wanted" ] || fail "$*: status $status, not $wanted"
    [[ $(<"$out/stderr") == *"$words"* ]] || fail "$*: does not say '$words'"
}

play_all() {
    schedule case-a >"$out/case-a.bin"
    "${run[@]}" "$rack" "$out/case-a.bin" >"$out/case-a.out"
    same case-a
    # The tables after the kill, in the midst of the repair, and at the end.
    for records in 19 33 1000; do
        schedule loss "$records" | "${run[@]}" "$rack" -q -p 4
    done >"$out/loss.out"
    same loss
    schedule limits | "${run[@]}" "$rack" -q >"$out/limits.out"
    same limits
}

misuse_all() {
    ends 2 'usage: rack' -x
    ends 2 'usage: rack' -p
    ends 2 'usage: rack' -p 3x
    ends 2 'usage: rack' -p 4294967298
    ends 2 'usage: rack' one two
    ends 2 'refused 2, begin outside 2 to 8' -p 9 </dev/null
    ends 2 'refused 2, begin outside 2 to 8' -p 258 </dev/null
    ends 0 '' </dev/null
    ends 1 'No such file' "$out/none.bin"
    ends 1 'record 1 cannot be read' "$out"
    ends 1 'record 2 is short: 3 of 4 bytes' < <(printf '\001\001\001\000\004\000\000')
    grep -q '^messages in flight: 1$' "$out/stdout" || fail 'short record: the session is not shown'
}

# A stand-in gives what the core never does.
fault_all() {
    local answer
    for answer in 7 8 9; do
        "${CC:-gcc}" -std=c11 -O2 -DANSWER="$answer" -c "$here/fault_core.c" -o "$out/fault_core.o"
        "$here/build.sh" "$out/fault_core.o" "$out/rack_fault"
        rack=$out/rack_fault
        ends 3 "step 1: refused $answer" < <(schedule case-a)
        ends 3 'a fault of this host, or damaged tables: stopped' < <(schedule case-a)
        ends 3 'the tables are not read' </dev/null
    done
}

# test_all NAME: builds it and tries everything.
test_all() {
    rack=$out/$1
    "$here/build.sh" "$lib" "$rack"
    play_all
    misuse_all
    fault_all
}

mkdir -p "$out"
test_all rack
if [ "${SANITIZERS:-1}" != 0 ]; then
    export SANITIZE=1
    test_all rack_sanitized
fi
[ "$failed" = 0 ] || { echo "host: $failed failed" >&2; exit 1; }
echo "host: all $tried tests passed"
