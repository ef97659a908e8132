#!/usr/bin/env bash
# The comparison, from nothing: builds into target/c and runs the second program's own tests, then the core against
# the second program, then a shorter comparison under sanitizers.
#
#   check.sh LIB          LIB is the core's libfinish.a
#   check.sh --stand-in   the second program in the core's stead: tries the comparer, says nothing of the core
#
# CC is the compiler and RUN what runs its programs, where they are not of this machine. RECORDS is how many records
# are compared, SANITIZED_RECORDS how many under sanitizers (0: none, where a sanitizer cannot run).
set -euo pipefail

here=$(cd "$(dirname "$0")" && pwd)
out=$here/../../target/c
lib=${1:?"check.sh LIB, or check.sh --stand-in"}
records=${RECORDS:-1000000}
sanitized_records=${SANITIZED_RECORDS:-100000}
read -ra run <<<"${RUN:-}"

if [ "$lib" = --stand-in ]; then
    lib=$out/stand_in.o
    "$here/build.sh" stand-in "$here/../../second" "$lib"
fi

"$here/build.sh" edges "$out/edges_test"
"${run[@]}" "$out/edges_test"
"$here/build.sh" comparer "$out/comparer.o"
"$here/build.sh" link "$out/comparer.o" "$lib" "$out/compare"
"${run[@]}" "$out/compare" --records "$records"

if [ "$sanitized_records" != 0 ]; then
    SANITIZE=1 "$here/build.sh" edges "$out/edges_test_sanitized"
    "${run[@]}" "$out/edges_test_sanitized"
    SANITIZE=1 "$here/build.sh" comparer "$out/comparer_sanitized.o"
    SANITIZE=1 "$here/build.sh" link "$out/comparer_sanitized.o" "$lib" "$out/compare_sanitized"
    "${run[@]}" "$out/compare_sanitized" --short --seed 2 --records "$sanitized_records" | tail -n 1
fi
