#!/usr/bin/env bash
# The whole gate: everything proved, then what is run: the printed run, the trees, the comparison with the second
# program, the planted differences, the host. The last line is rt ci's own, 'N passed, 0 failed', and it is printed only if everything passed.
set -euo pipefail
cd "$(dirname "$0")/.."

command -v rt >/dev/null || { echo "gate: the Rattle toolchain (rt) is not on the PATH" >&2; exit 2; }

log=$(mktemp)
trap 'rm -f "$log"' EXIT

rt ci >"$log" 2>&1 || { cat "$log" >&2; exit 1; }
# An edit that cannot be applied or read says nothing, and rt ci passes over it.
if grep -q '^rt: ok.*, [0-9]* bad' "$log"; then
    cat "$log" >&2
    echo "gate: a must-fail edit is bad" >&2
    exit 1
fi
sed '$d' "$log"

. tests/machine.sh
tests/build.sh replay tree libfinish.a
tests/printed.sh
tests/tree.sh
tests/tree/planted.sh
lib=target/staticlib/libfinish.a
tests/compare/check.sh "$lib"
tests/compare/planted.sh
host/test.sh "$lib"
tail -n 1 "$log"
