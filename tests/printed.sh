#!/usr/bin/env bash
# The printed run beyond case A: no input, an incomplete last record, the edges of the program's reads, and a million records.
set -euo pipefail
cd "$(dirname "$0")/.."

read -ra run <<<"${RUN:-}"
replay=("${run[@]}" target/bin/replay)
case_a=crates/replay/stdin

# ends LINES LAST: standard input is passed on; how many lines there are, and the last two of them.
ends() {
    local out
    out=$("${replay[@]}")
    if [ "$(wc -l <<<"$out")" != "$1" ] || [ "$(tail -n 2 <<<"$out")" != "$2" ]; then
        echo "printed: expected $1 lines that end in" "$2" "got $(wc -l <<<"$out") lines that end in" "$(tail -n 2 <<<"$out")" >&2
        exit 1
    fi
}

# records N: case A again and again, N records of it.
records() {
    yes "$case_a" | xargs cat 2>/dev/null | head -c "$((4 * $1))"
}

ends 1 'end 0 0 0' </dev/null
ends 2 $'1 short\nend 0 0 0' < <(head -c 3 "$case_a")
ends 14 $'13 short\nend 0 4 0' < <(cat "$case_a"; head -c 2 "$case_a")
ends 1025 $'1024 4 0\nend 0 1 1' < <(records 1024)
ends 1026 $'1025 4 0\nend 0 1 1' < <(records 1025)
ends 1000001 $'1000000 4 0\nend 0 1 1' < <(records 1000000)
echo "printed: all as it must be"
