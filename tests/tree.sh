#!/usr/bin/env bash
# The driver of request #101, the core's beside the second program's own: stored outputs, every shape of tree with kills spread
# over its run, and input that is refused or just is not. Both must print the same and end with status 0.
#
# TREE is the program tried (target/bin/tree), CC the compiler, RUN what runs the programs where they are not of this machine.
set -euo pipefail
cd "$(dirname "$0")/.."

read -ra run <<<"${RUN:-}"
tree=${TREE:-target/bin/tree}
second=target/c/second_tree
out=target/c/tree

fail() {
    touch "$out/failed"
    echo "tree: $*" >&2
    exit 1
}

# agree WHAT FOUND WANTED: the two files are the same, or the first line that differs is said.
agree() {
    cmp -s "$2" "$3" || fail "$1: $(paste -d'|' "$2" "$3" |
        awk -F'|' '$1 != $2 && !n { n = NR; print "line " n " is \"" $1 "\", not \"" $2 "\"" } END { if (!n) print "the last newline" }')"
}

# both WHAT DIR: both programs on the file DIR/in; what they print is left in DIR/tree and DIR/second.
both() {
    timeout 20 "${run[@]}" "$tree" <"$2/in" >"$2/tree" || fail "$1: $tree ended with status $?"
    timeout 20 "${run[@]}" "$second" <"$2/in" >"$2/second" || fail "$1: $second ended with status $?"
    agree "$1" "$2/tree" "$2/second"
}

# stored LINE FILE: the line's output is the file's; and its steps are a schedule that the replay program takes whole, up to
# finish 1 released and nothing in flight.
stored() {
    local replayed
    echo "$1" >"$out/in"
    both "$1" "$out"
    agree "$1, stored" "$out/tree" "$2"
    replayed=$(printf '%b' "$(awk 'NF == 5 { printf "\\x%02x\\x%02x\\x%02x\\x%02x", $1, $2, $3, $4 }' "$2")" | "${run[@]}" target/bin/replay)
    if grep -qv ' 0$' <<<"$replayed" || [ "$(tail -n 1 <<<"$replayed")" != 'end 0 4 0' ]; then
        fail "$1, replayed: $(grep -v ' 0$' <<<"$replayed" | head -n 1) .. $(tail -n 1 <<<"$replayed")"
    fi
}

# plans: every levels, width and places without a kill, then with kills: while the first spawn is published, over one whole
# spawn in the middle, near the end, after the last step (taken still) and past it (never). The victims take turns among the
# places that the tree reaches; the last place, which most trees do not reach, and place 0 have a line each.
plans() {
    local levels width places steps reached at turn
    for levels in 1 2 3 4 5; do
        for width in 1 2 3 4; do
            steps=$("${run[@]}" "$second" <<<"$levels $width 2 0 0" | awk '/^end/ { print $2 }')
            for places in 2 3 4 5 6 7 8; do
                echo "$levels $width $places 0 0"
                [ -n "$steps" ] || continue
                echo "$levels $width $places 0 1"
                echo "$levels $width $places $((places - 1)) $((steps / 2))"
                reached=$((levels < places ? levels - 1 : places - 1))
                turn=$places
                for at in 1 3 5 6 $((steps / 4)) $((steps / 2)) $((steps / 2 + 1)) $((steps / 2 + 2)) $((steps / 2 + 3)) \
                    $((steps * 3 / 4)) $((steps - 2)) $((steps - 1)) "$steps" $((steps + 1)); do
                    echo "$levels $width $places $((1 + turn % (reached > 0 ? reached : 1))) $at"
                    turn=$((turn + 1))
                done
            done
        done
    done | LC_ALL=C sort -u
}

# compared PART: both programs on each line of the file; what the second one prints is kept in PART.all.
compared() {
    local line
    mkdir "$1.d"
    while [ ! -e "$out/failed" ] && read -r line; do
        echo "$line" >"$1.d/in"
        both "$line" "$1.d"
        cat "$1.d/second"
    done <"$1" >"$1.all"
}

# says WHAT LAST: both programs on $out/in; the last line is LAST, and the only one where that is 'refused'.
says() {
    both "$1" "$out"
    if [ "$(tail -n 1 "$out/tree")" != "$2" ] || { [ "$2" = refused ] && [ "$(wc -l <"$out/tree")" != 1 ]; }; then
        fail "$1: the last of $(wc -l <"$out/tree") lines is \"$(tail -n 1 "$out/tree")\", not \"$2\""
    fi
    told=$((told + 1))
}

# filler N BYTE: as many of the bytes.
filler() {
    head -c "$1" /dev/zero | tr '\0' "$2"
}

rm -rf "$out"
mkdir -p "$out"
[ -x "$tree" ] || fail "there is no program $tree"
tests/compare/build.sh tree second "$second"

stored '3 2 3 0 0' tests/tree/no-kill.txt
stored '3 2 3 1 20' tests/tree/kill.txt

told=0
while IFS='|' read -r last input; do
    case $last in '' | '#'*) continue ;; esac
    printf '%b' "$input" >"$out/in"
    says "$input" "$last"
done <tests/tree/lines.txt
for n in 1 2 5 7 15 16 54 55 63 64 255 256 1023 1024 4095 4096 5000 65535 65536 1000000; do
    for byte in ' ' 1 '\0'; do
        { filler $n "$byte"; printf '1 1 2 0 0\n'; } >"$out/in"
        says "$n of '$byte', then a plan" refused
        { printf '1 1 2 0 0'; filler $n "$byte"; } >"$out/in"
        says "a plan, then $n of '$byte'" refused
        { printf '1 1 2 0 0\n'; filler $n "$byte"; } >"$out/in"
        says "a plan's line, then $n of '$byte'" 'end 2 0 2'
    done
done
for program in "$tree" "$second"; do
    { printf '3 2 '; sleep 0.2; printf '3 1 2'; sleep 0.2; printf '0\n'; } | "${run[@]}" "$program" >"$out/pieces"
    agree "$program, the line in pieces" "$out/pieces" tests/tree/kill.txt
done

plans >"$out/plans"
split -n "r/$(nproc)" "$out/plans" "$out/part."
parts=()
for part in "$out"/part.*; do
    compared "$part" &
    parts+=($!)
done
for part in "${parts[@]}"; do
    wait "$part" || touch "$out/failed"
done
[ ! -e "$out/failed" ] || exit 1
cat "$out"/part.*.all | awk -v told=$told '{ n[$1]++ } END {
    print "tree: 2 stored outputs, " told " lines and inputs, " n["end"] + n["refused"] " runs (" n["refused"] " refused): " \
        NR - n["end"] - n["refused"] " steps, " n[5] " kills, " n[6] " adopts, " n[7] " cancels, " n[8] " asks; all the same" }'
