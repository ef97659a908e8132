#!/usr/bin/env bash
# Five planted differences: each is an edit of the second program that then stands in for the core, and each must be
# found: by the comparison and, where it breaks a promise, by the invariant and demand 3 with no comparison. Says what
# found it, and after how many records. The edits are errors that document 01 lists as looking right, and their like.
set -euo pipefail

here=$(cd "$(dirname "$0")" && pwd)
second=$here/../../second
out=$here/../../target/c/planted
read -ra run <<<"${RUN:-}"
missed=0

# plant NAME FILE SED-EDIT: leaves a program in $out/NAME/compare, built with the edited file.
plant() {
    local name=$1 file=$2 edit=$3 dir=$out/$1/second
    mkdir -p "$dir"
    cp "$second"/*.c "$second"/*.h "$dir"
    sed -i "$edit" "$dir/$file"
    if cmp -s "$second/$file" "$dir/$file"; then
        echo "$name: the edit changed nothing in $file"
        exit 1
    fi
    "$here/build.sh" stand-in "$dir" "$out/$name/stand_in.o"
    "$here/build.sh" link "$out/comparer.o" "$out/$name/stand_in.o" "$out/$name/compare"
}

# find_it NAME HOW OPTION..: runs the comparer, which fails where it finds the difference.
find_it() {
    local name=$1 how=$2 log=$out/$1/log
    shift 2
    if "${run[@]}" "$out/$name/compare" --short --records 300000 "$@" >"$log"; then
        echo "$name, $how: not found"
        return 1
    fi
    echo "$name, $how: $(grep '^FAILED' "$log"); $(grep '^shrunk' "$log")"
}

# try WHO NAME FILE SED-EDIT: WHO must find it, compare alone or both compare and the promises.
try() {
    local who=$1 name=$2
    shift
    plant "$@"
    find_it "$name" compared || missed=$((missed + 1))
    if [ "$who" = both ]; then
        find_it "$name" 'promises alone' --without-compare || missed=$((missed + 1))
    fi
}

rm -rf "$out"
"$here/build.sh" comparer "$out/comparer.o"
try both dropped-count-off-by-one deliver.c 's/slot->number = m->number;/slot->number = (uint8_t)(m->number + 1);/'
# A report from a live place lowers no dead column, so a book under repair does not close on it: no promise is broken.
try compare held-report-taken words.c 's/m->tag == TRANSIT || m->tag == REPORT || m->tag == GHOST_ENDED/m->tag == TRANSIT || m->tag == GHOST_ENDED/'
try both direct-parent-recorded deliver.c 's/while (ancestor != 0 \&\&/while (false \&\&/'
try both local-book-cleared-at-release deliver.c 's/^    finish->status = RELEASED;/&\n    memset(s->local[m->finish], 0, sizeof s->local[m->finish]);/'
try both dead-report-applied words.c 's/return no_book || is_dead(s, m->from);/return no_book || (m->tag == TRANSIT \&\& is_dead(s, m->from));/'

if [ "$missed" != 0 ]; then
    echo "planted differences: $missed not found"
    exit 1
fi
echo "planted differences: 5 of 5 found"
