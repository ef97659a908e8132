#!/usr/bin/env bash
# Five wrong drivers: each is an edit of the second program's that then stands in for the core's, and tests/tree.sh must find each.
# Says what was found first.
set -euo pipefail
cd "$(dirname "$0")/../.."

out=target/c/planted_tree

# try NAME FILE SED-EDIT
try() {
    local dir=$out/$1
    mkdir -p "$dir"
    cp -r second/. "$dir"
    sed -i "$3" "$dir/tree/$2"
    if cmp -s "second/tree/$2" "$dir/tree/$2"; then
        echo "$1: the edit changed nothing in $2"
        exit 1
    fi
    tests/compare/build.sh tree "$dir" "$dir/program"
    if TREE=$dir/program tests/tree.sh >/dev/null 2>"$dir/log" || ! grep -q ' is ".*", not "' "$dir/log"; then
        echo "$1: not found; $(head -n 1 "$dir/log")"
        exit 1
    fi
    echo "$1: $(head -n 1 "$dir/log")"
}

rm -rf "$out"
try delivers-before-repairs tree.c 's/repairs(r, &s) || delivers(r)/delivers(r) || repairs(r, \&s)/'
try highest-slot tree.c 's/for (unsigned n = 0; n < SLOTS; n++)/for (unsigned n = SLOTS; n-- > 0;)/'
try two-places-on tree.c 's/\.at + 1u/.at + 2u/'
try kill-a-step-late tree.c 's/r->steps >= p->kill_step/r->steps > p->kill_step/'
try leading-zeros-taken plan.c 's/return strcmp(line, printed) == 0;/return true;/'
echo "planted drivers: 5 of 5 found"
