#!/usr/bin/env bash
# Builds one thing each time it is called. The compiler is ${CC:-gcc}; the core's library is for x86-64 alone, so on
# another machine CC names a cross compiler.
#
#   build.sh edges PROGRAM            the second program's own tests
#   build.sh comparer OBJECT          the comparer and the second program, all but the core
#   build.sh link OBJECT CORE PROGRAM the comparer, with the core's library or what stands in for it
#   build.sh stand-in DIR OBJECT      the second program in DIR under the core's names, to try the comparer itself
#   build.sh tree DIR PROGRAM         the driver that grows trees, over the second program in DIR
#
# SANITIZE=1 builds what is compiled here with the address and undefined-behaviour sanitizers.
set -euo pipefail

here=$(cd "$(dirname "$0")" && pwd)
second=$here/../../second
cc=${CC:-gcc}
flags=(-std=c11 -O2 -Wall -Wextra -Wpedantic -Wshadow -Wconversion -Werror)
if [ "${SANITIZE:-0}" = 1 ]; then
    flags+=(-g -fsanitize=address,undefined -fno-sanitize-recover=all)
fi

comparer_sources() {
    find "$here" -name '*.c' ! -name '*_test.c' | sort
}

# The entries get the core's names and every other shared name one of its own, so that both can be linked together.
core_names() {
    grep -oh 'second_[a-z_0-9]*' "$1"/*.h | sort -u | while read -r name; do
        case $name in
        second_finish_status) echo "-D$name=finish_status" ;;
        second_step | second_begin | second_running_tasks | second_messages_in_flight | second_quiet)
            echo "-D$name=finish_${name#second_}" ;;
        *) echo "-D$name=stand_in_${name#second_}" ;;
        esac
    done
}

case ${1:-} in
edges)
    mkdir -p "$(dirname "$2")"
    "$cc" "${flags[@]}" "$here/edges_test.c" "$second"/*.c -o "$2"
    ;;
comparer)
    mkdir -p "$(dirname "$2")"
    # shellcheck disable=SC2046
    "$cc" "${flags[@]}" -r $(comparer_sources) "$second"/*.c -o "$2"
    ;;
link)
    mkdir -p "$(dirname "$4")"
    "$cc" "${flags[@]}" "$2" "$3" -o "$4"
    ;;
stand-in)
    mkdir -p "$(dirname "$3")"
    # shellcheck disable=SC2046
    "$cc" "${flags[@]}" -r $(core_names "$2") "$2"/*.c -o "$3"
    ;;
tree)
    mkdir -p "$(dirname "$3")"
    "$cc" "${flags[@]}" "$2"/tree/*.c "$2"/*.c -o "$3"
    ;;
*)
    sed -n '2,12p' "$0" >&2
    exit 2
    ;;
esac
