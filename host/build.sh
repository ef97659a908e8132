#!/usr/bin/env bash
# Builds the rack's host.
#
#   build.sh LIB PROGRAM   LIB is the core's libfinish.a, for x86-64: on another machine CC names a cross compiler
#
# SANITIZE=1 builds what is compiled here with the address and undefined-behaviour sanitizers.
set -euo pipefail

here=$(cd "$(dirname "$0")" && pwd)
lib=${1:?"build.sh LIB PROGRAM"}
program=${2:?"build.sh LIB PROGRAM"}
flags=(-std=c11 -O2 -Wall -Wextra -Wpedantic -Wshadow -Wconversion -Werror)
if [ "${SANITIZE:-0}" = 1 ]; then
    flags+=(-g '-fsanitize=address,undefined' -fno-sanitize-recover=all)
fi

mkdir -p "$(dirname "$program")"
"${CC:-gcc}" "${flags[@]}" "$here/rack.c" "$here/show.c" "$here/words.c" "$lib" -o "$program"
