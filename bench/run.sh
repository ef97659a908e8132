#!/usr/bin/env bash
# Builds and runs the benchmark: nanoseconds a step of the core and of the second program, on the same schedules.
#
#   run.sh [LIB [OPTION..]]   LIB is the core's libfinish.a (target/staticlib/libfinish.a); OPTION: see bench.c
#
# LIB may be set in the environment instead. CC is the compiler, and RUN what runs x86-64 programs on another machine:
# the output says then that the times are no measure.
set -euo pipefail

here=$(cd "$(dirname "$0")" && pwd)
out=$here/../target/bench
lib=${1:-${LIB:-$here/../target/staticlib/libfinish.a}}
read -ra run <<<"${RUN:-}"
flags=(-std=c11 -O2 -Wall -Wextra -Wpedantic -Wshadow -Wconversion -Werror)
options=("${@:2}")
if [ "${#run[@]}" != 0 ]; then
    options+=(--emulated)
fi

mkdir -p "$out"
"${CC:-gcc}" "${flags[@]}" "$here"/*.c "$here/../tests/compare/picks.c" "$here/../second"/*.c "$lib" -o "$out/bench"
"${run[@]}" "$out/bench" "${options[@]}"
