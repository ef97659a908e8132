#!/usr/bin/env bash
# Runs a program of crates/ on standard input; it is proved and built first where it is not yet.
#
#   play.sh PROGRAM
set -euo pipefail
cd "$(dirname "$0")/.."

program=${1:?"play.sh PROGRAM"}
. tests/machine.sh
[ -x "target/bin/$program" ] || echo "proving and building the program $program: some minutes, the first time" >&2
tests/build.sh "$program"
read -ra run <<<"$RUN"
"${run[@]}" "target/bin/$program"
