#!/usr/bin/env bash
# The comparison for as long as it is told, from a seed of its own or SEED: soak.sh LIB, with SECONDS_TO_RUN (600).
set -euo pipefail
cd "$(dirname "$0")/.."

lib=${1:?"soak.sh LIB: the core's libfinish.a"}
read -ra run <<<"${RUN:-}"
tests/compare/build.sh comparer target/c/comparer.o
tests/compare/build.sh link target/c/comparer.o "$lib" target/c/compare
"${run[@]}" target/c/compare --seed "${SEED:-$(date +%s)}" --seconds "${SECONDS_TO_RUN:-600}"
