#!/usr/bin/env bash
# Proves and builds what programs outside the crates need, over what is proved already: a program into target/bin, and the core's static
# library, the archive of the crate finish_c, into target/staticlib under the name that hosts link.
#
#   build.sh NAME..   NAME is replay, tree or libfinish.a
set -euo pipefail
cd "$(dirname "$0")/.."

log=$(mktemp)
trap 'rm -f "$log"' EXIT

# proved COMMAND..: runs it on no input; what it says is shown only where it fails.
proved() {
    "$@" </dev/null >"$log" 2>&1 || { cat "$log" >&2; exit 1; }
}

mkdir -p target/bin target/staticlib
for name in "$@"; do
    case $name in
    libfinish.a)
        (cd crates/finish_c && proved rt lib)
        cp crates/finish_c/out/libfinish_c.a target/staticlib/libfinish.a
        ;;
    *)
        (cd "crates/$name" && proved rt run)
        cp "crates/$name/out/$name" "target/bin/$name"
        ;;
    esac
done
