#!/bin/sh
# bindings.sh [--proved]: C, C++ and Python programs over the proved library: the tests of bindings/c under sanitizers, programs over what is installed, and python.sh. What a machine has no compiler for is left out, and said.
# --proved: `rt ci` has just proved all crates, so the library is built over them.
set -eu
top=$(cd "$(dirname "$0")/.." && pwd)
if [ "${1:-}" = --proved ]; then
    export LIB="$top/tests/over_proofs.py"
fi

has() { # WHAT COMMAND..: whether all commands are there; else says what is left out
    what=$1
    shift
    for command in "$@"; do
        command -v "$command" >/dev/null || { echo "bindings.sh: no $command: $what is left out"; return 1; }
    done
}

if has "everything" make ld objcopy cc python3; then
    make -C "$top/bindings/c" all
    if has "the test of C" c++ readelf; then make -C "$top/bindings/c" test; fi
    if has "the test of what is installed" c++ pkg-config readelf; then "$top/tests/installed.sh"; fi
    "$top/tests/python.sh"
fi
