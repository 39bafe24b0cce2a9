#!/usr/bin/env bash
# test.sh [--anew] [PART [WORD..]]: passes all tests of this repository, or one part of them.
#   docs [--write]              pages, files, mutants and derived files agree, and the scripts pass their tests; --write makes anew what is generated
#   proofs [CRATE..]            rt ci: proofs from nothing, must-fail edits, tests, programs
#   mutants contract [--gate|CRATE [FUNCTION]]  the prover refuses the mutants of tests/mutants/contract; --gate: those marked single
#   mutants tests [--gate|PATCH]  tests kill the mutants of tests/mutants/tests; --gate: those that the gate tries
#   mutants unseen [--gate|PIECE [WORD]]  tests kill the mutants of tests/mutants/unseen, of code that no prover sees; --gate: those marked gate
#   allocation                  each allocation of each call fails in turn, in what proofs has built
#   differential [PROGRAM]      the program gives the stored answers; without PROGRAM it is proved and built first
#   bindings                    C, C++ and Python programs over the library pass their tests, also where it is installed
#   bench                       each row of the benchmark runs once, at the smallest size
#   rust                        the Cargo crate of rust/: its derivation, its tests, derived tests, scripts, lints, package
#   calls [CRATE] [NAME]        prints the public calls with their signatures, or those of a name with their docs and contracts
#   guide [--make FOLDER]       the repository that docs/GUIDE.md prints passes; --make makes it alone
# Without PART: docs, proofs beside mutants tests --gate, mutants contract --gate, allocation, differential, bindings and bench beside rust, mutants unseen --gate. It stops at the first part that fails.
# --anew: rt ci proves and tries all, whatever it has kept on this machine.
set -euo pipefail
top=$(cd "$(dirname "$0")" && pwd)
parts=10
beside=
lowest=
anew=

usage() {
    sed -n '2,/^set /{/^#/s/^# \{0,1\}//p}' "$top/test.sh" >&2
    exit 64
}

say_toolchain() { # says so where the toolchain is none that .ci/kit names
    local found name
    found=$(rt version 2>/dev/null) || found="none: rt is not in PATH"
    ! grep -qxF -- "$found" "$top/.ci/kit" || return 0
    name="name and logic differ"
    ! grep -q -- " ${found#* }\$" "$top/.ci/kit" || name="the name differs, the logic does not"
    echo "test.sh: the toolchain is $found; .ci/kit has these, and $name:"
    sed 's/^/test.sh:   /' "$top/.ci/kit"
}

prove_lowest() { # hibitset_base, for which all other crates wait: rt gives a proof several processors only where RT_JOBS is not set
    local rt
    echo "test.sh: hibitset_base is proved first"
    set -m
    (cd "$top" && TMPDIR=$scratch exec rt ci hibitset_base) </dev/null >"$scratch/lowest" 2>&1 &
    rt=$!
    lowest=$rt
    set +m
    # Once it is proved it is kept, and its must-fail edits are tried beside other proofs.
    until grep -qE '^rt: hibitset_base (proved|NOT PROVED|is kept)' "$scratch/lowest" || ! kill -0 "$rt" 2>/dev/null; do
        sleep 1
    done
    kill -- -"$rt" 2>/dev/null || true
    wait "$rt" 2>/dev/null || true
    lowest=
}

docs() { # [--write]: the unit tests of the scripts, and what they check
    (cd "$top/tests" && python3 -m unittest discover --quiet --start-directory unit --top-level-directory .) || return
    "$top/tests/docs.py" "$@"
}

proofs() { # [CRATE..]: rt ci
    if [ $# -gt 0 ]; then
        (cd "$top" && rt ci $anew "$@")
        return
    fi
    [ -n "$anew" ] || prove_lowest
    # A check a processor: rt reckons with 9 GB for hibitset_base, which takes 2, and would leave a processor idle.
    (cd "$top" && RT_JOBS=${RT_JOBS:-$(nproc)} rt ci $anew)
}

run() { # PART [WORD..]: one part, by the script that does it
    case "$1 ${2:-}" in
        "docs "*) docs "${@:2}" ;;
        "proofs "*) proofs "${@:2}" ;;
        "mutants contract") "$top/tests/mutants/run_contract.py" "${@:3}" ;;
        "mutants tests") nice -n 10 "$top/tests/mutants/run_tests.sh" "${@:3}" ;; # what runs beside goes first
        "mutants unseen") nice -n 10 "$top/tests/mutants/run_unseen.py" "${@:3}" ;;
        "allocation "*) "$top/tests/allocation_failures.py" ;;
        "differential "*) sh "$top/tests/differential/replay.sh" "${@:2}" ;;
        "bindings "*) "$top/tests/bindings.sh" "${@:2}" ;;
        "bench "*) "$top/tests/bench_rows.sh" "${@:2}" ;;
        "rust "*) "$top/tests/rust.sh" ;;
        "calls "*) "$top/tests/calls.py" "${@:2}" ;;
        "guide "*) "$top/tests/guide.py" "${@:2}" ;;
        *) usage ;;
    esac
}

part() { # NUMBER PART [WORD..]: one of the parts, with what it is, which one of how many, and how long it took
    local words=${*:2} began=$SECONDS status=0
    echo "test.sh: part $1 of $parts: $words"
    run "${@:2}" || status=$?
    local took=$((SECONDS - began))
    printf 'test.sh: %s: %s after %d min %d s\n' "$words" "$([ "$status" = 0 ] && echo passed || echo FAILED)" $((took / 60)) $((took % 60))
    return "$status"
}

begin() { # NUMBER PART [WORD..]: begins a part beside those that follow
    # A process group of its own, which the trap can end whole.
    set -m
    (part "$@") </dev/null >"$scratch/beside" 2>&1 &
    beside=$!
    set +m
    echo "test.sh: part $1 of $parts, ${*:2}, runs beside the next ones"
}

end() { # waits for the part that runs beside, and prints what it said
    local status=0
    wait "$beside" || status=$?
    beside=
    cat "$scratch/beside"
    return "$status"
}

if [ "${1:-}" = --anew ]; then
    anew=--anew
    shift
fi
scratch=$(mktemp -d)
trap 'for group in $beside $lowest; do kill -- -"$group" 2>/dev/null || true; done; rm -rf "$scratch"' EXIT
trap 'exit 130' INT TERM HUP
[ "${1:-}" = docs ] || say_toolchain
if [ $# -gt 0 ]; then
    parts=1
    part 1 "$@"
    exit
fi
part 1 docs
begin 3 mutants tests --gate
part 2 proofs
end
begin 9 rust
part 4 mutants contract --gate
part 5 allocation
part 6 differential "$top/crates/hibitset_run/out/hibitset_run"
part 7 bindings --proved
part 8 bench --proved
end
part 10 mutants unseen --gate
echo "test.sh: all passed after $((SECONDS / 60)) min"
