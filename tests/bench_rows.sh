#!/bin/sh
# bench_rows.sh [--proved]: each row of the benchmark runs once, at the smallest size, and all contenders give the same answers.
# --proved: `rt ci` has just proved all crates, so the library is built over them.
set -eu
top=$(cd "$(dirname "$0")/.." && pwd)
for command in rustc objcopy; do
    command -v "$command" >/dev/null || { echo "bench_rows.sh: no $command: the rows are left out"; exit 0; }
done
if [ "${1:-}" = --proved ]; then
    crate=$top/crates/hibitset_bench
    log=$crate/out/library.log
    mkdir -p "$crate/out"
    (cd "$crate" && "$top/tests/over_proofs.py") >"$log" 2>&1 || { tail -n 60 "$log" >&2; exit 1; }
    exec sh "$top/bench/rows.sh" "$crate/out/libhibitset_bench.a"
fi
exec sh "$top/bench/rows.sh"
