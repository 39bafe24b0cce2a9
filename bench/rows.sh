#!/bin/sh
# rows.sh [LIBRARY]: runs each row of run.sh and sparse.sh once, at the smallest size, to see that all contenders still give the same answers. Nothing that it prints is a time.
# LIBRARY: the static library of crates/hibitset_bench; if left out, it is proved and built. In the place of the original are the kernels of this library, so no sources of the original are needed. Peers take part where they are there.
set -eu
here=$(cd "$(dirname "$0")" && pwd)
. "$here/common.sh"
work=$here/out/rows
mkdir -p "$work"
lib=$(library "${1:-$here/..}" "$work/library")
cp "$lib" "$work/libhibitset_bench.a"
peers "$work"
derived "$work"
cp "$here"/driver/*.rs "$work"
printf 'pub use crate::ours::*;\npub use crate::ours::column_join as column_join_by_one_mask;\n' >"$work/original.rs"
# The flags are words.
# shellcheck disable=SC2086
program "$work" "$work/main.rs" --cfg smallest ${with_peers:-} $with_derived
MALLOC_MMAP_THRESHOLD_=1000000000 MALLOC_TRIM_THRESHOLD_=10000000000 "$work/bench" 1 0 >"$work/result.txt" 2>"$work/log.txt" || { tail -n 5 "$work/log.txt" >&2; exit 1; }
printf 'rows.sh: %s rows, each with the same answers by all contenders\n' "$(grep -c '^|' "$work/log.txt")"
SMALL=1 sh "$here/sparse.sh" 1 >"$work/sparse.txt" 2>"$work/sparse.log" || { tail -n 5 "$work/sparse.log" >&2; exit 1; }
printf 'rows.sh: %s kinds of members of sparse sets, each with the same answers by all sets\n' "$(grep -c '^[*][*]' "$work/sparse.txt")"
