#!/bin/sh
# compare.sh OTHER [REPEATS [MILLISECONDS [WORDS]]]: the rows of run.sh over the library as it is and over another of it, in one process: the
# column `original` is then the other's. OTHER: a checkout of another commit, whose library is built alike, or a static library that was. A row
# whose kernel it lacks has ours twice; peers are left out. NOW: the same for this one. REPEATS, MILLISECONDS and WORDS: as of run.sh. PLACE: by
# how many times 64 bytes all code is moved on, since where a loop lies can decide its row: a form is better if it is so at several places.
set -eu
here=$(cd "$(dirname "$0")" && pwd)
[ $# -ge 1 ] || { echo "usage: compare.sh OTHER [REPEATS [MILLISECONDS [WORDS]]]" >&2; exit 64; }
other=$1
shift
# Where a loop falls is not to decide between two forms.
PADDED=${PADDED-1}
. "$here/common.sh"
work=$here/out/beside
rm -rf "$work"
mkdir -p "$work"
now=$(library "${NOW:-$here/..}" "$work/now")
other=$(library "$other" "$work/other")
nm --defined-only "$other" | awk 'NF == 3 && $2 ~ /[A-Z]/ { print $3 }' | sort -u >"$work/symbols"
sed 's/.*/& before_&/' "$work/symbols" >"$work/renamed"
placed "$now" "$work/libhibitset_bench.a"
placed "$other" "$work/libbefore_bench.a" --redefine-syms="$work/renamed"

cp "$here"/driver/*.rs "$work"
# The other's kernels, by the names of ours.
awk -v symbols="$work/symbols" '
    BEGIN { while ((getline line < symbols) > 0) has[line] = 1 }
    / = hibitset_bench_/ {
        name = $1
        symbol = $3
        sub(/,$/, "", symbol)
        if (!(symbol in has)) { lacking = lacking "pub use crate::ours::" name ";\n"; next }
        sub(/hibitset_bench_/, "before_hibitset_bench_")
    }
    { print }
    END { printf "%spub use self::column_join as column_join_by_one_mask;\n", lacking }
' "$here/driver/ours.rs" >"$work/original.rs"
text=
[ -z "${PLACE:-}" ] || text="-C link-arg=-Wl,-Ttext=$(printf '0x%x' $((0x100000 + 64 * PLACE)))"
# The flags are words.
# shellcheck disable=SC2086
program "$work" "$work/main.rs" $text --cfg beside -l static=before_bench
MALLOC_MMAP_THRESHOLD_=1000000000 MALLOC_TRIM_THRESHOLD_=10000000000 "$work/bench" "$@"
