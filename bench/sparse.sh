#!/bin/sh
# sparse.sh [REPEATS [WORDS]]: prints a table of each kind of members: bytes and times of `SparseBitSet` of the Rust crate beside the dense set, CRoaring, `BTreeSet` and fixedbitset.
# RESULTS=1 puts the tables into results.txt. REPEATS: rounds that the medians are taken of (5). WORDS: the tables whose names have them, alone.
# It needs rustc and cc, and of Debian's packages libroaring-dev and librust-fixedbitset-dev where these are to be in the tables. SMALL=1 tries each row at the smallest size.
set -eu
here=$(cd "$(dirname "$0")" && pwd)
. "$here/common.sh"
work=$here/out/sparse
mkdir -p "$work"
peers "$work"
compile hibitset 2021 "$here/../rust/src/lib.rs" --cfg 'feature="std"'
roaring=
case $with_peers in *"--cfg roaring"*) roaring="-l roaring" ;; esac
cc -std=c11 -O3 -march=x86-64-v2 -Wall -Wextra ${roaring:+-DROARING} -c -o "$work/sparse.o" "$here/driver/sparse.c"
# shellcheck disable=SC2086
rustc $flags --edition 2021 --crate-name sparse -A unexpected_cfgs $with_peers -L "$work" --extern "hibitset=$work/libhibitset.rlib" \
    -C "link-arg=$work/sparse.o" $roaring -o "$work/sparse" "$here/driver/sparse.rs"

MALLOC_MMAP_THRESHOLD_=1000000000 MALLOC_TRIM_THRESHOLD_=10000000000 "$work/sparse" "$@" >"$work/result.txt"
{
    printf '%s; %s; %s; %s; %s.\n\n' "$(date -u +%Y-%m-%d)" "$(machine)" "$(rustc --version)" "$(commit_of "$here/..")" \
        "${1:-5} repeats, load average $(cut -d' ' -f1 /proc/loadavg) at the end"
    cat "$work/result.txt"
} >"$work/results.md"
cat "$work/results.md"
[ -z "${RESULTS:-}" ] || keep sparse "$work/results.md"
