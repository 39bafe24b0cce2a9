#!/bin/sh
# run.sh ORIGINAL [REPEATS [MILLISECONDS [WORDS]]]: builds all and prints the tables of one thread: sets, and values by index.
# ORIGINAL: the folder of the original crate (src/lib.rs, or files named as src--src--lib.rs.txt).
# REPEATS: rounds that the medians are taken of (9). MILLISECONDS: how long the work of one timing is to take (20).
# WORDS: the rows whose names have them, alone. It needs rt, rustc and objcopy, and of Debian's packages librust-fixedbitset-dev and
# librust-bit-set-dev, where they are to be in the table, under REGISTRY, and libroaring-dev.
# RESULTS=1: also puts what it prints into results.txt, in the place of its last results, and makes RESULTS.md of that.
# FLAGS: how the original, the peers and the driver are compiled. LIB: the static library, if it is not to be built, or a checkout of another commit, whose library is built.
set -eu
here=$(cd "$(dirname "$0")" && pwd)
[ $# -ge 1 ] || { echo "usage: run.sh ORIGINAL [REPEATS [MILLISECONDS [WORDS]]]" >&2; exit 64; }
original=$(cd "$1" && pwd)
shift
. "$here/common.sh"
work=$here/out
mkdir -p "$work"

lib=$(library "${LIB:-$here/..}" "$work/library")
placed "$lib" "$work/libhibitset_bench.a"

peers "$work"
driver "$original" "$work"

# Large blocks stay in the heap: else each copy of a set pays for fresh pages of the system.
MALLOC_MMAP_THRESHOLD_=1000000000 MALLOC_TRIM_THRESHOLD_=10000000000 "$work/bench" "$@" >"$work/result.txt"
commit=$(commit_of "$([ -d "${LIB:-}" ] && echo "$LIB" || echo "$here/..")")
[ ! -f "${LIB:-}" ] || commit="of a library that was built before"
{
    printf '%s; %s; %s, %s; %s; %s.\n\n' "$(date -u +%Y-%m-%d)" "$(machine)" "$(rt version)" "$(rustc --version)" "$commit" \
        "${1:-9} repeats of ${2:-20} ms, load average $(cut -d' ' -f1 /proc/loadavg) at the end"
    cat "$work/result.txt"
} >"$work/results.md"
cat "$work/results.md"
[ -z "${RESULTS:-}" ] || keep results "$work/results.md"
