#!/bin/sh
# roaring.sh [REPEATS [MILLISECONDS [WORDS]]]: builds the library for C, and prints a table of streams read and written beside CRoaring, in one process and compiled alike.
# REPEATS, MILLISECONDS, WORDS: as of run.sh. RESULTS=1: also puts what it prints into results.txt, and makes RESULTS.md of that.
# It needs rt, cc and CRoaring (of Debian: apt-get install libroaring-dev).
set -eu
here=$(cd "$(dirname "$0")" && pwd)
. "$here/common.sh"
work=$here/out/roaring
mkdir -p "$work"
native=$here/../bindings/c
make -C "$native" all >"$work/make.log" 2>&1 || { tail -n 30 "$work/make.log" >&2; exit 1; }
version=$(printf '#include <roaring/roaring_version.h>\nROARING_VERSION\n' | cc -E -P - | tail -n 1 | tr -dc '0-9.')
cc -std=c11 -O2 -Wall -Wextra -I "$native" -o "$work/streams" "$here/driver/streams.c" "$native/out/libhibitset.a" -lroaring -lm

MALLOC_MMAP_THRESHOLD_=1000000000 MALLOC_TRIM_THRESHOLD_=10000000000 "$work/streams" "$@" >"$work/result.txt"
{
    printf '%s; %s; %s, CRoaring %s; %s; %s.\n\n' "$(date -u +%Y-%m-%d)" "$(machine)" "$(rt version)" "$version" \
        "$(commit_of "$here/..")" "${1:-9} repeats of ${2:-20} ms, load average $(cut -d' ' -f1 /proc/loadavg) at the end"
    cat "$work/result.txt"
} >"$work/results.md"
cat "$work/results.md"
[ -z "${RESULTS:-}" ] || keep roaring "$work/results.md"
