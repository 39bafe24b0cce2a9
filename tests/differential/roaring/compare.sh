#!/bin/sh
# compare.sh [ROUNDS]: compares hibitset_roaring with CRoaring, and with an oracle on changed streams. ROUNDS: random sets, 60 if it is not said.
# It needs rt, cc, python3 and CRoaring (of Debian: apt-get install libroaring-dev).
set -eu
here=$(cd "$(dirname "$0")" && pwd)
top=$here/../../..
work=$(mktemp -d)
trap 'rm -rf "$work"' EXIT

# A repository of the library and the program alone, with what checks of the library have kept.
mkdir -p "$work/crates/roaring_streams/src"
git -C "$work" init --quiet
cp "$top/HANDLES" "$work"
for crate in hibitset_base hibitset_atomic hibitset hibitset_roaring; do
    cp -r "$top/crates/$crate" "$work/crates"
    grep "^$crate:" "$top/crates.txt" >>"$work/crates.txt"
done
echo "roaring_streams: hibitset_roaring hibitset hibitset_base" >>"$work/crates.txt"
cp "$here/streams.rt.txt" "$work/crates/roaring_streams/src/main.rt"
program=$work/crates/roaring_streams/out/roaring_streams
(cd "$work/crates/roaring_streams" && rt run </dev/null >"$work/log" 2>&1) || { tail "$work/log" >&2; exit 1; }

for source in make_streams compare; do
    cc -O2 -Wall -o "$work/$source" "$here/$source.c" -lroaring
done
"$work/make_streams" "$work/streams" "${1:-60}"
"$program" <"$work/streams" >"$work/answers"
"$work/compare" "$work/streams.plain" "$work/answers"
python3 "$here/mutate.py" "$work/streams" "$work/mutants"
"$program" <"$work/mutants" >"$work/answers"
python3 "$here/verdict.py" "$work/mutants" "$work/answers"
