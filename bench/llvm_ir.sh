#!/bin/sh
# llvm_ir.sh FOLDER: the module of the library of the benches, as LLVM gets it, goes into FOLDER/module.ll, which can be changed by hand to try a form before it is proved.
# llvm_ir.sh FOLDER TEXT LIBRARY: compiles TEXT as that module was, without jumps at borders, into the static library LIBRARY, for NOW= of compare.sh. Nothing proves it: it serves to measure alone.
set -eu
here=$(cd "$(dirname "$0")" && pwd)
. "$here/common.sh"
case $# in
    1 | 3) ;;
    *) echo "usage: llvm_ir.sh FOLDER [TEXT LIBRARY]" >&2; exit 64 ;;
esac
mkdir -p "$1"
work=$(cd "$1" && pwd)
clang=$kit/toolchain/bin/clang
if [ $# -eq 1 ]; then
    llvm_module "$work"
    "$clang" -S -emit-llvm -Xclang -disable-llvm-passes -x ir "$work/module.bc" -o "$work/module.ll"
    exit
fi
# shellcheck disable=SC2046
"$clang" $(cat "$work/words") $(printf ' -Xclang -mllvm -Xclang %s' $padding) -x ir "$2" -o "$work/hibitset_bench.o"
rm -f "$3"
"$kit/toolchain/bin/llvm-ar" rc "$3" "$work/hibitset_bench.o"
