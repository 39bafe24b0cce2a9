#!/bin/sh
# inline_report.sh [WORD]: the calls that LLVM did not put in line in the library of the benches, each with what it counted for the function and how much it lets pass; how often, and the last place. WORD: the functions whose names have it, alone.
# It needs rt, whose kit it links with a clang of its own that keeps the module.
set -eu
here=$(cd "$(dirname "$0")" && pwd)
. "$here/common.sh"
work=$here/out/inlined
rm -rf "$work"
llvm_module "$work"
# shellcheck disable=SC2046
"$kit/toolchain/bin/clang" $(cat "$work/words") -Rpass-missed=inline "$work/module.bc" -o "$work/remarks.o" 2>"$work/remarks"
grep 'too costly to inline' "$work/remarks" | awk -F "'" -v word="${1:-}" '
    index($2, word) { count[$2]++; split($5, parts, /[()]/); last[$2] = $2 " into " $4 ": " parts[2] }
    END { for (name in count) printf "%4d  %s\n", count[name], last[name] }
' | sort -rn
