#!/bin/sh
# instructions.sh ORIGINAL [WORDS]: counts the instructions and the branches of each kernel of run.sh, of ours, of the original's and of the crate's, and prints a table of what an item takes. Another run with the same words on the same machine gives the same digits.
# ORIGINAL: the folder of the original crate. WORDS: the rows whose names have them, alone. Two turns of a kernel count, beyond a first one; copies that a turn works on are taken off, as in run.sh.
# LIB: the static library, if it is not to be built, or a checkout of another commit, whose library is built.
# It needs rt, rustc, objcopy and valgrind (of Debian: apt-get install valgrind).
set -eu
here=$(cd "$(dirname "$0")" && pwd)
[ $# -ge 1 ] || { echo "usage: instructions.sh ORIGINAL [WORDS]" >&2; exit 64; }
command -v valgrind >/dev/null || { echo "instructions.sh: valgrind is not there: apt-get install valgrind" >&2; exit 69; }
original=$(cd "$1" && pwd)
shift
. "$here/common.sh"
work=$here/out/instructions
rm -rf "$work"
mkdir -p "$work/counts"
lib=$(library "${LIB:-$here/..}" "$work/library")
placed "$lib" "$work/libhibitset_bench.a"
driver "$original" "$work"

# Nothing of the environment, so that the stack begins at the same place each time.
env -i PATH="$PATH" MALLOC_MMAP_THRESHOLD_=1000000000 MALLOC_TRIM_THRESHOLD_=10000000000 \
    valgrind --tool=callgrind --instr-atstart=no --branch-sim=yes --callgrind-out-file="$work/counts/out" --log-file="$work/valgrind.log" \
    "$work/bench" count "$@" >"$work/rows.txt" || { tail -n 20 "$work/valgrind.log" >&2; exit 1; }

# Of each file its name, the instructions, and the branches, conditional and indirect.
for file in "$work"/counts/out.*; do
    awk '
        /^desc: Trigger: Client Request: / { sub(/^desc: Trigger: Client Request: /, ""); name = $0 }
        /^events: / { for (at = 2; at <= NF; at++) column[$at] = at }
        /^(totals|summary): / { print name, $column["Ir"], $column["Bc"] + $column["Bi"]; exit }
    ' "$file"
done >"$work/counts.txt"

printf '%s; %s; %s, %s; %s; %s.\n\n' "$(date -u +%Y-%m-%d)" "$(machine)" "$(rt version)" "$(rustc --version)" \
    "$(commit_of "$([ -d "${LIB:-}" ] && echo "$LIB" || echo "$here/..")")" "$(valgrind --version)"
printf '| an item takes | instructions | original | ratio | crate | branches | original | ratio | crate |\n|---|---:|---:|---:|---:|---:|---:|---:|---:|\n'
awk -F '\t' '
    function counted(key, who, what, column) { # of the turns beyond the first
        return count[key " " who " " what " 3" FS column] - count[key " " who " " what " 1" FS column]
    }
    function taken(key, who, items, column) { return (counted(key, who, "work", column) - counted(key, who, "copy", column)) / items }
    # A call that takes a few instructions can come out below what the empty turn took, and says nothing then.
    function number(count) { return count > 0 ? sprintf("%.3f", count) : "-" }
    function ratio(ours, theirs) { return ours > 0 && theirs > 0 ? sprintf("%.2f", ours / theirs) : "-" }
    NR == FNR { # counts: KEY WHO WHAT TURNS INSTRUCTIONS BRANCHES
        split($0, word, " ")
        name = word[1] " " word[2] " " word[3] " " word[4]
        count[name FS 1] = word[5]
        count[name FS 2] = word[6]
        has[word[1] " " word[2]] = 1
        next
    }
    NF == 3 {
        line = "| " $3 " |"
        for (column = 1; column <= 2; column++) {
            ours = taken($1, "ours", $2, column)
            theirs = has[$1 " original"] ? taken($1, "original", $2, column) : 0
            crate = has[$1 " derived"] ? taken($1, "derived", $2, column) : 0
            line = line sprintf(" %s | %s | %s | %s |", number(ours), number(theirs), ratio(ours, theirs), number(crate))
        }
        if (head) print head
        head = ""
        print line
        next
    }
    # A head whose rows were not asked for is left out.
    { head = $0 }
' "$work/counts.txt" "$work/rows.txt"
