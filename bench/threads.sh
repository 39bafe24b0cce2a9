#!/bin/sh
# threads.sh ORIGINAL [REPEATS [TABLE..]]: times the calls that start threads, beside the original with its own rayon, on all processors and on one; the same with a step that takes time, on all processors; and the shared set, beside the original's AtomicBitSet.
# ORIGINAL: the folder of the original crate's sources. REPEATS: how many times each call is made, of which the median counts (15). TABLE: threads, steps or shared; all three if left out.
# Both programs are compiled as a user compiles them, or with PADDED=1 as common.sh says.
# It needs rt, cargo and taskset, and of Debian's packages librust-rayon-dev under REGISTRY; without that the original is left out.
# RESULTS=1: also puts what it prints into results.txt, each table in the place of its last results, and makes RESULTS.md of that.
set -eu
here=$(cd "$(dirname "$0")" && pwd)
[ $# -ge 1 ] || { echo "usage: threads.sh ORIGINAL [REPEATS [TABLE..]]" >&2; exit 64; }
original=$(cd "$1" && pwd)
repeats=${2:-15}
if [ $# -gt 2 ]; then
    shift 2
    tables=$*
else
    tables="threads steps shared"
fi
registry=${REGISTRY:-/usr/share/cargo/registry}
. "$here/common.sh"
crate=$here/../crates/hibitset_bench_threads
work=$here/out/threads
rm -rf "$work/hibitset"
mkdir -p "$work/src" "$work/.cargo" "$work/hibitset/src" "$work/atom/src"

rm -f "$crate/out/hibitset_bench_threads"
(cd "$crate" && "$(kit_in "$work/kit" -align-all-functions=6)" run) >"$work/ours.log" 2>&1 || { tail -n 30 "$work/ours.log" >&2; exit 1; }
ours=$work/ours
mv "$crate/out/hibitset_bench_threads" "$ours"

theirs=
if ls -d "$registry"/rayon-1* >/dev/null 2>&1; then
    cp -r "$original/src/." "$work/hibitset/src/"
    cp "$here/driver/threads.rs" "$work/src/main.rs"
    cp "$here/driver/atom.rs" "$work/atom/src/lib.rs"
    printf '[package]\nname = "atom"\nversion = "0.3.6"\nedition = "2021"\n' >"$work/atom/Cargo.toml"
    printf '[package]\nname = "hibitset"\nversion = "0.6.3"\nedition = "2015"\n[features]\ndefault = ["parallel"]\nparallel = ["rayon"]\n[dependencies]\natom = { path = "../atom" }\nrayon = { version = "1.1", optional = true }\n' >"$work/hibitset/Cargo.toml"
    printf '[package]\nname = "threads"\nversion = "0.1.0"\nedition = "2021"\n[dependencies]\nhibitset = { path = "hibitset" }\nrayon = "1"\n[profile.release]\nopt-level = 3\n[workspace]\nexclude = ["hibitset", "atom"]\n' >"$work/Cargo.toml"
    printf '[source.crates-io]\nreplace-with = "debian"\n[source.debian]\ndirectory = "%s"\n[net]\noffline = true\n' "$registry" >"$work/.cargo/config.toml"
    (cd "$work" && RUSTFLAGS="--cap-lints allow $flags" cargo build --release --quiet)
    theirs=$work/target/release/threads
fi

rows() { # WHICH [WORD..]: of the walks parallel or steps, run by these words; one line a call: what, set, members, nanoseconds of ours in parts, of theirs in parts and of ours alone; the second ratio is the median of each turn's own
    which=$1
    shift
    "$@" "$ours" "$which" "$repeats" >"$work/ours.txt"
    if [ -n "$theirs" ]; then "$@" "$theirs" "$which" "$repeats" >"$work/theirs.txt"; else : >"$work/theirs.txt"; fi
    awk -F '\t' '
        # How many members a set has: no index lies past 2^24, so that a thin set has no more than this.
        function members(set, size) { most = set == "10 %" ? 1680000 : set == "1 %" ? 168000 : size; return size < most ? size : most }
        FILENAME ~ /theirs/ { theirs[$1 FS $2 FS $3 FS $4] = $5; next }
        $4 == "alone" { alone = $5; next }
        shown[$1 FS $2 FS members($2, $3)]++ { next }
        {
            original = theirs[$1 FS $2 FS $3 FS $4]
            printf "| %s, %s, %d | %.1f | %s | %s | %.1f | %.2f |\n", $1, $2, members($2, $3), $5 / 1000, original ? sprintf("%.1f", original / 1000) : "-",
                original ? sprintf("%.2f", $5 / original) : "-", alone / 1000, $6 / 10000
        }
    ' "$work/theirs.txt" "$work/ours.txt"
}

shared_rows() { # one line a row: what, which indices, how many threads, nanoseconds of ours and of theirs; microseconds a call for settle and share
    "$ours" shared "$repeats" >"$work/ours.txt"
    if [ -n "$theirs" ]; then "$theirs" shared "$repeats" >"$work/theirs.txt"; else : >"$work/theirs.txt"; fi
    awk -F '\t' '
        FILENAME ~ /theirs/ { theirs[$1 FS $2 FS $3] = $4; next }
        $1 == "settle" || $1 == "share" {
            calls = calls sprintf("| %s, 1M %s, %s (microseconds a call) | %.1f | - | - | - |\n", $1, $2, $3, $4 / 1000)
            next
        }
        $1 == "walk, shared" { walk = $4; next }
        $1 == "walk, settled" {
            walks = walks sprintf("| walk, 1M %s, %s | %.2f | %.2f | %.2f%s | 1.30 |\n", $2, $3, walk / 1000000, $4 / 1000000, walk / $4, walk / $4 > 1.305 ? " *" : "")
            next
        }
        {
            original = theirs[$1 FS $2 FS $3]
            aim = $1 == "add, there" ? 0.15 : $1 == "add, new" ? 0.75 : 1
            printf "| %s, 1M %s, %s | %.2f | %s | %s | %.2f |\n", $1, $2, $3, $4 / 1000000, original ? sprintf("%.2f", original / 1000000) : "-",
                original ? sprintf("%.2f%s", $4 / original, $4 / original > aim + 0.005 ? " *" : "") : "-", aim
        }
        END {
            printf "%s", calls
            if (walks) printf "\n| nanoseconds an item | shared | settled | ratio | aim |\n|---|---:|---:|---:|---:|\n%s", walks
        }
    ' "$work/theirs.txt" "$work/ours.txt"
}

stolen() { # how many hundredths of a second of processors the host has taken away since it started
    awk '$1 == "cpu" { print $9 }' /proc/stat
}

said() { # WHAT STOLEN SECONDS: the line above a table, once its rows are made; what was stolen when they began, and how long they took
    printf '%s; %s; %s; %s; medians of %s %s, load average %s; the host took %s %% of the processors away.\n' "$(date -u +%Y-%m-%d)" "$(machine)" \
        "$(rt version)" "$(commit_of "$here/..")" "$repeats" "$1" "$(cut -d ' ' -f 1 /proc/loadavg)" \
        "$(awk -v taken="$(($(stolen) - $2))" -v seconds="$3" -v cores="$(nproc)" 'BEGIN { printf "%.1f", taken / (seconds * cores) }')"
}

walks() { # WHERE WHICH [WORD..]: a table of walks
    printf '\n| on %s (microseconds a call) | ours | original | ratio | our own walk | ratio |\n|---|---:|---:|---:|---:|---:|\n' "$1"
    shift
    rows "$@"
}

threads_table() {
    walks "all processors" parallel
    walks "one processor" parallel taskset -c 0
}

steps_table() {
    walks "all processors" steps
}

shared_table() {
    printf '\n| nanoseconds an index | ours | original | ratio | aim |\n|---|---:|---:|---:|---:|\n'
    shared_rows
}

for table in $tables; do
    began=$(date +%s) before=$(stolen)
    "${table}_table" >"$work/$table.rows"
    { said "$([ "$table" = shared ] && echo rounds || echo calls)" "$before" "$(($(date +%s) - began))"; cat "$work/$table.rows"; } >"$work/$table.md"
    cat "$work/$table.md"
    echo
done
if [ -n "${RESULTS:-}" ]; then
    for table in $tables; do
        keep "$table" "$work/$table.md"
    done
fi
