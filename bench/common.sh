# common.sh: read by the other scripts here, which set `here` first. It sets `flags`, how rustc compiles, `padding`, what both compilers are told of jumps where they are, and `kit`, the folder of the toolchain.
# All is compiled as a user compiles it. PADDED=1: functions begin at multiples of 64 bytes, and no jump lies at a border of 32, where many processors of Intel are slow and where a loop falls would decide the row. Prefixes before other instructions do that, and no instructions of its own.
padding='-x86-branches-within-32B-boundaries -x86-pad-max-prefix-size=5'
flags=${FLAGS:--C opt-level=3 -C target-cpu=x86-64-v2}
[ -z "${PADDED:-}" ] || flags="$flags -C llvm-args=-align-all-functions=6$(printf ' -C llvm-args=%s' $padding)"
kit=$(dirname "$(rt doc)")

# commit_of FOLDER: the commit that is checked out there, with a word if files of the library or of the bench are changed.
commit_of() {
    printf 'commit %s%s' "$(git -C "$1" rev-parse --short=12 HEAD)" "$(git -C "$1" diff --quiet HEAD -- crates 'bench/*.sh' bench/driver || echo ' and changes')"
}

# machine: how many processors of which kind.
machine() {
    printf '%s cores of %s' "$(nproc)" "$(sed -n 's/^model name[^:]*: *//p' /proc/cpuinfo | head -n 1)"
}

# keep TABLE FILE: puts the file into results.txt, in the place of that table's last results, and makes RESULTS.md anew.
keep() {
    awk -v table="$1" -v results="$2" '
        $0 == "<!-- " table " -->" { print; print ""; while ((getline line < results) > 0) print line; print ""; held = 1 }
        $0 == "<!-- end of " table " -->" { held = 0 }
        !held { print }
    ' "$here/results.txt" >"$here/out/results.txt"
    cp "$here/out/results.txt" "$here/results.txt"
    python3 "$here/results.py"
}

# library FROM FOLDER: where the static library lies that is given as FROM, a file, or that of the checkout FROM, which is proved and built, and then lies in FOLDER.
library() {
    [ -d "$1" ] || { echo "$1"; return; }
    crate=$(cd "$1/crates/hibitset_bench" && pwd)
    mkdir -p "$2"
    rm -f "$crate/out/libhibitset_bench.a"
    (cd "$crate" && "$(kit_in "$2/kit")" lib) >"$2/lib.log" 2>&1 || { tail -n 30 "$2/lib.log" >&2; exit 1; }
    mv "$crate/out/libhibitset_bench.a" "$2/"
    echo "$2/libhibitset_bench.a"
}

# placed FROM TO [WORD..]: the same library, as objcopy makes it with these words. With PADDED every function in it begins at a multiple of 64 bytes.
placed() {
    from=$1 to=$2
    shift 2
    [ -z "${PADDED:-}" ] || set -- "$@" --set-section-alignment '.text*=64'
    objcopy "$@" "$from" "$to"
}

# kit_in FOLDER [WORD..]: the toolchain's command; with PADDED that of a toolchain in this folder, whose clang pads jumps away from borders, and is told WORDs too.
kit_in() {
    [ -n "${PADDED:-}" ] || { command -v rt; return; }
    padded "$@"
    echo "$1/bin/rt"
}

# wrapped FOLDER SCRIPT: the toolchain in a folder of its own, whose clang is this script.
wrapped() {
    rm -rf "$1"
    mkdir -p "$1/toolchain/bin"
    for file in "$kit"/*; do
        case $(basename "$file") in
            bin | toolchain) ;;
            *) ln -s "$file" "$1/" ;;
        esac
    done
    cp -R "$kit/bin" "$1/"
    for file in "$kit"/toolchain/* "$kit"/toolchain/bin/*; do
        case $file in
            */bin | */bin/clang) ;;
            */bin/*) ln -s "$(readlink -f "$file")" "$1/toolchain/bin/$(basename "$file")" ;;
            *) ln -s "$file" "$1/toolchain/" ;;
        esac
    done
    printf '%s\n' "$2" >"$1/toolchain/bin/clang"
    chmod +x "$1/toolchain/bin/clang"
}

# padded FOLDER [WORD..]: the toolchain in a folder of its own, whose clang pads jumps away from borders, and is told WORDs too.
padded() {
    folder=$1
    shift
    wrapped "$folder" "#!/bin/sh
for word in \"\$@\"; do
    if [ \"\$word\" = -c ]; then
        exec '$kit/toolchain/bin/clang' \"\$@\"$(printf " -Xclang -mllvm -Xclang %s" $padding "$@")
    fi
done
exec '$kit/toolchain/bin/clang' \"\$@\""
}

# llvm_module FOLDER: builds the library of the benches, and leaves LLVM's module of it in FOLDER/module.bc, and in FOLDER/words, which have no blanks, how it was compiled.
llvm_module() {
    folder=$1
    crate=$here/../crates/hibitset_bench
    mkdir -p "$folder"
    wrapped "$folder/kit" "#!/bin/sh
for word in \"\$@\"; do
    case \$word in
        *.bc) cp \"\$word\" '$folder/module.bc' ;;
        -o | *.o) ;;
        *) printf '%s\\n' \"\$word\" ;;
    esac
done >'$folder/words'
exec '$kit/toolchain/bin/clang' \"\$@\""
    rm -f "$crate/out/libhibitset_bench.a"
    (cd "$crate" && "$folder/kit/bin/rt" lib) >"$folder/lib.log" 2>&1 || { tail -n 30 "$folder/lib.log" >&2; exit 1; }
}

# compile NAME EDITION FILE FLAGS..: one library, which goes into the folder $work.
compile() {
    name=$1 edition=$2 file=$3
    shift 3
    # The flags are words.
    # shellcheck disable=SC2086
    rustc $flags --edition "$edition" --crate-type rlib --crate-name "$name" --cap-lints allow -L "$work" --out-dir "$work" "$@" "$file"
}

# peers FOLDER: compiles the peers that are there into the folder, and says in `with_peers` how the driver gets them.
peers() {
    work=$1
    registry=${REGISTRY:-/usr/share/cargo/registry}
    with_peers=
    source=$(ls -d "$registry"/fixedbitset-0.4* 2>/dev/null | head -n 1) || true
    if [ -n "$source" ]; then
        compile fixedbitset 2018 "$source/src/lib.rs" --cfg 'feature="std"'
        with_peers="$with_peers --cfg fixedbitset --extern fixedbitset=$work/libfixedbitset.rlib"
    fi
    source=$(ls -d "$registry"/bit-set-0.5* 2>/dev/null | head -n 1) || true
    vec=$(ls -d "$registry"/bit-vec-0.6* 2>/dev/null | head -n 1) || true
    if [ -n "$source" ] && [ -n "$vec" ]; then
        compile bit_vec 2015 "$vec/src/lib.rs" --cfg 'feature="std"'
        compile bit_set 2015 "$source/src/lib.rs" --cfg 'feature="std"' --extern "bit_vec=$work/libbit_vec.rlib"
        with_peers="$with_peers --cfg bit_set --extern bit_set=$work/libbit_set.rlib"
    fi
    if printf '#include <roaring/roaring.h>\nint main(void) { return 0; }\n' | cc -x c - -lroaring -o "$work/has_roaring" 2>"$work/has_roaring.log"; then
        with_peers="$with_peers --cfg roaring"
    fi
}

# sources ORIGINAL FOLDER: compiles the original into FOLDER/libhibitset.rlib.
sources() {
    original=$1 work=$2
    rm -rf "$work/original"
    mkdir -p "$work/original/iter"
    if [ -f "$original/src/lib.rs" ]; then
        cp -r "$original/src/." "$work/original/"
    else
        for file in "$original"/src--src--*.rs.txt; do
            name=$(basename "$file" .rs.txt)
            cp "$file" "$work/original/$(printf %s "${name#src--src--}" | sed 's|--|/|').rs"
        done
    fi
    compile atom 2021 "$here/driver/atom.rs"
    compile hibitset 2015 "$work/original/lib.rs" --extern "atom=$work/libatom.rlib"
}

# derived FOLDER: compiles the crate of rust/ and the kernels over it into FOLDER/derived, and says in `with_derived` how the driver gets them.
derived() {
    (
        work=$1/derived
        mkdir -p "$work"
        compile hibitset 2021 "$here/../rust/src/lib.rs" --cfg 'feature="std"' -C metadata=derived
        compile kernels_derived 2021 "$here/driver/derived.rs" --extern "hibitset=$work/libhibitset.rlib"
    )
    with_derived="--cfg derived -L $1/derived --extern kernels_derived=$1/derived/libkernels_derived.rlib"
}

# driver ORIGINAL FOLDER: compiles the original and the driver into FOLDER/bench, over FOLDER/libhibitset_bench.a, with the peers that `with_peers` names and the crate of rust/.
driver() {
    sources "$1" "$2"
    derived "$2"
    # shellcheck disable=SC2086
    program "$work" "$here/driver/main.rs" ${with_peers:-} $with_derived --extern "hibitset=$work/libhibitset.rlib"
}

# program FOLDER MAIN WORD..: compiles the driver with the root MAIN into FOLDER/bench, over FOLDER/libhibitset_bench.a; rustc gets these words.
program() {
    work=$1 main=$2
    shift 2
    # shellcheck disable=SC2086
    rustc $flags --edition 2021 --crate-name bench -A unexpected_cfgs -A unused_mut -A unused_variables -A unused_imports -A dead_code -L "$work" "$@" \
        -l static=hibitset_bench -L "native=$work" -l static=libc_c -L "native=$kit/c" -o "$work/bench" "$main"
}
