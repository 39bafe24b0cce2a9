#!/usr/bin/env bash
# python.sh: the package of bindings/python: built as a wheel and installed by pip, its types, its tests, also under sanitizers and where each allocation fails, and CRoaring over its folders. What a machine has no package for is left out, and said.
# `make -C bindings/c` has built the library. PYTHON is Debian's python3 unless it is set; OUT is where all is built.
set -euo pipefail
top=$(cd "$(dirname "$0")/.." && pwd)
package=$top/bindings/python
python=${PYTHON:-/usr/bin/python3}
out=${OUT:-$package/out}
export HIBITSET_LIB_DIR=${HIBITSET_LIB_DIR:-$top/bindings/c/out} HIBITSET_INCLUDE_DIR=$top/bindings/c PYTHONDONTWRITEBYTECODE=1
jobs=()

step() { # WORDS: says what comes next, and when
    echo "python.sh: $SECONDS s: $*"
}

has() { # WHAT MODULE..: whether Python has all modules; else says what is left out
    local what=$1 module
    shift
    for module in "$@"; do
        "$python" -c "import $module" 2>/dev/null || { echo "python.sh: no module $module in $python: $what is left out"; return 1; }
    done
}

quietly() { # COMMAND..: its output is shown only if it fails
    local log
    log=$(mktemp -p "$out")
    "$@" >"$log" 2>&1 || { cat "$log" >&2; echo "python.sh: failed: $*" >&2; return 1; }
}

beside() { # NAME COMMAND..: begins a job beside the others
    local name=$1
    shift
    ("$@") >"$out/$name.log" 2>&1 &
    jobs+=("$name:$!")
}

ended() { # waits for the jobs, and prints what is worth it: all of one that failed, of others the last line
    local job wrong=0
    for job in ${jobs[@]+"${jobs[@]}"}; do
        if wait "${job#*:}"; then
            echo "python.sh: $SECONDS s: ${job%%:*}: $(grep -h 'left out' "$out/${job%%:*}.log" || true)$(tail -n 1 "$out/${job%%:*}.log")"
        else
            cat "$out/${job%%:*}.log"
            echo "python.sh: $SECONDS s: ${job%%:*}: FAILED"
            wrong=1
        fi
    done
    jobs=()
    return "$wrong"
}

tested() { # SITE WORD..: pytest over the package of a folder
    local site=$1
    shift
    (cd "$package" && PYTHONPATH=$site exec timeout 600 "$python" -m pytest -q --no-header -rs "$@")
}

variant() { # NAME FLAG..: a copy of the package whose module is compiled with flags of its own, in out/NAME
    local name=$1 include
    shift
    include=$("$python" -c "import sysconfig; print(sysconfig.get_path('include'))")
    rm -rf "${out:?}/$name"
    cp -r "$out/site" "$out/$name"
    cc -shared -fPIC -std=c11 -O1 -g -I"$HIBITSET_INCLUDE_DIR" -I"$include" "$package"/src/core/*.c "$@" "$HIBITSET_LIB_DIR/libhibitset.a" -pthread -o "$out/$name/hibitset/_core.abi3.so"
}

typed() { # the package, and a program with types over it
    MYPYPATH=$package/src "$python" -m mypy --config-file "$package/pyproject.toml" --cache-dir "$out/mypy" "$package/src/hibitset" "$package/tests/typed.py"
}

allocations() { # each allocation fails in turn
    variant failing "$package/tests/failing.c" -Wl,--wrap=malloc,--wrap=realloc,--wrap=hibitset_sparse_len,--wrap=hibitset_hash,--wrap=hibitset_contains_many,--wrap=hibitset_add_range
    PYTHONPATH=$out/failing "$python" "$package/tests/failing.py"
}

sanitized() { # the tests under the address and the undefined sanitizer; those of the system's own memory are not for them
    variant sanitized -fsanitize=address,undefined -fno-sanitize-recover=all
    export LD_PRELOAD ASAN_OPTIONS=detect_leaks=0 PYTHONMALLOC=malloc HIBITSET_EXAMPLES=${HIBITSET_EXAMPLES:-20}
    LD_PRELOAD=$(cc -print-file-name=libasan.so):$(cc -print-file-name=libubsan.so)
    tested "$out/sanitized" tests/test_set.py tests/test_numpy.py tests/test_streams.py tests/test_threads.py tests/test_memory.py tests/test_cpython.py -k "not test_no_memory and not given_back and not long_call"
}

croaring() { # CRoaring reads a folder of shards as the package does
    local shards=$out/shards
    cc -std=c99 -O1 -Wall "$package/tests/read_folder.c" -lroaring -o "$out/read_folder"
    rm -rf "$shards"
    PYTHONPATH=$out/site "$python" - "$shards" "$out/expected" <<'END'
import sys

import numpy as np

from hibitset.ids import IdSet

ids = np.random.default_rng(5).integers(0, 5 << 20, 300_000, dtype=np.uint64)
some = IdSet.from_numpy(np.concatenate([ids, np.arange(3 << 20, (3 << 20) + 70_000, dtype=np.uint64)]), shards=5, bits=20)
some.to_folder(sys.argv[1])
with open(sys.argv[2], "w") as file:
    for shard in some.shards:
        print(len(shard), shard.min(), shard.max(), sum(shard), file=file)
END
    "$out/read_folder" "$shards"/shard-*.roaring | diff - "$out/expected"
    echo "CRoaring reads five shards"
}

old_processor() { # a processor that is too old is named: where the module asks, and where the loader does
    local command said
    variant old "-DPROCESSOR_HAS(feature)=0"
    for command in "$python" ${1:+"$1 -cpu Conroe $python"}; do
        # The command is words.
        # shellcheck disable=SC2086
        said=$(PYTHONPATH=$out/$([ "$command" = "$python" ] && echo old || echo site) $command -c "import hibitset" 2>&1 | tail -n 1 || true)
        [ "$said" = "ImportError: hibitset needs a processor of level x86-64-v2, with SSE 4.2 and POPCNT" ] || { echo "python.sh: on an old processor $command says: $said"; return 1; }
    done
    echo "an old processor is named"
}

installed() { # by pip, and by itself: the compiled code is that of the wheel
    quietly "$python" -m pip install --no-build-isolation --no-deps --no-index --root-user-action=ignore --no-compile --target "$out/installed" "$out/source"
    (cd / && PYTHONPATH=$out/installed "$python" -c "from hibitset import BitSet; assert list(BitSet([5, 70_000]) & {5}) == [5]")
    echo "installed by pip"
}

command -v cc >/dev/null || { echo "python.sh: no cc: everything is left out"; exit; }
has "everything" sysconfig setuptools wheel pip || exit 0
[ -e "$("$python" -c "import sysconfig; print(sysconfig.get_path('include'))")/Python.h" ] || { echo "python.sh: no Python.h: everything is left out"; exit; }
mkdir -p "$out"
rm -rf "$out"/{source,site,wheel,installed} "$out"/tmp.*
mkdir "$out/source"
cp -r "$package"/{pyproject.toml,setup.py,README.md,LICENSE,src} "$out/source"
step "the wheel"
if has "the wheel by build" build; then
    quietly "$python" -m build --wheel --no-isolation --outdir "$out/wheel" "$out/source"
else
    quietly "$python" -m pip wheel --no-build-isolation --no-deps --no-index --wheel-dir "$out/wheel" "$out/source"
fi
quietly "$python" -m pip install --no-deps --no-index --root-user-action=ignore --no-compile --target "$out/site" "$out"/wheel/hibitset-*-cp311-abi3-linux_*.whl

step "types, tests, sanitizers"
beside installed installed
if command -v qemu-x86_64 >/dev/null; then
    beside processor old_processor qemu-x86_64
else
    echo "python.sh: no qemu-x86_64: what the loader says of an old processor is left out"
    beside processor old_processor
fi
if has "the types" mypy numpy; then beside types typed; fi
if has "the tests" pytest hypothesis; then
    beside tests tested "$out/site" --ignore tests/test_dask.py
    if has "the test of Dask" numpy dask distributed; then beside dask tested "$out/site" tests/test_dask.py; fi
    if echo 'int main(void) { return 0; }' | cc -fsanitize=address,undefined -xc - -o "$out/probe" 2>/dev/null; then
        beside sanitized sanitized
    else
        echo "python.sh: cc has no sanitizers: the tests under them are left out"
    fi
fi
if has "failing allocations" numpy; then
    beside allocations allocations
    if echo '#include <roaring/roaring.h>' | cc -E -xc - >/dev/null 2>&1; then
        beside croaring croaring
    else
        echo "python.sh: no roaring/roaring.h: CRoaring is left out"
    fi
fi
ended
