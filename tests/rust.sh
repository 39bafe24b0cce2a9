#!/usr/bin/env bash
# rust.sh: the Cargo crate of rust/: its sources are derived anew, compared and checked, and its tests, those of the derived crates and the stored scripts pass. What a machine has no cargo or no package for is left out, and said.
set -euo pipefail
top=$(cd "$(dirname "$0")/.." && pwd)
rust=$top/rust
registry=${RUST_REGISTRY:-/usr/share/cargo/registry} # Debian's folder of crates
optional="rayon serde serde_json bincode"            # what the features and their tests need
scratch=$(mktemp -d)
derived= # the process group of the derived tests
# A lock file here is of this machine's crates, and a library has none.
trap '[ -z "$derived" ] || kill -- -"$derived" 2>/dev/null || true; rm -rf "$scratch" "$rust/Cargo.lock"' EXIT
export CARGO_TARGET_DIR=$rust/target CARGO_PROFILE_DEV_OPT_LEVEL=1 CARGO_PROFILE_DEV_DEBUG=0 CARGO_INCREMENTAL=0 CARGO_TERM_COLOR=never

step() { # WORDS: says what comes next, and when
    echo "rust.sh: $SECONDS s: $*"
}

in_crate() { # WORD..: cargo in the crate, without the network
    (cd "$rust" && cargo "$1" --config "$scratch/config.toml" --offline --quiet "${@:2}")
}

tested() { # COMMAND..: runs tests, and prints how many passed, or all that they printed
    local log
    log=$(mktemp -p "$scratch")
    "$@" >"$log" 2>&1 || { cat "$log"; return 1; }
    awk '/^test result: ok/ { passed += $4 } END { print "rust.sh: " passed " tests passed" }' "$log"
}

empty_crate() { # NAME: a crate that stands for one that is not here; nothing of it is called
    local folder=$scratch/registry/$1
    mkdir -p "$folder/src"
    printf '[package]\nname = "%s"\nversion = "1.999.0"\nedition = "2021"\n[features]\nalloc = []\nderive = []\n' "$1" >"$folder/Cargo.toml"
    printf '{"files":{}}' >"$folder/.cargo-checksum.json"
    : >"$folder/src/lib.rs"
}

sources() { # names the folder that crates come from, and sets features to those that can be tried
    local name missing=
    features=(--features "parallel,serde")
    for name in $optional; do
        ls -d "$registry/$name"-[0-9]* >/dev/null 2>&1 || missing="$missing $name"
    done
    if [ -n "$missing" ]; then
        echo "rust.sh: no crate$missing in $registry: the features parallel and serde are left out"
        features=()
        for name in $optional; do empty_crate "$name"; done
        registry=$scratch/registry
    fi
    printf '[source.crates-io]\nreplace-with = "here"\n[source.here]\ndirectory = "%s"\n' "$registry" >"$scratch/config.toml"
}

package() { # the files of the package are those that git has, and no others
    (cd "$rust" && git ls-files src tests examples ':(glob)*.md' LICENSE) >"$scratch/wanted"
    printf '%s\n' .cargo_vcs_info.json Cargo.lock Cargo.toml Cargo.toml.orig >>"$scratch/wanted"
    in_crate package --list --allow-dirty >"$scratch/listed"
    diff <(sort "$scratch/wanted") <(sort "$scratch/listed") || { echo "rust.sh: the package has other files"; return 1; }
    in_crate package --no-verify --allow-dirty
}

derived_tests() { # the derived tests, and the stored scripts by the derived program; beside the tests of the crate, so in a folder of their own
    export CARGO_TARGET_DIR=$rust/target/checks
    step "derived tests"
    tested cargo test --manifest-path "$rust/checks/Cargo.toml" --offline --quiet
    step "scripts by the derived program"
    cargo build --manifest-path "$rust/checks/Cargo.toml" --offline --quiet
    python3 "$top/tests/differential/replay.py" "$top/tests/differential/scripts" "$CARGO_TARGET_DIR/debug/checks"
}

step "derive and check"
python3 "$rust/derive.py"
python3 "$rust/check.py"
python3 "$rust/check_mutants.py"
(cd "$rust" && python3 -m unittest -q test_derivation)
python3 "$rust/derive.py" --tests
python3 "$rust/check.py" --tests
if ! command -v cargo >/dev/null; then
    echo "rust.sh: no cargo: what rustc compiles is left out"
    exit
fi
sources
step "callees"
python3 "$rust/callees.py"
set -m
(derived_tests) </dev/null >"$scratch/derived.log" 2>&1 &
derived=$!
set +m
step "tests of the crate, with its features"
tested in_crate test "${features[@]}"
step "tests of the crate, without features"
tested in_crate test --lib --tests
step "tests of the crate, without std"
tested in_crate test --no-default-features --lib --test atomic
step "rustfmt, clippy, documentation, package"
if cargo fmt --version >/dev/null 2>&1; then
    (cd "$rust" && cargo fmt --check)
else
    echo "rust.sh: no rustfmt: it is left out"
fi
if cargo clippy --version >/dev/null 2>&1; then
    in_crate clippy --all-targets "${features[@]}" -- -D warnings
else
    echo "rust.sh: no clippy: it is left out"
fi
RUSTDOCFLAGS="-D warnings" in_crate doc --no-deps "${features[@]}"
package
status=0
wait "$derived" || status=$?
derived=
cat "$scratch/derived.log"
exit "$status"
