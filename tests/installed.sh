#!/bin/sh
# installed.sh: installs the libraries for C into a folder, and packs and unpacks them; builds the example from both places by pkg-config, and by CMake where it is there, over the shared and the static library; removes them again.
# `make -C bindings/c` has built them.
set -eu
top=$(cd "$(dirname "$0")/.." && pwd)
c=$top/bindings/c
version=$(cat "$top/VERSION")
scratch=$(mktemp -d)
trap 'rm -rf "$scratch"' EXIT

fail() {
    echo "installed.sh: $*" >&2
    exit 1
}

quietly() { # COMMAND..: its output is shown only if it fails
    "$@" >"$scratch/log" 2>&1 || { cat "$scratch/log" >&2; fail "failed: $*"; }
}

gives_answers() { # PROGRAM FOLDER KIND: it prints what the example prints, over the shared library of the folder or with the static one in it
    LD_LIBRARY_PATH=$2/lib "$1" | diff - "$c/example.out" || fail "$1 has other answers"
    needed=$(readelf -d "$1" | grep -c 'NEEDED.*libhibitset\.so' || true)
    [ "$needed" = "$([ "$3" = shared ] && echo 1 || echo 0)" ] || fail "$1 is not over the $3 library"
}

by_pkg_config() { # FOLDER
    export PKG_CONFIG_PATH="$1/lib/pkgconfig"
    [ "$(pkg-config --modversion hibitset)" = "$version" ] || fail "pkg-config has version $(pkg-config --modversion hibitset) in $1"
    libdir=$(cd "$(pkg-config --variable=libdir hibitset)" && pwd -P)
    [ "$libdir" = "$(cd "$1/lib" && pwd -P)" ] || fail "pkg-config names the folder $libdir for $1"
    # The flags are words.
    # shellcheck disable=SC2046
    quietly cc "$c/example.c" $(pkg-config --cflags --libs hibitset) -o "$scratch/shared"
    gives_answers "$scratch/shared" "$1" shared
    # shellcheck disable=SC2046
    quietly cc -static "$c/example.c" $(pkg-config --cflags --libs --static hibitset) -o "$scratch/static"
    gives_answers "$scratch/static" "$1" static
    echo '#include <hibitset.hpp>
int main() { return hibitset::set{1, 70000}.size() == 2 ? 0 : 1; }' >"$scratch/class.cpp"
    # shellcheck disable=SC2046
    quietly c++ -std=c++11 "$scratch/class.cpp" $(pkg-config --cflags --libs hibitset) -o "$scratch/class"
    LD_LIBRARY_PATH=$1/lib "$scratch/class" || fail "the class has other answers in $1"
}

by_cmake() { # FOLDER
    rm -rf "$scratch/project"
    mkdir "$scratch/project"
    cp "$c/example.c" "$scratch/project"
    cat >"$scratch/project/CMakeLists.txt" <<END
cmake_minimum_required(VERSION 3.13)
project(example C)
find_package(hibitset ${version%.*} REQUIRED CONFIG)
add_executable(shared example.c)
target_link_libraries(shared hibitset::hibitset)
add_executable(static example.c)
target_link_libraries(static hibitset::static)
END
    quietly cmake -S "$scratch/project" -B "$scratch/project/out" -DCMAKE_PREFIX_PATH="$1"
    quietly cmake --build "$scratch/project/out"
    gives_answers "$scratch/project/out/shared" "$1" shared
    gives_answers "$scratch/project/out/static" "$1" static
    sed -i 's/^find_package.*/find_package(hibitset 99 REQUIRED CONFIG)/' "$scratch/project/CMakeLists.txt"
    if cmake -S "$scratch/project" -B "$scratch/project/out" >"$scratch/log" 2>&1; then fail "CMake takes version $version for 99"; fi
}

builds() { # FOLDER
    by_pkg_config "$1"
    if command -v cmake >/dev/null; then by_cmake "$1"; else echo "installed.sh: no cmake: find_package is left out"; fi
}

# In the page's order: built before, and installed below a prefix of one's own.
quietly make -C "$c" all
quietly make -C "$c" install PREFIX="$scratch/usr"
builds "$scratch/usr"
quietly make -C "$c" uninstall PREFIX="$scratch/usr"
left=$(find "$scratch/usr" ! -type d)
[ -z "$left" ] || fail "uninstall leaves $left"

quietly make -C "$c" dist
tar -xzf "$c"/out/hibitset-"$version"-*.tar.gz -C "$scratch"
unpacked=$(echo "$scratch"/hibitset-"$version"-*)
mv "$unpacked" "$scratch/moved"
for file in README.md LICENSE NOTICE CHANGELOG.md example.c include/hibitset.hpp; do
    [ -s "$scratch/moved/$file" ] || fail "the archive has no $file"
done
if grep -n '@[A-Z]*@' -r "$scratch/moved" --include='*.md' --include='*.pc' --include='*.cmake'; then fail "the archive has a word that was not filled in"; fi
builds "$scratch/moved"
echo "installed.sh: ok"
