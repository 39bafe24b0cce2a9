#!/bin/sh
# make.sh ORIGINAL ORACLE: makes the files of scripts/ anew.
# ORIGINAL: the folder of the original crate. ORACLE: the folder of the oracle's sources (build.sh, oracle-run). It needs
# cargo, python3 and Debian's packages librust-atom-dev, librust-rayon-dev, librust-fixedbitset-dev, librust-bit-set-dev.
set -eu
here=$(cd "$(dirname "$0")" && pwd)
[ $# -eq 2 ] || { echo "usage: make.sh ORIGINAL ORACLE" >&2; exit 64; }
original=$(cd "$1" && pwd)
work=$(mktemp -d)
trap 'rm -rf "$work"' EXIT
cp -r "$2" "$work/oracle"
chmod -R u+w "$work/oracle"
NO_TEST=1 sh "$work/oracle/build.sh" "$original"
programs=$work/oracle/oracle-run/target/release
"$programs/gen" "$work/scripts"
python3 "$here/make.py" "$here/scripts" "$work/scripts" "$programs/oracle-run"
