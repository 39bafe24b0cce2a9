#!/bin/sh
# replay.sh [PROGRAM [ARG..]]: replays the scripts of scripts/ and compares with the answers that are kept there.
# Without PROGRAM the crate hibitset_run is proved and built first, and its program is run. It needs rt and python3.
set -eu
here=$(cd "$(dirname "$0")" && pwd)
if [ $# -eq 0 ]; then
    crate=$here/../../crates/hibitset_run
    log=$(mktemp)
    trap 'rm -f "$log"' EXIT
    if ! (cd "$crate" && rt run </dev/null) >"$log" 2>&1; then
        tail -n 40 "$log" >&2
        echo "replay.sh: the program was not built, or failed on an empty script" >&2
        exit 2
    fi
    set -- "$crate/out/hibitset_run"
fi
python3 "$here/replay.py" "$here/scripts" "$@"
