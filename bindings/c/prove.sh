#!/bin/sh
# prove.sh LOG COMMAND..: runs the command that proves and builds the library. Its output goes into LOG. Each half minute
# a line says how far it is; if it fails, the end of its output is shown. SECONDS_A_LINE sets another pace.
set -u
log=$1
shift
pace=${SECONDS_A_LINE:-30}

# The crate that is proved, and how many of its functions are.
how_far() {
    awk '
        /^rt: chose --jobs .* for / { crate = $NF; said = crate }
        /^so far: / { said = (crate ? crate ": " : "") $3 " of " $5 " functions" }
        /^checked / { split($2, path, "::"); said = path[1] ": " $(NF - 2) " of " $NF " functions" }
        END { if (said) print ": " said }
    ' "$log"
}

echo "hibitset: proves the library; the output goes to $log"
"$@" >"$log" 2>&1 &
command=$!
trap 'kill "$command" 2>/dev/null; exit 130' INT TERM HUP
seconds=0
while kill -0 "$command" 2>/dev/null; do
    sleep 1
    seconds=$((seconds + 1))
    if [ $((seconds % pace)) = 0 ]; then
        echo "hibitset: proves, $((seconds / 60)) min $((seconds % 60)) s$(how_far)"
    fi
done
wait "$command"
status=$?
if [ "$status" != 0 ]; then
    grep -v '^checked \|^so far: ' "$log" | tail -n 60 >&2
    echo "hibitset: the library is not built (status $status); the whole output is in $log" >&2
fi
exit "$status"
