#!/bin/sh
# check_shared.sh LIBRARY SONAME PROCESSOR NAMES: sees that the shared library has this soname, exactly the names in the file
# NAMES, no relocation in its code, a note of the processor, and needs no library but that of C.
set -eu
library=$1 soname=$2 processor=$3 names=$4
wrong=0

say() {
    echo "check_shared.sh: $library: $*"
    wrong=1
}

dynamic=$(readelf -dW "$library")
case $dynamic in *TEXTREL*) say "has relocations in its code" ;; esac
case $dynamic in *"Library soname: [$soname]"*) ;; *) say "its soname is not $soname" ;; esac
readelf -nW "$library" | grep -q "x86 ISA needed:.*$processor" || say "does not note that it needs $processor"
for needed in $(printf '%s\n' "$dynamic" | sed -n 's/.*(NEEDED).*\[\(.*\)\]$/\1/p'); do
    [ "$needed" = libc.so.6 ] || say "needs $needed"
done
nm -D --defined-only "$library" | awk '$2 != "A" { sub(/@.*/, "", $3); print $3 }' | LC_ALL=C sort >out/shared_names
LC_ALL=C sort "$names" | diff - out/shared_names || say "its names are not those of the header"
[ "$wrong" = 0 ] && echo "check_shared.sh: $(wc -l <"$names") names: ok"
exit "$wrong"
