#!/bin/sh
# check_header.sh CC..: sees that a program over the header links, and that the header refuses options that change the layout
# of its types; that a header with another number of the ABI does not link; that a status which is dropped is warned of.
set -eu
uses='static hibitset_t set = HIBITSET_INIT; hibitset_t other = hibitset_new();'

compiles() { # STATEMENTS OPTION..: whether a program of these statements compiles and links
    statements=$1
    shift
    printf '#include "hibitset.h"\nint main(void) { %s return 0; }\n' "$statements" |
        $compiler -std=c99 "$@" -x c -I . - -x none out/libhibitset.a -o out/header 2>out/header.log
}

refuses() { # WORDS STATEMENTS OPTION..: that it does not, and says these words
    words=$1
    shift
    if compiles "$@" || ! grep -q "$words" out/header.log; then
        echo "check_header.sh: is not refused: $*"
        cat out/header.log
        exit 1
    fi
}

compiler=$*
compiles "$uses hibitset_free(&set); hibitset_free(&other);" || { cat out/header.log; exit 1; }
for option in -fshort-enums -fpack-struct=1 -fpack-struct=2; do
    refuses hibitset_internal "$uses" "$option"
done
another=-Dhibitset_abi_0=hibitset_abi_of_another_layout
for statements in "hibitset_t set = hibitset_new(); hibitset_free(&set);" "static hibitset_t set = HIBITSET_INIT; hibitset_free(&set);" \
    "hibitset_atomic_t set = hibitset_atomic_new(); hibitset_atomic_free(&set);" "hibitset_seat_t seat = hibitset_seat_new(); hibitset_seat_free(&seat);"; do
    refuses 'undefined.*hibitset_abi_of_another_layout' "$statements" "$another"
done
for call in "hibitset_add(&other, 1);" "hibitset_or_assign(&other, &set);"; do
    refuses 'unused.result' "$uses $call" -Werror=unused-result
done
echo "check_header.sh: ok"
