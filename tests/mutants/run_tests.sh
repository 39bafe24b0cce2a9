#!/usr/bin/env bash
# run_tests.sh [--gate|PATCH]: tests must kill the mutants that no contract excludes. Each patch of tests/ is applied to a copy of the repository, where the tests that it names must fail. PATCH: that one alone. --gate: those whose head has the line 'gate: yes'.
# So many are tried side by side as TOGETHER says, or two. Where there is one processor, no iteration takes threads, and the patches whose tests are to meet in two of them are left out.
# The head of a patch says the crates and the tests: lines 'crate: NAME', and after each the lines 'fails: TEST' of that crate. A line 'seconds: N' before a crate cuts its tests short after so many seconds, where some that are not named read millions of words; a line 'only: WORDS' runs no other tests than those with these words in their names.
# A line 'processors: 1' before a crate lets its tests take one processor alone.
# A line 'refused: N' before a crate makes the Nth allocation of each of its tests fail, and a line 'misses: TEST' after it names one that must then not tell of it, in which allocation_failures.py fails.
set -euo pipefail
here=$(cd "$(dirname "$0")" && pwd)

if [ $# = 0 ] || [ "$1" = --gate ]; then
    if [ $# = 0 ]; then heads=; else heads='^gate: yes$'; fi
    grep -lZ "$heads" "$here"/tests/*.patch | xargs -0 -P "${TOGETHER:-2}" -n 1 "$here/run_tests.sh"
    exit
fi

patch=$(realpath -e "$1")
name=$(basename "$patch" .patch)
if [ "$(nproc)" = 1 ] && grep -q '^fails: tests::meeting::' "$patch"; then
    echo "$name: left out, since there is one processor"
    exit
fi
cd "$here/../.."
work=$(mktemp -d)
trap 'rm -rf "$work"' EXIT
git ls-files -z | tar --null --files-from=- -cf - | tar -xf - -C "$work"
git -C "$work" init -q
git -C "$work" apply "$patch"
seconds=60
only=
refused=
one=()
sed '/^diff /,$d' "$patch" | while read -r word value; do
    case $word in
        seconds:)
            seconds=$value
            ;;
        only:)
            only=$value
            ;;
        refused:)
            refused="--fail-alloc $value"
            ;;
        processors:)
            one=(python3 -c 'import os, sys
os.sched_setaffinity(0, {min(os.sched_getaffinity(0))})
os.execvp(sys.argv[1], sys.argv[1:])')
            ;;
        crate:)
            crate=$value
            (cd "$work/crates/$crate" && "${one[@]}" rt try --test --seconds "$seconds" $refused ${only:+-- "$only"} </dev/null >out.txt 2>&1) || true
            ;;
        fails:)
            if grep -qF "test $value ... FAILED" "$work/crates/$crate/out.txt"; then
                echo "$name fails $value: ok"
            else
                echo "$name fails $value: NOT SEEN"
                tail -n 20 "$work/crates/$crate/out.txt" >&2
                exit 1
            fi
            ;;
        misses:)
            said=$(sed -n "/^test $value \.\.\. /,/^test /p" "$work/crates/$crate/out.txt" | grep '^    ' || true)
            if [ "$(sort -u <<<"$said")" = '    passed' ]; then
                echo "$name misses a refusal in $value: ok"
            else
                echo "$name misses a refusal in $value: NOT SEEN"
                tail -n 20 "$work/crates/$crate/out.txt" >&2
                exit 1
            fi
            ;;
    esac
done
