#!/usr/bin/env bash
# Runs the program on each stored case, NAME.in, and compares what it writes with NAME.out, byte for byte.
# The program is target/bin/pirun, which `tools/build.sh` makes. A file without the other of its pair has failed.
# The last line counts: 'N passed, M failed'; the exit status is 0 only when M is 0 and N is not.
set -u
case ${1-} in
-h | --help)
    echo 'usage: tests/cases/run.sh
Runs target/bin/pirun on every stored input and compares what it writes. It takes a second.'
    exit 0
    ;;
'') ;;
*)
    echo 'usage: tests/cases/run.sh' >&2
    exit 2
    ;;
esac
cd "$(dirname "$0")" || exit 2
program=../../target/bin/pirun
passed=0
failed=0
if [ ! -x "$program" ]; then
    echo 'all: FAILED, there is no program target/bin/pirun; to build it: tools/build.sh (some minutes the first time)'
    echo '0 passed, 1 failed'
    exit 1
fi
written=$(mktemp) || exit 2
trap 'rm -f "$written"' EXIT
for name in $(printf '%s\n' *.in *.out | sed 's/\.[a-z]*$//' | sort -u); do
    if "$program" >"$written" <"$name.in" && cmp -s "$written" "$name.out"; then
        passed=$((passed + 1))
    else
        failed=$((failed + 1))
        echo "$name: FAILED"
        diff "$name.out" "$written"
    fi
done
echo "$passed passed, $failed failed"
[ "$failed" -eq 0 ] && [ "$passed" -gt 0 ]
