#!/usr/bin/env bash
# Builds the host and the examples against an archive of the engine, and runs them; --help says more.
set -u

usage='usage: tests/host/run.sh ARCHIVE [COUNT [SEED]]'

help() {
    cat <<END
tests/host/run.sh: holds the engine's static library to what include/pi_engine.h says

$usage

  ARCHIVE   the static library; \`tools/build.sh\` makes target/staticlib/libengine.a
  COUNT     so many images of each sort are made by chance, 2,000 if it is left out; at most
            50 of them under valgrind
  SEED      what they are made from, 1 if it is left out

It takes half a minute, and five minutes with a COUNT of 100,000. On a terminal it shows on
standard error which part is at work.

It needs gcc (by this name and as cc), g++, nm and valgrind; a part that cannot run counts
as failed. The last line counts everything: 'N passed, M failed'. Exit status: 0 where M is
0, 1 where it is not, 2 bad usage.
END
}

bad_usage() { # MESSAGE
    printf 'tests/host/run.sh: %s\n%s\n' "$1" "$usage" >&2
    exit 2
}

for argument; do
    case $argument in
    -h | --help)
        help
        exit
        ;;
    esac
done
if [ $# -lt 1 ] || [ $# -gt 3 ]; then
    bad_usage 'it takes an archive, and a count and a seed or not'
fi
case $1 in
-*) bad_usage "there is no option $1" ;;
esac
count=${2:-2000}
seed=${3:-1}
[[ $count =~ ^[0-9]{1,15}$ ]] || bad_usage "COUNT must be a whole number of at most 15 digits, not $count"
[[ $seed =~ ^[0-9]+$ ]] || bad_usage "SEED must be a whole number, not $seed"
if [ ! -f "$1" ]; then
    echo "all: FAILED, there is no archive $1; \`tools/build.sh\` makes target/staticlib/libengine.a"
    echo '0 passed, 1 failed'
    exit 1
fi
archive=$(realpath "$1")
under_valgrind=$((10#$count < 50 ? 10#$count : 50))
cd "$(dirname "$0")/../.." || exit 2

passed=0
failed=0
built=$(mktemp -d) || exit 2
trap 'erase_progress; rm -rf "$built"' EXIT
strict=(-Wall -Wextra -Werror -pedantic -Iinclude)
stricter=("${strict[@]}" -Wconversion -Wsign-conversion -Wswitch-enum)

# The parts are gone over twice: first they are only counted, for the progress.
counting=yes
parts=0
part=0
shown=0

# One line on a terminal, rewritten in place: which part is at work, and the seconds that are gone.
show_progress() { # NAME
    local line
    part=$((part + 1))
    [ -t 2 ] || return 0
    erase_progress
    line="part $part of $parts, $SECONDS s: $1"
    shown=${#line}
    printf '\r%s' "$line" >&2
}

erase_progress() {
    [ "$shown" -eq 0 ] || printf '\r%*s\r' "$shown" '' >&2
    shown=0
}

# Whether the command of a part is there; if not, the part has failed.
is_there() { # NAME COMMAND
    command -v "$2" >/dev/null && return
    failed=$((failed + 1))
    echo "$1: FAILED, there is no $2"
    return 1
}

# One check that passes or fails as a whole; what it says is shown if it fails.
one_check() { # NAME COMMAND..
    local name=$1 status
    shift
    if [ -n "$counting" ]; then
        parts=$((parts + 1))
        return
    fi
    is_there "$name" "$1" || return
    show_progress "$name"
    "$@" >"$built/log" 2>&1
    status=$?
    erase_progress
    if [ "$status" -eq 0 ]; then
        passed=$((passed + 1))
        echo "$name: ok"
    else
        failed=$((failed + 1))
        cat "$built/log"
        echo "$name: FAILED"
    fi
}

# A run of the host; its own counts are added.
host_run() { # NAME COMMAND..
    local name=$1 status counts
    shift
    if [ -n "$counting" ]; then
        parts=$((parts + 1))
        return
    fi
    rm -f "$built/log" "$built/errors"
    is_there "$name" "$1" || return
    show_progress "$name"
    "$@" >"$built/log" 2>"$built/errors"
    status=$?
    erase_progress
    echo "$name:"
    counts=$(tail -n 1 "$built/log")
    sed 's/^/  /' "$built/log" "$built/errors"
    if [[ $counts =~ ^([0-9]+)\ passed,\ ([0-9]+)\ failed$ ]]; then
        passed=$((passed + BASH_REMATCH[1]))
        failed=$((failed + BASH_REMATCH[2]))
        if [ "$status" -ne 0 ] && [ "${BASH_REMATCH[2]}" -eq 0 ]; then
            failed=$((failed + 1))
            echo "$name: FAILED, exit status $status"
        fi
    else
        failed=$((failed + 1))
        echo "$name: FAILED, it counted nothing"
    fi
}

# The checks of header, archive and examples.
. tests/host/checks.sh

all_parts() {
    local standard
    for standard in c99 c11 c17; do
        one_check "header as $standard" gcc "-std=$standard" "${strict[@]}" -fsyntax-only -x c include/pi_engine.h
        one_check "every name as $standard" every_name gcc "$standard" c
    done
    for standard in c++11 c++17; do
        one_check "header as $standard" g++ "-std=$standard" "${strict[@]}" -fsyntax-only -x c++ include/pi_engine.h
        one_check "every name as $standard" every_name g++ "$standard" c++
    done
    one_check 'every name is used' every_name_used
    one_check 'full switches as C' gcc -std=c99 "${stricter[@]}" -fsyntax-only tests/host/header/switches.c
    one_check 'full switches as C++' g++ -std=c++11 "${stricter[@]}" -fsyntax-only -x c++ tests/host/header/switches.c
    one_check 'missing cases are warned of in C' missing_cases gcc c99 c
    one_check 'missing cases are warned of in C++' missing_cases g++ c++11 c++
    one_check 'newest version in CHANGELOG.md' newest_version
    one_check 'archive has every call' has_every_call
    one_check 'archive needs nothing but memory functions' needs_little
    one_check 'example of the header' same_example
    one_check 'example builds' gcc -std=c99 "${stricter[@]}" -o "$built/embed" examples/embed.c "$archive"
    one_check 'example says 25' example_says "$built/embed"
    one_check 'example builds as the header says' example_as_told
    one_check 'example is refused by the check' example_refused embed 's/PI_KIND_MUL/PI_KIND_AND/' \
        'refused 11 at 0 (type: the node takes another type)'
    one_check 'example is refused by the run' example_refused embed 's/PI_MOST_BUDGET/6/' \
        'refused 30 at 0 (steps: the budget is used up before the routine has ended)'
    one_check 'price list builds' gcc -std=c99 "${stricter[@]}" -o "$built/price_list" examples/price_list.c "$archive"
    one_check 'price list says what is stored' says_as_stored price_list
    one_check 'annex builds' gcc -std=c99 "${stricter[@]}" -o "$built/annex" examples/annex.c "$archive"
    one_check 'annex says what is stored' says_as_stored annex
    one_check 'annex is refused by the check' example_refused annex 's/PI_KIND_GT/PI_KIND_SUM/' \
        'refused 11 at 0 (type: the node takes another type)'
    one_check 'annex is refused for its page' example_refused annex 's/PI_PAGE_BYTES(PI_MOST_NODES)/PI_PAGE_BYTES(11)/' \
        'refused 41 at 0 (short page: the page is shorter than 31 bytes a node)'
    one_check 'service screen builds' gcc -std=c99 "${stricter[@]}" -o "$built/service_screen" \
        examples/service_screen.c "$archive"
    one_check 'service screen says what is stored' says_as_stored service_screen
    one_check 'tender builds' gcc -std=c99 "${stricter[@]}" -o "$built/tender" examples/tender.c "$archive"
    one_check 'tender says what is stored' says_as_stored tender
    one_check 'page of the header' header_page
    one_check 'names of the header' header_names
    one_check 'usage of this script' usage_says
    one_check 'host builds' gcc -std=c99 "${strict[@]}" -O2 -g -pthread -o "$built/host" tests/host/*.c "$archive"
    host_run 'host' "$built/host" "$count" "$seed"
    host_run 'host under valgrind' valgrind --quiet --error-exitcode=3 --leak-check=full \
        "$built/host" "$under_valgrind" "$seed" exact
    one_check 'valgrind reports 0 errors' no_errors
}

all_parts
counting=
all_parts

echo "$passed passed, $failed failed" &&
    [ "$failed" -eq 0 ]
