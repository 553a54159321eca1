#!/usr/bin/env bash
# Makes the image of each sample routine, runs it, and compares with the output stored beside it; works out its needs, its
# page and its ranges and compares with those stored; and holds the price list, the annex, the service screen and the tender
# to them.
# A part that cannot run counts as failed. The last line is 'N passed, M failed'; the exit status is 0 only when M is 0.
set -u

help='usage: examples/run.sh [PROGRAM [ARGUMENT..]]

Runs every sample routine and compares what PROGRAM prints with what is stored;
and compares the needs, the page and the ranges of each, which the image tool
prints, the price list, the annex, the service screen and the tender.
PROGRAM reads an image and its starting values from standard input. It is
target/bin/pirun if none is named; another one is the second interpreter:
  examples/run.sh tests/second/target/release/second program
It takes a second, and the first time some ten more to build the image tool.'
case ${1-} in
-h | --help)
    echo "$help"
    exit 0
    ;;
'')
    set -- "$(dirname "$0")/../target/bin/pirun"
    ;;
esac

# Nothing can run without this.
none_run() { # WHAT IS MISSING
    echo "all: FAILED, $1"
    echo '0 passed, 1 failed'
    exit 1
}

# How the program is built, by the end of its path.
how_to_build() { # PROGRAM
    case $1 in
    *pirun) echo 'tools/build.sh (some minutes the first time)' ;;
    *second) echo 'cargo build --offline --release --manifest-path tests/second/Cargo.toml' ;;
    esac
}

if ! command -v "$1" >/dev/null; then
    builds=$(how_to_build "$1")
    none_run "there is no program $1${builds:+; to build it: $builds}"
fi
# A program named by a path is looked for where the script was called.
program=$1
shift
arguments=("$@")
case $program in
*/*) program=$(realpath "$program") ;;
esac
cd "$(dirname "$0")/.." || exit 2
cargo build --offline --quiet --release --manifest-path tests/image/Cargo.toml || none_run 'the image tool does not build'
image=tests/image/target/release/image

passed=0
failed=0
made=$(mktemp -d) || exit 2
trap 'rm -rf "$made"' EXIT

# Runs a routine with its starting values. The program is judged by what it prints.
runs_as_stored() { # NAME
    local values
    values=$(cat "examples/$1.values") || return
    # shellcheck disable=SC2086 # one argument a value
    "$image" make "examples/$1.pi" $values >"$made/input" || return
    "$program" "${arguments[@]}" <"$made/input" >"$made/output"
    diff "examples/$1.out" "$made/output"
}

# The needs of a routine, which no program runs for.
needs_as_stored() { # NAME
    "$image" needs "examples/$1.pi" >"$made/needs" && diff "examples/$1.needs" "$made/needs"
}

# The page of a routine, the same way.
page_as_stored() { # NAME
    "$image" page "examples/$1.pi" >"$made/page" && diff "examples/$1.page" "$made/page"
}

# The ranges of a routine from its limits, the same way.
ranges_as_stored() { # NAME
    local limits
    limits=$(cat "examples/$1.limits") || return
    # shellcheck disable=SC2086 # one argument a range
    "$image" ranges "examples/$1.pi" $limits >"$made/ranges" && diff "examples/$1.ranges" "$made/ranges"
}

# README.md shows the lines of a file, but for empty ones.
readme_shows() { # FILE
    local line
    while IFS= read -r line; do
        [ -z "$line" ] || grep -qxF -- "    $line" README.md || { echo "README.md does not show: $line"; return 1; }
    done <"$1"
}

# The price list, which a C program prints (tests/host/run.sh runs it), has what is stored of each routine it names; and
# README.md shows it.
price_list_as_stored() {
    local line name control values cells bindings steps rows=0
    while read -r name line; do
        rows=$((rows + 1))
        case $line in
        refused*)
            sed -E 's/^refused ([0-9]+) at [0-9]+ \((.*)\)$/\1 \2/' <<<"$line" >"$made/needs"
            sed 's/^[^ ]*: //' "examples/$name.needs" | diff - "$made/needs" || return
            ;;
        *)
            read -r control values cells bindings steps <<<"$line"
            printf '%s\n' "control $control" "values $values" "cells $cells" "bindings $bindings" "steps $steps" |
                diff "examples/$name.needs" - || return
            ;;
        esac
    done < <(sed 1d examples/price_list.out)
    [ "$rows" -gt 0 ] && readme_shows examples/price_list.out
}

# The annex, which a C program prints too, is the page that is stored of its routine, below a heading; and README.md
# shows it.
annex_as_stored() {
    local name
    read -r name <examples/annex.out
    sed '1,/^node /d' examples/annex.out | diff "examples/$name.page" - && readme_shows examples/annex.out
}

# The high marks of a run, each as MARK/FIGURE: the figures are those stored of the routine, 0 where it has none, and no
# mark is above its figure.
marks_within_needs() { # NAME CELLS BINDINGS VALUES CONTROL
    local size figure needs=examples/$1.needs
    for size in cells="$2" bindings="$3" values="$4" control="$5"; do
        figure=$(sed -n "s/^${size%%=*} //p" "$needs")
        [ "${size#*/}" = "${figure:-0}" ] || { echo "$1: $size, and $needs has ${figure:-none}"; return 1; }
        size=${size#*=}
        [ "${size%/*}" -le "${size#*/}" ] || { echo "$1: $size"; return 1; }
    done
}

# The service screen, which a C program prints too: the first run of each routine has the answer, the steps and the high
# marks that are stored, every run the figures; and README.md shows it.
service_screen_as_stored() {
    local name run steps cells bindings values control answer first=0
    while read -r name run steps cells bindings values control answer; do
        [ "$name" = limit ] && continue
        marks_within_needs "$name" "$cells" "$bindings" "$values" "$control" || return
        [ "$run" = 1 ] || continue
        first=$((first + 1))
        [ "$answer" != ended ] || answer=none
        printf '%s\n' "$answer" "steps $steps" "most ${cells%/*} ${bindings%/*} ${values%/*} ${control%/*}" |
            diff <(head -n 3 "examples/$name.out") - || return
    done < <(sed 1d examples/service_screen.out)
    [ "$first" -gt 0 ] && readme_shows examples/service_screen.out
}

# The tender, which a C program prints too, has the limits and the ranges that are stored of each routine it names, or why it
# has none; and README.md shows it.
tender_as_stored() {
    local name register starts ends limits rows=0
    while read -r name register starts ends; do
        rows=$((rows + 1))
        if [ "$register" = refused ]; then
            sed -E 's/^[0-9 ]* at [0-9]+ \((.*)\)$/\1/' <<<"$starts $ends" >"$made/ranges"
            sed -E 's/^[^ ]* [0-9]+ //' "examples/$name.ranges" | diff - "$made/ranges" || return
            continue
        fi
        grep -qxF "register $register $ends" "examples/$name.ranges" || { echo "$name: register $register $ends"; return 1; }
        read -r -a limits <"examples/$name.limits"
        [ "$starts" = "${limits[register]}" ] || [ "$starts" = "${limits[register]}..${limits[register]}" ] ||
            { echo "$name: register $register starts at $starts"; return 1; }
    done < <(sed 1d examples/tender.out)
    [ "$rows" -gt 0 ] && readme_shows examples/tender.out
}

one_check() { # NAME COMMAND..
    local name=$1
    shift
    if "$@"; then
        passed=$((passed + 1))
        echo "$name: ok"
    else
        failed=$((failed + 1))
        echo "$name: FAILED"
    fi
}

for name in $(basename -a examples/*.{pi,values,needs,page,limits,ranges} | sed 's/\.[a-z]*$//' | sort -u); do
    one_check "$name" runs_as_stored "$name"
    one_check "$name, needs" needs_as_stored "$name"
    one_check "$name, page" page_as_stored "$name"
    one_check "$name, ranges" ranges_as_stored "$name"
done
one_check 'price list' price_list_as_stored
one_check annex annex_as_stored
one_check 'service screen' service_screen_as_stored
one_check tender tender_as_stored

echo "$passed passed, $failed failed"
[ "$failed" -eq 0 ]
