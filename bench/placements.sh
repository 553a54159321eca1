#!/usr/bin/env bash
# Runs the benchmark with the engine's code at several places of the program, for one archive or for several in turn, and
# prints each row's times over these places.
set -u

help='usage: bench/placements.sh [ARCHIVE..]

Runs the benchmark with the code of ARCHIVE at eight places, and prints for each row
the least, the median and the greatest of its eight times by the engine. Several
archives are measured in turn, so that one can be held to another: where the linker
happens to put the same code moves a step by a third and more.
ARCHIVE is target/staticlib/libengine.a if none is named.
It takes about two minutes an archive. The machine should have little else to do.'
case ${1-} in
-h | --help)
    echo "$help"
    exit 0
    ;;
esac
bench=$(dirname "$(realpath "$0")")
[ $# -gt 0 ] || set -- "$bench/../target/staticlib/libengine.a"
archives=()
for archive in "$@"; do
    if [ ! -f "$archive" ]; then
        echo "there is no archive $archive; to build it: tools/build.sh
usage: bench/placements.sh [ARCHIVE..]" >&2
        exit 2
    fi
    archives+=("$(realpath "$archive")")
done
made=$(mktemp -d) || exit 2
trap 'rm -rf "$made"' EXIT

# The tables of one run of the benchmark, a time a line: which archive, the row, the time.
times() { # ARCHIVE'S NUMBER
    awk -v archive="$1" '
        /^check, / { table = "check" }
        /^needs and page/ { table = "beside" }
        /^calls, / { table = "" }
        /^run, / { table = "run" }
        /^ranges beside run/ { table = "ranges" }
        /^  .*  +[0-9]+( +[0-9.]+)+$/ {
            name = $0
            sub(/  +[0-9]+( +[0-9.]+)+$/, "", name)
            sub(/^ +/, "", name)
            if (table == "check" || table == "run") {
                printf "%d\t%s, %s\t%s\n", archive, table, name, $(NF - 2)
                checked[name]
            } else if (table == "beside") {
                if (!(name in checked)) printf "%d\tcheck, %s\t%s\n", archive, name, $(NF - 4)
                printf "%d\tneeds, %s\t%s\n", archive, name, $(NF - 3)
                printf "%d\tpage, %s\t%s\n", archive, name, $(NF - 1)
            } else if (table == "ranges") {
                printf "%d\tranges, %s\t%s\n", archive, name, $(NF - 1)
            }
        }'
}

# On a terminal, one line of progress, written over again.
say() { # TEXT
    if [ -t 2 ]; then printf '\r\033[K%s' "$1" >&2; fi
}

for place in 0 1 2 3 4 5 6 7; do
    for number in "${!archives[@]}"; do
        say "place $((place + 1)) of 8, archive $((number + 1)) of ${#archives[@]}"
        # Code is aligned to 16 bytes, and 208 is 13 times that: the places differ within a line of 64 bytes too.
        BENCH_PADDING=$((place * 208)) ENGINE_ARCHIVE=${archives[number]} CARGO_TARGET_DIR=$made/$number \
            cargo build --offline --quiet --release --manifest-path "$bench/Cargo.toml" || exit 1
        "$made/$number/release/bench" >"$made/printed" || exit 1
        times "$number" <"$made/printed" >>"$made/times"
    done
done
say ''

for number in "${!archives[@]}"; do
    echo "archive $((number + 1)): ${archives[number]}"
done
awk -F '\t' -v archives=${#archives[@]} '
    !($2 in known) { known[$2]; rows[++count] = $2 }
    { all[$1, $2, ++often[$1, $2]] = $3 + 0 }
    END {
        printf "%-44s", "nanoseconds a node or a step"
        for (archive = 0; archive < archives; archive++) printf "   %7s %7s %7s", "least", "median", "most"
        print ""
        for (row = 1; row <= count; row++) {
            printf "%-44s", rows[row]
            for (archive = 0; archive < archives; archive++) {
                size = often[archive, rows[row]]
                for (i = 1; i <= size; i++) {
                    time = all[archive, rows[row], i]
                    for (j = i - 1; j > 0 && sorted[j] > time; j--) sorted[j + 1] = sorted[j]
                    sorted[j + 1] = time
                }
                printf "   %7.2f %7.2f %7.2f", sorted[1], (sorted[int((size + 1) / 2)] + sorted[int(size / 2) + 1]) / 2, sorted[size]
            }
            print ""
        }
    }' "$made/times"
