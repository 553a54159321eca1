#!/usr/bin/env bash
# Runs the program and hands on its answer only if that is whole; or tests an answer that is stored already.
# The program's own exit status says nothing of that: it is 0 also where the answer could not be written.
set -u
export LC_ALL=C

help="usage: tools/whole.sh [PROGRAM [ARGUMENT..]] <INPUT >ANSWER
       tools/whole.sh --test INPUT ANSWER

The first runs PROGRAM, target/bin/pirun if none is named, on standard input and
writes its answer to standard output if it is whole, and else nothing. The second
tells whether ANSWER is the whole answer to INPUT; both are files.

An answer is whole if it ends with a newline and has 3 lines where it is a refusal
from 1 to 22, and otherwise 3 lines and one for each register.

Exit status: 0 the answer is whole, and a refusal is an answer; 1 it is not, or a
stream failed; 2 the command line is wrong, or there is no program."

# One byte more than the longest input that fits is all that the program reads.
most_bytes=16137
# From this refusal on the answer has the registers.
first_of_the_run=30

fail() { # STATUS MESSAGE
    echo "whole.sh: $2" >&2
    exit "$1"
}

# The image's count of registers, its second word, least byte first; nothing where the input is shorter.
registers_of() { # INPUT
    od -An -v -tu1 -j4 -N4 "$1" 2>/dev/null | awk 'NF == 4 { print $1 + 256 * ($2 + 256 * ($3 + 256 * $4)) }'
}

# Whether this is all of the answer to the input.
is_whole() { # INPUT ANSWER
    local outcome number lines registers wanted=3
    [ -s "$2" ] && [ "$(tail -c 1 "$2" | od -An -tu1 | tr -d ' ')" = 10 ] || return 1
    read -r outcome number _ <"$2"
    registers=$(registers_of "$1")
    if [ "$outcome" != refused ] || [ "$number" -ge "$first_of_the_run" ] 2>/dev/null; then
        wanted=$((3 + ${registers:-0}))
    fi
    lines=$(wc -l <"$2")
    [ "$lines" -eq "$wanted" ]
}

case ${1-} in
-h | --help)
    echo "$help"
    exit 0
    ;;
--test)
    [ $# -eq 3 ] || fail 2 'wrong arguments for --test; see --help'
    for file in "$2" "$3"; do
        [ -r "$file" ] && [ ! -d "$file" ] || fail 2 "$file cannot be read"
    done
    is_whole "$2" "$3" || fail 1 "$3 is not a whole answer"
    exit 0
    ;;
-*)
    fail 2 "no option $1; see --help"
    ;;
esac

[ $# -gt 0 ] || set -- "$(dirname "$0")/../target/bin/pirun"
command -v "$1" >/dev/null || fail 2 "there is no program $1; \`tools/build.sh\` makes target/bin/pirun"
made=$(mktemp -d) || fail 1 'no room for the answer'
trap 'rm -rf "$made"' EXIT

head -c "$most_bytes" >"$made/input" || fail 1 'no answer, since standard input could not be read'
"$@" <"$made/input" >"$made/answer" || fail 1 "no whole answer: $1 ended with status $?"
is_whole "$made/input" "$made/answer" || fail 1 "no whole answer from $1"
cat "$made/answer" || fail 1 'the answer could not be written whole'
