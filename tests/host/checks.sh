# shellcheck shell=bash disable=SC2154 # run.sh sets what is not set here
# The checks of header, archive and examples, for run.sh, which has set: built, a folder for what is made;
# archive; and the lists of compiler options strict and stricter.

# The file that uses every name of the header compiles with many warnings, links, and has its answers.
every_name() { # COMPILER STANDARD LANGUAGE
    "$1" "-std=$2" "${stricter[@]}" -x "$3" -o "$built/every_name" tests/host/header/every_name.c \
        -x none "$archive" && "$built/every_name"
}

# That file leaves out no macro and no call.
every_name_used() {
    local name missing=0
    {
        sed -n 's/^#define \(PI_[A-Z_]*\).*/\1/p' include/pi_engine.h
        sed -n 's/^Pi[A-Za-z]* \(pi_[a-z_]*\)(.*/\1/p' include/pi_engine.h
        sed -n 's/^} \(Pi[A-Za-z]*\);/\1/p' include/pi_engine.h
    } | grep -vxE 'PI_ENGINE_H|PI_REFUSAL_ENUMERATOR' >"$built/names"
    [ "$(wc -l <"$built/names")" -ge 25 ] || { echo 'few names were found in the header'; return 1; }
    while read -r name; do
        grep -qw "$name" tests/host/header/every_name.c || { echo "it does not use $name"; missing=1; }
    done <"$built/names"
    return $missing
}

# A switch that leaves out a case is warned of, for each of the enums.
missing_cases() { # COMPILER STANDARD LANGUAGE
    local row
    for row in KIND=PI_KIND_VALREF CODE=PI_CODE_COMMAND REFUSAL=PI_REFUSAL_CELLS OUTCOME=PI_OUTCOME_CELL; do
        if LC_ALL=C "$1" "-std=$2" -Iinclude -Werror=switch -fsyntax-only "-DWITHOUT_${row%=*}" \
            -x "$3" tests/host/header/switches.c 2>"$built/warnings"; then
            echo "${row#*=} can be left out"
            return 1
        fi
        grep -q "error: enumeration value '${row#*=}' not handled in switch" "$built/warnings" || {
            cat "$built/warnings"
            return 1
        }
    done
}

# The header's version is the newest that CHANGELOG.md has.
newest_version() {
    local version newest
    version=$(sed -n 's/^#define PI_VERSION "\(.*\)"/\1/p' include/pi_engine.h)
    newest=$(sed -n 's/^- \*\*\([0-9.]*\)\*\*.*/\1/p' CHANGELOG.md | head -n 1)
    echo "the header has $version, CHANGELOG.md $newest"
    [ -n "$version" ] && [ "$version" = "$newest" ]
}

# The archive has every call that the header declares.
has_every_call() {
    local call missing=0
    nm "$archive" >"$built/symbols" || return
    for call in pi_check pi_run pi_check_bytes pi_run_bytes pi_needs pi_page pi_ranges; do
        grep -q " T $call\$" "$built/symbols" || { echo "it has no $call"; missing=1; }
    done
    return $missing
}

# The archive asks for the C library's memory functions alone, and has no data that it could write:
# no memory is taken, and nothing is kept between calls.
needs_little() {
    local asked needed
    nm "$archive" >"$built/symbols" || return
    asked=$(awk 'NF > 1 { if ($(NF - 1) == "T") own[$NF]; if ($(NF - 1) == "U") asked[$NF] }
        END { for (name in asked) if (!(name in own)) print name }' "$built/symbols") || return
    needed=$(grep -vxE 'memcpy|memmove|memset|memcmp|bcmp' <<<"$asked")
    [ -z "$needed" ] || { printf 'it needs %s\n' "$needed"; return 1; }
    ! grep -E ' [BbDdCGgSs] ' "$built/symbols"
}

# The program in the header's first comment.
header_example() {
    sed -n '/^ \* A complete program/,/^ \* It prints/s/^ \*\(     \)\?//p' include/pi_engine.h |
        sed '1,2d;$d' | sed '$d'
}

same_example() {
    header_example >"$built/header_example.c"
    diff "$built/header_example.c" examples/embed.c
}

example_says() { # PROGRAM
    "$1" >"$built/embed.out" && diff "$built/embed.out" examples/embed.out
}

# A further example says what is stored, and so it does where it is built as its first comment says.
says_as_stored() { # NAME
    local command
    "$built/$1" >"$built/$1.out" && diff "$built/$1.out" "examples/$1.out" || return
    command=$(sed -n 's/^ \*     \(cc .*\)/\1/p' "examples/$1.c")
    read -r -a command <<<"$command"
    [ "${command[*]: -3}" = "target/staticlib/libengine.a -o $1" ] || { echo "it is ${command[*]}"; return 1; }
    "${command[@]:0:${#command[@]}-3}" "$archive" -o "$built/as_told" && "$built/as_told" | diff - "examples/$1.out"
}

# The names for the page that the header lists are those of its kinds, in their order.
header_names() {
    sed -n 's/^    PI_KIND_\([A-Z]*\) = .*/\1/p' include/pi_engine.h >"$built/kinds"
    sed -n '/^ \* The names, in the order of PiKind: /,/\.$/s/.*PiKind: \|^ \* //p' include/pi_engine.h |
        grep -o '[A-Za-z]*' | tr '[:lower:]' '[:upper:]' | diff "$built/kinds" -
}

# The page that the header shows is the one that is stored of the same routine.
header_page() {
    sed -n '/^ \*     1234567890/,/^ \*$/s/^ \*     //p' include/pi_engine.h | sed 1d | diff - examples/calculator.page
}

# The command that the header's first comment has, with this archive, and with its program in the folder.
example_as_told() {
    local command
    command=$(sed -n 's/^ \*     \(cc .*\)/\1/p' include/pi_engine.h)
    read -r -a command <<<"$command"
    [ "${command[*]: -3}" = 'target/staticlib/libengine.a -o embed' ] || { echo "it is ${command[*]}"; return 1; }
    "${command[@]:0:${#command[@]}-3}" "$archive" -o "$built/as_told" && example_says "$built/as_told"
}

# An example with a change says why it is refused, and its exit status is 1.
example_refused() { # NAME CHANGE LINE
    sed "$2" "examples/$1.c" >"$built/refused.c"
    gcc -std=c99 "${strict[@]}" -o "$built/refused" "$built/refused.c" "$archive" || return
    "$built/refused" >"$built/refused.out"
    [ $? -eq 1 ] && diff "$built/refused.out" - <<<"$3"
}

# The help goes to standard output; bad usage and a missing archive say what to do.
usage_says() {
    local script=tests/host/run.sh arguments
    "$script" --help >"$built/output" 2>"$built/faults" || return
    grep -q '^usage: ' "$built/output" || return
    "$script" "$archive" -h 2>>"$built/faults" | diff "$built/output" - || return
    diff /dev/null "$built/faults" || return
    for arguments in '' --unknown 'a b c d' 'a many' 'a 1 -2'; do
        echo "arguments: $arguments"
        # shellcheck disable=SC2086 # one argument a word
        "$script" $arguments >"$built/output" 2>"$built/faults"
        [ $? -eq 2 ] && diff /dev/null "$built/output" && grep -q '^usage: ' "$built/faults" || return
    done
    echo 'no archive'
    "$script" "$built/no_archive" >"$built/output" 2>"$built/faults"
    [ $? -eq 1 ] && grep -q 'tools/build.sh' "$built/output" &&
        [ "$(tail -n 1 "$built/output")" = '0 passed, 1 failed' ] && diff /dev/null "$built/faults"
}

# The host's last run wrote no error.
no_errors() {
    [ -f "$built/errors" ] && [ ! -s "$built/errors" ]
}
