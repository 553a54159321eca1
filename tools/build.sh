#!/usr/bin/env bash
# Builds what a user takes from here: the engine's static library, target/staticlib/libengine.a, and the program, target/bin/pirun.
set -u

help='usage: tools/build.sh

Proves and builds the static library, target/staticlib/libengine.a, and the program,
target/bin/pirun. The first time it takes some minutes, for the proofs; what has not
changed since is taken from what was kept then.

Exit status: 0 both are built; 1 one of them is not; 2 the command line is wrong.'

case ${1-} in
-h | --help)
    echo "$help"
    exit 0
    ;;
'') ;;
*)
    echo "tools/build.sh: it takes no arguments; see --help" >&2
    exit 2
    ;;
esac
top=$(cd "$(dirname "$0")/.." && pwd) || exit 1

# The command runs in the crate's folder; what it says is shown where it fails.
made() { # CRATE COMMAND..
    local said
    said=$(cd "$top/crates/$1" && shift && "$@" 2>&1 </dev/null) && return
    printf '%s\n' "$said" >&2
    echo "tools/build.sh: $1 was not built" >&2
    exit 1
}

made engine rt lib
made pirun rt run
mkdir -p "$top/target/staticlib" "$top/target/bin" || exit 1
cp "$top/crates/engine/out/libengine.a" "$top/target/staticlib/libengine.a" || exit 1
cp "$top/crates/pirun/out/pirun" "$top/target/bin/pirun" || exit 1
