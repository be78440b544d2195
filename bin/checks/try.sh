# shellcheck shell=sh
# What every check goes by: the repository as the current folder, a scratch folder, and 'try'. A check ends with 'exit $wrong'.
self=$(readlink -f "$0")
root=${self%/*/*/*}
cd "$root" || exit 2
scratch=$(mktemp -d "${TMPDIR:-/tmp}/check.XXXXXX") || exit 2
trap 'rm -rf "$scratch"' EXIT
trap 'exit 2' HUP INT TERM
wrong=0

# shellcheck disable=SC2034
hold() { # WHAT WANTED GOT
    [ "$2" = "$3" ] || { printf '%s is\n%s\nand not\n%s\n\n' "$1" "$3" "$2"; wrong=1; }
}

# Runs a command and holds what it gives to what it should give.
try() { # STATUS OUT ERR COMMAND...
    want_status=$1 want_out=$2 want_err=$3
    shift 3
    "$@" >"$scratch/out" 2>"$scratch/err"
    hold "$*: the status" "$want_status" $?
    hold "$*: standard output" "$want_out" "$(cat "$scratch/out")"
    hold "$*: standard error" "$want_err" "$(cat "$scratch/err")"
}
