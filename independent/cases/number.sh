# shellcheck shell=sh
# A number handed to a script, as cases/number.h has it: decimal digits alone, below 2^64.
is_number() { # TEXT
    case $1 in ''|*[!0-9]*) return 1 ;; esac
    expr "$1" '<' 18446744073709551616 >/dev/null
}
