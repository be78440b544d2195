#!/bin/sh
# mutants.sh BUILD SEED: builds each error of self.c, editions.c, stops.c, copies.c and lanes.c into the comparison, which
# must tell it, and none, which must not differ.
# The errors about NULL are built into the comparison of empty pieces too, and errors 18, 32 and 88, which show with an
# empty piece whether or not it is NULL, errors 35, 36 and 61 to 63, as counts of commands and a fence go round there,
# errors 99, 101, 107 and 126, as a kernel stops in an empty window there, and error 128, as the bytes behind the report
# are watched there too. Only error 21 may end the comparison by a signal.
# BUILD: the folder of this folder's objects; CC, CFLAGS and LDFLAGS as for make.
set -eu
here=$(cd "$(dirname "$(readlink -f "$0")")" && pwd -P)
build=$1
seed=$2
missed=0
builds=0

try() { # PROGRAM MUTANT WORD..: the program's last line, or the signal that ended it
    program=$1
    mutant=$2
    shift 2
    # shellcheck disable=SC2086
    ${CC:-gcc} ${CFLAGS:--std=c11 -O2} -I "$here/.." -DMUTANT="$mutant" "$here/self.c" "$here/editions.c" "$here/stops.c" "$here/copies.c" "$here/lanes.c" "$build/$program-all.o" ${LDFLAGS:-} -o "$build/mutant"
    status=0
    "$build/mutant" "$@" > "$build/mutant.out" || status=$?
    builds=$((builds + 1))
    told=1
    case $mutant in
        0) told=0 ;;
        21) told=139 ;; # it reads through a NULL
    esac
    [ $status -eq $told ] || missed=$((missed + 1))
    end=$(tail -1 "$build/mutant.out")
    [ $status -lt 128 ] || end="ended by signal $((status - 128))"
    echo "mutant $mutant, $program: $end"
}

for error in $(seq 0 156); do
    try whole "$error" 20000 "$seed"
done
for error in 0 18 19 20 21 22 32 33 35 36 61 62 63 88 89 99 101 107 126 128; do
    try null $error
done
rm -f "$build/mutant" "$build/mutant.out"
echo "$builds builds, $missed wrong"
[ $missed -eq 0 ]
