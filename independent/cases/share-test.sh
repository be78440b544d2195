#!/bin/sh
# share-test.sh BUILD: a comparison must fail where no turn is served, or few are, or no device is made, or no piece is lent
# as NULL, though nothing differs. Each program is built with the device as it is, and with ones that refuse all turns, most
# turns, and all makings; the one that lends NULL also without.
# BUILD: the folder of this folder's objects; CC, CFLAGS and LDFLAGS as for make.
set -eu
top=$(cd "$(dirname "$(readlink -f "$0")")/.." && pwd -P)
build=$1
work=$build/share-test
mkdir -p "$work"
wrong=0
asked='if (memory_refused(device, lent->memory_len))'
making='if (memory_refused(device, memory_len))'
lending='before->nulls = n % 2 == 1;'
self="$build/whole/self.o $build/whole/editions.o $build/whole/stops.o $build/whole/copies.o $build/whole/lanes.o"
objects=$(cd "$top" && find device cases -name '*.c' ! -path device/device.c ! -path device/replay.c |
    sed "s|^|$build/|; s|c\$|o|")

link() { # PROGRAM OBJECT..
    program=$1
    shift
    # shellcheck disable=SC2086
    ${CC:-gcc} "$@" "$work/device.o" $objects ${LDFLAGS:-} -o "$work/$program"
}

edit() { # FOLDER NAME TEXT TEXT: compiles FOLDER/NAME.c with the second text in the place of the first
    awk -v old="$3" -v new="$4" '
        { at = index($0, old) }
        at { $0 = substr($0, 1, at - 1) new substr($0, at + length(old)); made++ }
        { print }
        END { exit made != 1 }' "$top/$1/$2.c" > "$work/$2.c"
    # shellcheck disable=SC2086
    ${CC:-gcc} ${CFLAGS:--std=c11 -O2} -I "$top" -I "$top/$1" -c "$work/$2.c" -o "$work/$2.o"
}

build_with() { # TEXT TEXT: the device with the second in the place of the first
    edit device device "$1" "$2"
    link record "$build/records/record.o" "$build/records/records.o"
    link recordcheck "$build/records/recordcheck.o" "$build/records/records.o"
    # shellcheck disable=SC2086
    link compare-self "$build/whole/whole.o" $self
    link compare-runs "$build/runs/run.o" "$build/runs/outputs.o" "$build/runs/spawn.o"
    link replay "$build/device/replay.o"
}

# A run must end with this status; its last two lines must tell the share and, where it compares, no difference.
try() { # STATUS END COMMAND..
    wanted=$1
    end=$2
    shift 2
    status=0
    "$@" > "$work/out" 2> "$work/err" || status=$?
    told=$(cat "$work/err" "$work/out" | tail -2 | grep -a 'served a command') || told="no share is told"
    case $status-$(cat "$work/err" "$work/out" | tail -1) in
    "$wanted"-*"$end") ;;
    *) wrong=$((wrong + 1)) told="$told; WRONG" ;;
    esac
    echo "  ${1##*/}: status $status, $told"
}

record() { "$work/record" 1 500 > "$work/calls"; }

try_calls() { # STATUS
    try "$1" "" record
    try "$1" "500 calls, 0 differ" "$work/recordcheck" "$work/calls"
    try "$1" "500 calls, 0 differ" "$work/compare-self" 500 1
}

try_all() { # STATUS
    try_calls "$1"
    try "$1" "500 cases, 0 differ" "$work/compare-runs" 500 1 "$work/replay"
}

echo "with the device as it is"
build_with "$asked" "$asked"
try_all 0
echo "with one that refuses all turns"
build_with "$asked" "if (lent != NULL)"
try_all 1
echo "with one that refuses most turns"
build_with "$asked" "if (lent->memory_len % 64 != 0 || memory_refused(device, lent->memory_len))"
try_all 1
echo "with one that makes no device"
build_with "$making" "if (memory_len != UINT64_MAX || memory_refused(device, memory_len))"
try_calls 1
echo "with the device as it is, and nothing lent as NULL"
build_with "$asked" "$asked"
edit whole whole "$lending" "before->nulls = 0;"
# shellcheck disable=SC2086
link compare-self "$work/whole.o" $self
try 1 "500 calls, 0 differ" "$work/compare-self" 500 1
rm -rf "$work"
echo "16 runs, $wrong wrong"
[ $wrong -eq 0 ]
