#!/bin/bash
# Measures `replay` on a schedule of 1,000,000 turns over 16 processes of 64 calls each, and on half the turns.
#
#   bench/measure_replay.sh PROGRAM [TURNS]
#
# PROGRAM is the proved one, as crates/at_program/out/at_program. Each figure is the best of TURNS times (15), in which the
# schedules take turns. Everything is made in a new folder, which is removed at the end.

set -euo pipefail
export LC_ALL=C
if [ $# -lt 1 ] || [ ! -x "$1" ]; then
    echo "usage: measure_replay.sh PROGRAM [TURNS]" >&2
    exit 2
fi
program=$(realpath -- "$1")
times=${2:-15}
work=$(mktemp -d)
trap 'rm -rf -- "$work"' EXIT

# Makes a book in which eight and eight processes share an account and each has one of its own, and the calls of each
# process: payments from both, and reads.
make_files() {
    awk -v folder="$work" '
        function draw(below) { x = x * 16807 % 2147483647; return x % below }
        function call(p,    kind) {
            kind = draw(4)
            if (kind == 0) return "read," draw(18)
            if (kind == 1) return "transfer," 16 + int(p / 8) "," draw(18) "," 1 + draw(100)
            return "transfer," p "," draw(18) "," 1 + draw(100)
        }
        BEGIN {
            x = 20190729
            file = folder "/book.csv"
            print "book,1\nprocesses,16\nlimits,64,64" >file
            for (p = 0; p < 16; p++) print "account," p ",100000," p >file
            print "account,16,100000,0 1 2 3 4 5 6 7\naccount,17,100000,8 9 10 11 12 13 14 15" >file
            for (p = 0; p < 16; p++) {
                file = sprintf("%s/pay%02d.csv", folder, p)
                for (i = 0; i < 64; i++) print call(p) >file
            }
        }'
}

# Makes a schedule of so many drawn turns.
make_schedule() {
    awk -v turns="$1" 'BEGIN { x = 7; for (i = 0; i < turns; i++) { x = x * 16807 % 2147483647; print x % 16 } }' \
        >"$work/$1.csv"
}

# Prints the milliseconds that a replay by that schedule takes.
replay() {
    local began ended
    began=$(date +%s%N)
    "$program" replay "$work/book.csv" "$work/$1.csv" "$work"/pay*.csv >"$work/$1.report"
    ended=$(date +%s%N)
    echo $(((ended - began) / 10000)) | sed 's/\(..\)$/.\1/'
}

make_files
sizes="0 500000 1000000"
for size in $sizes; do
    make_schedule "$size"
    : >"$work/$size.times"
done
for _ in $(seq "$times"); do
    for size in $sizes; do
        replay "$size" >>"$work/$size.times"
    done
done
for size in $sizes; do
    "$program" verify "$work/book.csv" "$work/$size.report" "$work"/pay*.csv >/dev/null
    echo "$size scheduled turns, 1,024 calls of 16 processes: $(sort -n "$work/$size.times" | head -n 1) ms"
done
