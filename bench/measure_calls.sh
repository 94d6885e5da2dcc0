#!/bin/bash
# Measures the calls of the library for C: how many a second so many threads make, beside the same ledger under a pthread_mutex, and how
# long they take while one thread is stopped. Then the calls of one process from C beside the same calls from Rattle.
#
#   bench/measure_calls.sh [SECONDS [FOLDER [c]]]
#
# Each figure of the first table is of about SECONDS (1). The table calls.csv and its picture calls.svg are left in FOLDER (docs/speed). It
# needs a C compiler, python3 and the library that `bezglami build` leaves. With `c` as the third word nothing of Rattle is built: the
# program in Rattle is proved over copies of the crates in a new folder, which is removed at the end.

set -euo pipefail
export LC_ALL=C
here=$(cd -- "$(dirname -- "$0")" && pwd)
root=$here/..
seconds=${1:-1}
folder=${2:-$root/docs/speed}
part=${3:-all}
work=$(mktemp -d)
trap 'rm -rf -- "$work"' EXIT
"$root/bindings/libraries.sh" "$work/libraries"
library=$work/libraries/libbezglami.a

compile() {
    "${CC:-cc}" -std=c11 -D_POSIX_C_SOURCE=200809L -O2 -pthread -I"$root/bindings/c" "$@" "$library"
}

# The crates that one has below it, with it, from the lines of crates.txt.
crates_below() {
    awk -v wanted="$1" '
        /^at_/ { name = $1; sub(/:$/, "", name); line = $0; sub(/^[^:]*: */, "", line); uses[name] = line }
        function take(name,    i, n, below) {
            if (name in seen || !(name in uses)) return
            seen[name] = 1
            n = split(uses[name], below, " ")
            for (i = 1; i <= n; i++) take(below[i])
            print name
        }
        END { take(wanted) }' "$root/crates.txt"
}

# Proves and builds the program in Rattle, and leaves its name in `proved`.
build_proved() {
    local crate program=$work/crates/calls_bench
    git -C "$work" init --quiet
    cp -- "$root/HANDLES" "$work/"
    for crate in $(crates_below at_object); do
        mkdir -p -- "$work/crates/$crate"
        cp -r -- "$root/crates/$crate/"{src,specs,proofs} "$work/crates/$crate/"
        grep "^$crate:" "$root/crates.txt" >>"$work/crates.txt"
    done
    echo "calls_bench: anyhow at_ledger at_log at_object" >>"$work/crates.txt"
    mkdir -p -- "$program/src" "$program/proofs/make_all"
    cp -- "$here/calls/one.rt.txt" "$program/src/main.rt"
    cp -- "$here/calls/make_all.antt.txt" "$program/proofs/make_all/Invariants.antt"
    touch -- "$program/proofs/Lib.antt"
    (cd -- "$program" && rt run >"$work/log" 2>&1) || { tail -n 20 "$work/log" >&2; exit 1; }
    proved=$program/out/calls_bench
}

# The least of both programs in turns, by the number of processes.
compare() {
    local turn
    for turn in 1 2 3 4 5; do
        "$work/one" | sed 's/^/C /'
        "$proved" | sed 's/^/Rattle /'
    done | awk '
        { key = $1 " " $2; if (!(key in least) || $3 < least[key]) least[key] = $3 }
        END {
            for (processes = 1; processes <= 16; processes += 15)
                printf "%d processes: %.1f ns a call from C, %.1f ns from Rattle, ratio %.3f\n", processes, least["C " processes] / 8192,
                    least["Rattle " processes] / 8192, least["C " processes] / least["Rattle " processes]
        }'
}

# How many instructions the exports take with all that they call.
count_instructions() {
    local processes
    command -v valgrind >/dev/null || return 0
    for processes in 1 4 16; do
        valgrind --tool=callgrind --callgrind-out-file="$work/counted" "$work/one" 2 "$processes" >/dev/null 2>&1
        callgrind_annotate --inclusive=yes --threshold=100 "$work/counted" 2>/dev/null | tr -d , | awk -v processes="$processes" '
            /:bezglami_transfer / { transfer = $1 / 8192 }
            /:bezglami_read / { read = $1 / 8192 }
            END { printf "%d processes: %.0f instructions of a transfer from C, %.0f of a read\n", processes, transfer, read }'
    done
}

compile "$here/calls/calls.c" "$here/calls/locked.c" -o "$work/calls"
compile "$here/calls/one.c" -o "$work/one"
echo "load before: $(cut -d ' ' -f 1-3 /proc/loadavg), processors: $(nproc)"
mkdir -p -- "$folder"
"$work/calls" "$seconds" | tee "$folder/calls.csv"
python3 "$here/calls/plot.py" <"$folder/calls.csv" >"$folder/calls.svg"
if [ "$part" = all ]; then
    build_proved
    compare
else
    "$work/one" | awk '{ printf "%d processes: %.1f ns a call from C\n", $1, $2 / 8192 }'
fi
count_instructions
