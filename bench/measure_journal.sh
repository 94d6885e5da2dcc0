#!/bin/bash
# Compares `journal` of the crate at_journal with a plain Rust program, on the largest closing and on one of half its size.
#
#   bench/measure_journal.sh [TURNS [WORD...]]
#
# The proved crates are copied into a new folder, beside a program that makes the closings and calls `journal`. That program takes
# it for granted, from a function in C, that its closings are coherent: nothing in the repository rests on it. Each program makes its
# journals 15 times and prints the least time; they take turns TURNS times (5), and the least of all is told. Both have
# to make the same lines. The words are put before each program, as `chrt -f 10`, by which other work on the machine waits.
# The folder is removed at the end.

set -euo pipefail
export LC_ALL=C
turns=${1:-5}
before=("${@:2}")
here=$(cd -- "$(dirname -- "$0")" && pwd)
work=$(mktemp -d)
trap 'rm -rf -- "$work"' EXIT

# Copies the crates below the program, and proves and builds it.
build_proved() {
    local crate program=$work/proved/crates/journal_bench
    mkdir -p -- "$program/src" "$program/c" "$program/proofs/journal_of"
    git -C "$work/proved" init --quiet
    cp -- "$here/../HANDLES" "$work/proved/"
    for crate in at_base at_ledger at_history at_board at_log at_journal; do
        mkdir -- "$work/proved/crates/$crate"
        cp -r -- "$here/../crates/$crate/"{src,specs,proofs} "$work/proved/crates/$crate/"
        grep "^$crate:" "$here/../crates.txt" >>"$work/proved/crates.txt"
    done
    echo "journal_bench: at_base at_board at_journal at_ledger at_log" >>"$work/proved/crates.txt"
    cp -- "$here/journal/proved/main.rt.txt" "$program/src/main.rt"
    cp -- "$here/journal/proved/Answers.antt.txt" "$program/proofs/journal_of/Answers.antt"
    cp -- "$here/journal/proved/taken.c" "$program/c/taken.c"
    (cd -- "$program" && RT_ALLOW_C=1 rt run >"$work/log" 2>&1) || { tail -n 20 "$work/log" >&2; exit 1; }
    proved=$program/out/journal_bench
}

build_plain() {
    cp -r -- "$here/journal/plain" "$work/plain"
    cargo build --quiet --release --offline --manifest-path "$work/plain/Cargo.toml" --target-dir "$work/built"
    plain=$work/built/release/plain_journal
}

# Runs a program and keeps the least time of each size, and the sum over its lines.
declare -A best sums
keep_best() {
    local records lines sum took
    while read -r records lines sum took; do
        if [ -z "${best[$1 $lines]-}" ] || [ "$took" -lt "${best[$1 $lines]}" ]; then best[$1 $lines]=$took; fi
        if [ -n "${sums[$lines]-}" ] && [ "${sums[$lines]}" != "$sum" ]; then echo "the journals differ" >&2; exit 1; fi
        sums[$lines]=$sum
    done < <("${before[@]}" "$2")
}

ratio() {
    awk -v a="${best[$1]}" -v b="${best[$2]}" 'BEGIN { printf "%.2f", a / b }'
}

milliseconds() {
    awk -v a="${best[$1]}" 'BEGIN { printf "%.1f ms", a / 1000 }'
}

build_proved
build_plain
for ((turn = 0; turn < turns; turn++)); do
    keep_best proved "$proved"
    keep_best plain "$plain"
done
for lines in 131072 262144; do
    echo "$((lines / 2)) records, $lines lines: proved $(milliseconds "proved $lines"), plain $(milliseconds "plain $lines"), proved to plain $(ratio "proved $lines" "plain $lines")"
done
echo "the whole to its half: proved $(ratio "proved 262144" "proved 131072"), plain $(ratio "plain 262144" "plain 131072")"
