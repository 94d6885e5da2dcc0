#!/bin/bash
# Measures `Node::deliver` of the crate at_broadcast on 65,536 deliveries to 16 nodes, and on half as many.
#
#   bench/measure_deliver.sh
#
# The proved crates are copied into a new folder, beside a program that makes the nodes and the messages and is proved too. It plays
# each order 15 times and tells the least time. The folder is removed at the end.

set -euo pipefail
export LC_ALL=C
here=$(cd -- "$(dirname -- "$0")" && pwd)
work=$(mktemp -d)
trap 'rm -rf -- "$work"' EXIT

# Copies the crates below the program, and proves and builds it.
build() {
    local crate name program=$work/crates/deliver_bench
    git -C "$work" init --quiet
    cp -- "$here/../HANDLES" "$work/"
    for crate in at_base at_ledger at_broadcast; do
        mkdir -p -- "$work/crates/$crate"
        cp -r -- "$here/../crates/$crate/"{src,specs,proofs} "$work/crates/$crate/"
        grep "^$crate:" "$here/../crates.txt" >>"$work/crates.txt"
    done
    echo "deliver_bench: at_base at_broadcast at_ledger" >>"$work/crates.txt"
    mkdir -p -- "$program/src" "$program/proofs"/{deps_of,deliver_row,deliver_rows}
    cp -- "$here/deliver/main.rt.txt" "$program/src/main.rt"
    for name in deps_of deliver_row deliver_rows; do
        cp -- "$here/deliver/$name.antt.txt" "$program/proofs/$name/Invariants.antt"
    done
    touch -- "$program/proofs/Lib.antt"
    (cd -- "$program" && rt run >"$work/log" 2>&1) || { tail -n 20 "$work/log" >&2; exit 1; }
    built=$program/out/deliver_bench
}

build
"$built" | awk '
    BEGIN { split("forwards backwards waiting", names, " ") }
    {
        wanted = $1 == 2 ? 0 : $2
        if ($3 != wanted || $4 != $2) { print "not all is validated that should be" > "/dev/stderr"; exit 1 }
        printf "%d deliveries, %s: %.1f ms\n", 256 * $2, names[$1 + 1], $5 / 1000
        if ($2 == 256) printf "65536 deliveries to 32768, %s: %.2f\n", names[$1 + 1], $5 / half
        half = $5
    }'
