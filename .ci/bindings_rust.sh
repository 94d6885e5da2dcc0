#!/bin/sh
# Tests the crate over a library that `bindings/libraries.sh` has left: its calls, what its types refuse, and the example of its front page,
# the report of which the built program verifies. Where there is no cargo it tries nothing. Nothing is fetched.
#
#   bindings_rust.sh LIBRARIES
set -eu
cd "$(dirname "$0")/.."
if ! command -v cargo >/dev/null; then
    .ci/left_out.sh 'bindings in Rust' 'no cargo'
    exit 0
fi
BEZGLAMI_LIB=$(CDPATH='' cd -- "$1" && pwd)
work=$(mktemp -d)
trap 'rm -rf -- "$work"' EXIT
export BEZGLAMI_LIB CARGO_TARGET_DIR="$work/target" RUSTFLAGS='-D warnings'
cp -r bindings/rust "$work/crate"
cargo test --quiet --offline --manifest-path "$work/crate/Cargo.toml" >"$work/said" 2>&1 || { cat "$work/said" >&2; exit 1; }
echo "bindings: Rust, $(awk '/^test result: ok/ { tests += $4 } END { print tests }' "$work/said") tests passed"
set --
if command -v valgrind >/dev/null; then
    set -- valgrind --quiet --error-exitcode=9 --leak-check=full --errors-for-leak-kinds=definite
else
    .ci/left_out.sh 'what the crate frees' 'no valgrind'
fi
"$@" "$work/target/debug/examples/short" >"$work/report" 2>"$work/said" || { cat "$work/said" >&2; exit 1; }
if [ "$(grep -c -e '^[01] was answered done$' -e '^[01] was answered short$' "$work/said")" -ne 2 ]; then
    echo 'bindings: the example in Rust says something else:' >&2
    cat "$work/said" >&2
    exit 1
fi
.ci/bindings_verify.sh short.rs examples/short/book.csv "$work/report" examples/short/ann.csv examples/short/ann.csv
