#!/bin/sh
# Builds what calls the static library from C, and runs it: each export with each kind of handle, wrong numbers and refused memory, the short
# program, and a thread for each process. Then threads under sanitizers and valgrind, the crate, the module, and the release, which it
# makes. Each report is verified by the built program. What needs a tool that isn't there is left out, and said.
set -eu
cd "$(dirname "$0")/.."
cc=${CC:-cc}
.ci/library.sh
if ! command -v "$cc" >/dev/null || ! command -v objcopy >/dev/null; then
    .ci/left_out.sh bindings 'no C compiler, or no binutils'
    exit 0
fi
work=$(mktemp -d)
trap 'rm -rf -- "$work"' EXIT
bindings/libraries.sh "$work/libraries"
library=$work/libraries/libbezglami.a
flags="-std=c11 -D_POSIX_C_SOURCE=200809L -Wall -Wextra -Werror -O1 -g -pthread -Ibindings/c"
"$cc" $flags bindings/c/test.c "$library" -Wl,--wrap=malloc -Wl,--wrap=realloc -Wl,--wrap=free -o "$work/test"
"$work/test"
"$cc" $flags bindings/c/short.c "$library" -o "$work/short"
"$work/short" 2>"$work/said" >"$work/report"
cmp "$work/report" examples/short/short.report
if command -v "${CXX:-c++}" >/dev/null; then
    "${CXX:-c++}" -std=c++11 -Wall -Wextra -Wpedantic -Werror -pthread -Ibindings/c -x c++ bindings/c/short.c -x none "$library" -o "$work/short++"
    "$work/short++" 2>"$work/said" | cmp - examples/short/short.report
else
    .ci/left_out.sh 'the header in C++' 'no C++ compiler'
fi
.ci/bindings_verify.sh short.c examples/short/book.csv "$work/report" examples/short/ann.csv examples/short/bob.csv
"$cc" $flags bindings/c/bank.c "$library" -o "$work/bank"
"$work/bank"
"$cc" $flags bindings/c/example.c "$library" -o "$work/example"
for name in realistic owners; do
    "$work/example" "examples/$name/book.csv" "examples/$name"/pay*.csv 2>"$work/said" >"$work/report"
    .ci/bindings_verify.sh "example.c with $name" "examples/$name/book.csv" "$work/report" "examples/$name"/pay*.csv
done
.ci/bindings_threads.sh "$work/libraries"
.ci/bindings_rust.sh "$work/libraries"
.ci/bindings_python.sh "$work/libraries"
program=crates/at_program/out/at_program
if [ -x "$program" ]; then
    # A report may have as many calls of a process as the header says, and not one more.
    takes() {
        yes read,0 | head -n "$1" >"$work/calls"
        "$program" check examples/usual/book.csv "$work/calls" >"$work/said" 2>&1
    }
    most=$(sed -n 's/^#define BEZGLAMI_VERIFY_CALLS_MOST \([0-9]*\).*/\1/p' bindings/c/bezglami.h)
    if ! takes "$most" || takes "$((most + 1))"; then
        echo "bindings: a payment file has another number of calls at most than $most" >&2
        exit 1
    fi
    bindings/release.sh 2>"$work/said" || { cat "$work/said" >&2; exit 1; }
    .ci/bindings_release.sh "$work/libraries"
else
    .ci/left_out.sh 'the release' 'the program is not built'
fi
