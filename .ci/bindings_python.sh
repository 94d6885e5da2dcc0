#!/bin/sh
# Tests the module over a library that `bindings/libraries.sh` has left: its calls, and its example, the report of which the built program
# verifies. Where there is no python3 of 3.10 or later it tries nothing.
#
#   bindings_python.sh LIBRARIES
set -eu
cd "$(dirname "$0")/.."
if ! python3 -c 'import sys; sys.exit(sys.version_info < (3, 10))' 2>/dev/null; then
    .ci/left_out.sh 'bindings in Python' 'no python3 of 3.10 or later'
    exit 0
fi
BEZGLAMI_LIB=$(CDPATH='' cd -- "$1" && pwd)
export BEZGLAMI_LIB PYTHONDONTWRITEBYTECODE=1
work=$(mktemp -d)
trap 'rm -rf -- "$work"' EXIT
(cd bindings/python && python3 -W error -m unittest) >"$work/said" 2>&1 || { cat "$work/said" >&2; exit 1; }
sed -n 's/^Ran \([0-9]*\) tests.*/bindings: Python, \1 tests passed/p' "$work/said"
python3 bindings/python/example.py >"$work/report" 2>"$work/said" || { cat "$work/said" >&2; exit 1; }
if [ "$(grep -c -e '^[01] was answered DONE$' -e '^[01] was answered SHORT$' "$work/said")" -ne 2 ]; then
    echo 'bindings: the example in Python says something else:' >&2
    cat "$work/said" >&2
    exit 1
fi
.ci/bindings_verify.sh example.py examples/short/book.csv "$work/report" examples/short/ann.csv examples/short/ann.csv
