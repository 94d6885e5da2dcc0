#!/bin/sh
# Has the built program verify the report that a binding has made: that it is the report of some legal run of the payment files.
#
#   bindings_verify.sh NAME BOOK REPORT PAY...
set -eu
here=$(dirname -- "$0")
program=$here/../crates/at_program/out/at_program
name=$1
shift
if ! [ -x "$program" ]; then
    "$here/left_out.sh" "the report of $name" 'the program is not built'
    exit 0
fi
said=$("$program" verify "$@")
if [ "$said" != "verified $(sed -n '1s/journal //p' "$2")" ]; then
    echo "bindings: $name, verify says $said" >&2
    exit 1
fi
echo "bindings: $name, its report $said"
