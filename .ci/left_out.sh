#!/bin/sh
# Says what isn't tried and why, here and at the end of the gate, which has named a file for such lines.
#
#   left_out.sh WHAT WHY
echo "$1 not tried: $2"
[ -z "${LEFT_OUT-}" ] || echo "$1 ($2)" >>"$LEFT_OUT"
