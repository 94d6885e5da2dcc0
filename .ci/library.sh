#!/bin/sh
# Leaves the static library for C, as `bezglami build` does, but over the libraries that `rt ci` has proved and left: so at_c alone is checked
# once more, and not those below it. What was built is kept on the machine by the sum of all that it is made from, for later runs.
set -eu
cd "$(dirname "$0")/.."
library=crates/at_c/out/libat_c.a
kit=$(dirname "$(rt doc)")
sources='crates.txt crates/*/src crates/*/specs crates/*/proofs'
sum=$({ rt version; find -L $sources -type f | sort | xargs sha256sum; } | sha256sum | cut -c1-64)
# Times say nothing of what a library was built from, so beside it stands the sum of that, and its own.
if [ -f "$library" ] && echo "$sum $(sha256sum <"$library")" | cmp -s - "$library.sum"; then
    exit 0
fi
kept=${XDG_CACHE_HOME:-${HOME:-/tmp}/.cache}/bezglami
mkdir -p "$(dirname "$library")"
mkdir -p "$kept" 2>/dev/null && [ -w "$kept" ] || kept=$PWD/$(dirname "$library")
if ! [ -f "$kept/libat_c-$sum.a" ]; then
    set --
    for name in std $(sed -n 's/^at_c staticlib: //p' crates.txt); do
        if [ -d "crates/$name" ]; then
            set -- "$@" --extern "$name=$PWD/crates/$name/out/rlib/$name.rlib"
        else
            set -- "$@" --extern "$name=$kit/rlibs/$name.rlib"
        fi
    done
    for folder in "$kit/rlibs" "$PWD"/crates/*/out/rlib; do set -- "$@" -L "dependency=$folder"; done
    # What another run keeps meanwhile is the same.
    new=$kept/new-$$.a
    trap 'rm -f -- "$new" "$new.said"' EXIT
    cd crates/at_c
    # Where checks in this clone have left libraries of their own, the two kinds may not fit together. `rt lib` makes them anew.
    if ! "$kit/bin/rattle" build --crate-name at_c src/lib.rt "$@" --antt-project "$kit/rattle/logic/antt-project.json" \
        --logic-built "$kit/logic_built" --jobs 2 --links at_c= --crate-type staticlib --toolchain "$kit/toolchain" --backend llvm \
        -o "$new" >"$new.said" 2>&1; then
        rt lib >"$new.said" 2>&1 || { tail -n 20 "$new.said" >&2; exit 1; }
        mv -- out/libat_c.a "$new"
    fi
    cd ../..
    mv -- "$new" "$kept/libat_c-$sum.a"
    find "$kept" -name 'libat_c-*.a' ! -name "libat_c-$sum.a" -mtime +30 -exec rm -f -- {} +
fi
cp -- "$kept/libat_c-$sum.a" "$library"
echo "$sum $(sha256sum <"$library")" >"$library.sum"
echo "bindings: the library for C is $library"
