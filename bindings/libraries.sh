#!/bin/sh
# Leaves in a folder the library for C as one archive, with the part of the kit that asks for memory, and as a shared library that shows the
# exports alone, with what pkg-config reads. Each export is that of `c/guard.c`, which calls the proved one by a name of its own. It needs
# the library that `bezglami build` leaves, and a C compiler with `ar`, `nm` and `objcopy`.
#
#   libraries.sh FOLDER
set -eu
root=$(CDPATH='' cd -- "$(dirname -- "$0")/.." && pwd)
mkdir -p -- "$1"
folder=$(CDPATH='' cd -- "$1" && pwd)
heap=$(dirname -- "$(rt doc)")/c/liblibc_c.a
version=$(sed -n 's/^#define BEZGLAMI_VERSION //p' "$root/bindings/c/bezglami.h")
# A program that was linked with the shared library runs with each later one of this number. It rises where an export goes or changes its
# parameters or the numbers of its answers, and not where one comes.
shared=libbezglami.so.2
rm -f -- "$folder/libbezglami.a" "$folder/libbezglami.so"
# ar reads names as words, so it is run where the names have no folder.
work=$(mktemp -d)
trap 'rm -rf -- "$work"' EXIT
cp -- "$root/crates/at_c/out/libat_c.a" "$heap" "$work/"
nm -g --defined-only "$work/libat_c.a" | sed -n 's/.* T \(bezglami_.*\)/\1 proved_\1/p' >"$work/proved"
objcopy --redefine-syms="$work/proved" "$work/libat_c.a"
"${CC:-cc}" -std=c11 -Wall -Wextra -Werror -O2 -fPIC -I"$root/bindings/c" -c "$root/bindings/c/guard.c" -o "$work/guard.o"
(cd -- "$work" && printf 'CREATE libbezglami.a\nADDMOD guard.o\nADDLIB libat_c.a\nADDLIB liblibc_c.a\nSAVE\nEND\n' | ar -M)
mv -- "$work/libbezglami.a" "$folder/"
echo '{ global: bezglami_*; local: *; };' >"$work/exports"
"${CC:-cc}" -shared -Wl,-soname,"$shared" -Wl,--version-script="$work/exports" -Wl,--no-undefined \
    -Wl,--whole-archive "$folder/libbezglami.a" -Wl,--no-whole-archive -o "$folder/$shared"
ln -s "$shared" "$folder/libbezglami.so"
mkdir -p -- "$folder/pkgconfig"
cat >"$folder/pkgconfig/bezglami.pc" <<END
prefix=\${pcfiledir}/../..
Name: bezglami
Description: A payment ledger that no thread waits for
Version: $version
Cflags: -I\${prefix}/include
Libs: -L\${prefix}/lib -lbezglami
END
