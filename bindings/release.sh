#!/bin/sh
# Leaves a release in out/, from what `bezglami build` has left: one folder with the program, the libraries, the header, the bindings,
# the examples and the licences, and the same as a tar.gz. Who has the folder needs the C library, and no toolchain of Rattle.
set -eu
root=$(CDPATH='' cd -- "$(dirname -- "$0")/.." && pwd)
kit=$(dirname -- "$(rt doc)")
version=$(sed -n 's/^#define BEZGLAMI_VERSION //p' "$root/bindings/c/bezglami.h")
name=bezglami-$version
release=$root/out/$name

# The names that a line of crates.txt or a library of the kit has behind it.
uses_of() {
    if [ -d "$kit/rlibs/$1.rlib" ]; then
        sed -n 's/^dep //p' "$kit/rlibs/$1.rlib/format"
    else
        sed -n "s/^$1\( [^:]*\)\{0,1\}://p" "$root/crates.txt" | tr ' ' '\n'
    fi
}

# The libraries of the kit that these crates stand on, in order.
linked_below() {
    left="$*"
    seen=' '
    while [ -n "$left" ]; do
        first=${left%% *}
        case $left in *' '*) left=${left#* } ;; *) left= ;; esac
        case $seen in *" $first "*) continue ;; esac
        seen="$seen$first "
        for used in $(uses_of "$first"); do left="$left${left:+ }$used"; done
    done
    for used in $seen; do
        [ ! -d "$kit/rlibs/$used.rlib" ] || echo "$used"
    done | sort
}

# The licence files that the kit has of them, and which of them have none.
copy_licences() {
    without=
    {
        echo '# Licences of what is linked'
        echo
        echo 'The program and the libraries stand on these libraries of the toolchain, each with the licence files that it has there.'
        echo
        echo '| library | licence files |'
        echo '|---|---|'
        for used in $(linked_below at_c at_program); do
            files=
            for file in "$kit/rattle/$used"/LICEN[CS]E* "$kit/rattle/$used"/COPYING* "$kit/rattle/$used"/NOTICE*; do
                [ -f "$file" ] || continue
                mkdir -p -- "$release/licences/$used"
                cp -- "$file" "$release/licences/$used/"
                files="$files${files:+, }[$(basename -- "$file")]($used/$(basename -- "$file"))"
            done
            if [ -n "$files" ]; then echo "| \`$used\` | $files |"; else without="$without${without:+, }\`$used\`"; fi
        done
        echo
        echo "The toolchain has no licence file for $without, nor for its \`liblibc_c.a\`. No licence has been chosen for Bezglami itself yet."
    } >"$release/licences/README.md"
}

# The script by which the program runs: the allocator is told what the script `bezglami` of the repository tells it. `import` is another
# script, as there.
write_script() {
    cat >"$release/bin/bezglami" <<END
#!/bin/sh
# Runs the program, and tells the C library's allocator what serves it, unless something else was told.
here=\$(CDPATH='' cd -- "\$(dirname -- "\$(readlink -f -- "\$0")")/.." && pwd) || exit 1
if [ "\${1-}" = import ]; then shift && exec python3 -- "\$here/libexec/from_export.py" "\$@"; fi
export GLIBC_TUNABLES="\${GLIBC_TUNABLES-$(sed -n 's/^allocator=//p' "$root/bezglami")}"
exec "\$here/libexec/bezglami" "\$@"
END
    chmod 755 "$release/bin/bezglami"
}

write_readme() {
    cat >"$release/README.md" <<END
# Bezglami

The asset transfer object: a payment ledger that no thread waits for. This folder has it built for $(uname -s) on $(uname -m), from commit $(git -C "$root" rev-parse --short HEAD 2>/dev/null || echo unknown). It needs the C library, and no toolchain.

| here | what it is |
|---|---|
| \`bin/bezglami\` | the program; it prints its commands where it is given no word. It is a script that tells the allocator what serves \`libexec/bezglami\`. Its word \`import\`, which needs \`python3\`, makes a book and payment files of an export; the \`./bezglami\` of the commands that it tells is \`bin/bezglami\` here |
| \`include/bezglami.h\` | the header of the library for C |
| \`lib/libbezglami.a\`, \`lib/libbezglami.so\` | the library, static and shared; \`lib/pkgconfig\` tells both to pkg-config |
| \`bindings/c\`, \`bindings/rust\`, \`bindings/python\` | examples in C, a crate, and a module |
| \`docs\` | how it is used in a program, and the forms of books, payments and reports; what they link to otherwise stands in the repository |
| \`examples\` | books and payment files, with reports |
| \`licences\` | the licences of what is linked. None has been chosen for Bezglami itself yet |

Each of these runs in this folder:

\`\`\`
bin/bezglami run examples/household/book.csv examples/household/ann.csv examples/household/bob.csv
cc -std=c11 -pthread -Iinclude bindings/c/short.c lib/libbezglami.a -o short && ./short
cc -std=c11 -pthread bindings/c/short.c \$(PKG_CONFIG_PATH=lib/pkgconfig pkg-config --cflags --libs bezglami) -Wl,-rpath,"\$PWD/lib" -o shared && ./shared
cc -std=c11 -pthread -Iinclude bindings/c/example.c lib/libbezglami.a -o example
./example examples/owners/book.csv examples/owners/pay0.csv examples/owners/pay1.csv
(cd bindings/rust && cargo run --offline --example short)
python3 bindings/python/example.py
pip install bindings/python && python3 -c 'import bezglami'
\`\`\`

Each of them prints its report to the output, and all else to the error output. The program tells whether such a report is one of a legal run:

\`\`\`
./short >report && bin/bezglami verify examples/short/book.csv report examples/short/ann.csv examples/short/bob.csv
\`\`\`
END
}

rm -rf -- "$release" "$release.tar.gz"
mkdir -p -- "$release/bin" "$release/libexec" "$release/docs" "$release/include" "$release/licences"
"$root/bindings/libraries.sh" "$release/lib"
cp -- "$root/crates/at_program/out/at_program" "$release/libexec/bezglami"
cp -- "$root/tools/from_export.py" "$release/libexec/"
write_script
cp -- "$root/bindings/c/bezglami.h" "$release/include/"
for guide in formats using; do cp -- "$root/docs/$guide.md" "$release/docs/"; done
git -C "$root" ls-files bindings/c bindings/rust bindings/python examples | grep -v -e '\.h$' -e '/test\.c$' | (cd -- "$root" && tar -cf - -T -) | tar -xf - -C "$release"
ln -s ../../../lib/libbezglami.so "$release/bindings/python/bezglami/libbezglami.so"
copy_licences
write_readme
tar -czf "$release.tar.gz" --owner=0 --group=0 -C "$root/out" "$name"
echo "bezglami: the release is $release, and $release.tar.gz" >&2
