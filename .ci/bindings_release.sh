#!/bin/sh
# Tests the release that `bindings/release.sh` has left: it holds the program that was tried, and what `bindings/libraries.sh` has left for the
# other tests. Unpacked in a new folder, with an empty environment, a path on which rt isn't, and from another folder, the program and the
# examples in C, Rust and Python run, and the release's own program verifies their reports.
#
#   bindings_release.sh LIBRARIES
set -eu
tested=$(CDPATH='' cd -- "$1" && pwd)
cd "$(dirname "$0")/.."
version=$(sed -n 's/^#define BEZGLAMI_VERSION //p' bindings/c/bezglami.h)
archive=out/bezglami-$version.tar.gz
work=$(mktemp -d)
tried=nothing
trap 'status=$?; rm -rf -- "$work"; [ "$status" -eq 0 ] || echo "bindings: the release failed after: $tried" >&2' EXIT
tar -xzf "$archive" -C "$work"
release=$work/elsewhere
mv "$work/bezglami-$version" "$release"
mkdir "$work/here"
cd "$work/here"

path=/usr/bin:/bin
if PATH=$path command -v rt >/dev/null; then
    "$OLDPWD/.ci/left_out.sh" 'the release' "rt is on $path"
    exit 0
fi

# Runs a command with nothing but this path.
alone() {
    env -i PATH="$path" "$@"
}

# What it holds is what was tried: the program, the header and the library, of which the shared one shows what the header declares.
cmp "$release/libexec/bezglami" "$OLDPWD/crates/at_program/out/at_program"
cmp "$release/include/bezglami.h" "$OLDPWD/bindings/c/bezglami.h"
[ "$(ar p "$release/lib/libbezglami.a" | cksum)" = "$(ar p "$tested/libbezglami.a" | cksum)" ]
sed -n '/^static/d; s/^[a-z].*[ *]\(bezglami_[a-z]*\)(.*/\1/p' "$release/include/bezglami.h" | LC_ALL=C sort >declared
nm -D --defined-only "$release/lib/libbezglami.so" | sed 's/.* //' | LC_ALL=C sort | cmp - declared
[ "$(grep -c "^version = \"$version\." "$release/bindings/rust/Cargo.toml" "$release/bindings/python/pyproject.toml" | grep -c ':1$')" -eq 2 ]
tried='what it holds'

examples=$release/examples
alone "$release/bin/bezglami" run "$examples/usual/book.csv" "$examples/usual/pay0.csv" | cmp - "$examples/usual/usual.report"
alone "$release/bin/bezglami" kinds "$examples/usual/book.csv" "$examples/usual/pay0.csv" | cmp - "$examples/usual/usual.kinds"
ln -s "$release/bin/bezglami" 'a link'
alone "./a link" kinds "$examples/usual/book.csv" "$examples/usual/pay0.csv" | cmp - "$examples/usual/usual.kinds"
# The settings are those of the repository's script.
settings=$(sed -n 's/^export GLIBC_TUNABLES="${GLIBC_TUNABLES-\(.*\)}"$/\1/p' "$release/bin/bezglami")
[ "$settings" = "$(sed -n 's/^allocator=//p' "$OLDPWD/bezglami")" ] && [ -n "$settings" ]
tried='the program'

# Whether the release's program says that the file `report` is one of a run of these files.
verified() {
    [ "$(alone "$release/bin/bezglami" verify "$1" report "$2" "$3")" = "verified $(sed -n '1s/journal //p' report)" ]
}

short=$examples/short
owners=$examples/owners
if PATH=$path command -v cc >/dev/null; then
    for linked in static shared by-pkg-config; do
        case $linked in
            static) set -- "$release/lib/libbezglami.a" ;;
            shared) set -- "-L$release/lib" -lbezglami "-Wl,-rpath,$release/lib" ;;
            by-pkg-config)
                flags=$(alone PKG_CONFIG_PATH="$release/lib/pkgconfig" pkg-config --cflags --libs bezglami 2>said) || {
                    "$OLDPWD/.ci/left_out.sh" 'the library by pkg-config' 'no pkg-config'
                    continue
                }
                set -- $flags "-Wl,-rpath,$release/lib"
                ;;
        esac
        for source in short example; do
            alone cc -std=c11 -D_POSIX_C_SOURCE=200809L -pthread -I"$release/include" "$release/bindings/c/$source.c" "$@" -o "$source"
        done
        alone ./short >report 2>said
        cmp report "$short/short.report"
        verified "$short/book.csv" "$short/ann.csv" "$short/bob.csv"
        alone ./example "$owners/book.csv" "$owners/pay0.csv" "$owners/pay1.csv" >report 2>said
        verified "$owners/book.csv" "$owners/pay0.csv" "$owners/pay1.csv"
    done
    tried="$tried, C"
fi
if rust=$(rustc --print sysroot 2>/dev/null) && [ -x "$rust/bin/cargo" ]; then
    alone PATH="$rust/bin:$path" CARGO_HOME="$work/cargo" CARGO_TARGET_DIR="$work/target" cargo run --quiet --offline \
        --manifest-path "$release/bindings/rust/Cargo.toml" --example short >report 2>said
    verified "$short/book.csv" "$short/ann.csv" "$short/ann.csv"
    # A member of somebody's workspace uses it, and lies beside it there.
    mkdir -p own/one/src
    cp -r "$release/bindings/rust" own/bezglami
    printf '[workspace]\nresolver = "2"\nmembers = ["one"]\n' >own/Cargo.toml
    printf '[package]\nname = "one"\nversion = "0.1.0"\nedition = "2021"\n[dependencies]\nbezglami = { path = "../bezglami" }\n' >own/one/Cargo.toml
    cp "$release/bindings/rust/examples/short.rs" own/one/src/main.rs
    alone PATH="$rust/bin:$path" CARGO_HOME="$work/cargo" CARGO_TARGET_DIR="$work/target" BEZGLAMI_LIB="$release/lib" cargo run --quiet --offline \
        --manifest-path own/one/Cargo.toml >report 2>said
    verified "$short/book.csv" "$short/ann.csv" "$short/ann.csv"
    tried="$tried, Rust"
fi
if python=$(python3 -c 'import sys; sys.version_info >= (3, 10) and print(sys.executable)' 2>/dev/null) && [ -n "$python" ]; then
    alone PYTHONDONTWRITEBYTECODE=1 "$python" "$release/bindings/python/example.py" >report 2>said
    verified "$short/book.csv" "$short/ann.csv" "$short/ann.csv"
    export=$examples/export
    alone PATH="$(dirname -- "$python"):$path" "$release/bin/bezglami" import "$export/payments.csv" --joint "$export/joint.csv" \
        --openings "$export/openings.csv" --to made >said
    diff -r made "$export/made"
    tried="$tried, import, Python"
fi
# Debian's pip finds what makes a wheel beside it; nothing is fetched.
if [ -x /usr/bin/pip3 ] && /usr/bin/python3 -c 'import setuptools, wheel' 2>/dev/null; then
    cp -rL "$release/bindings/python" package
    alone /usr/bin/python3 -m pip install --quiet --no-index --no-build-isolation --no-deps --target "$work/site" ./package >said 2>&1 || {
        cat said >&2
        exit 1
    }
    mv "$release/lib" "$release/lib-elsewhere"
    alone PYTHONDONTWRITEBYTECODE=1 PYTHONPATH="$work/site" /usr/bin/python3 - "$release/bindings/python/example.py" >report 2>said <<'END'
import runpy, sys
sys.path = [folder for folder in sys.path if not folder.endswith("bindings/python")]
runpy.run_path(sys.argv[1])
END
    mv "$release/lib-elsewhere" "$release/lib"
    verified "$short/book.csv" "$short/ann.csv" "$short/ann.csv"
    tried="$tried, pip"
else
    "$OLDPWD/.ci/left_out.sh" 'the module by pip' 'no pip with setuptools and wheel in /usr/bin'
fi
echo "bindings: the release runs alone: $tried"
