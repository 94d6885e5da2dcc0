#!/bin/sh
# Fails where public definitions of two crates have one name: a name has one meaning in the whole repository.
cd "$(dirname "$0")/../crates"
names_of() {
    find "$1/specs" -name '*.antt' -exec cat {} + |
        sed -nE 's/^((abbrev|unfoldable) )?pub ((record|data) )?([^ ]+)( :| [({]).*/\5/p' | sort -u
}
twice=$(for crate in *; do if [ -d "$crate/specs" ]; then names_of "$crate"; fi; done | sort | uniq -d)
if [ -n "$twice" ]; then
    printf 'these definitions have a name that stands in two crates:\n%s\n' "$twice"
    exit 1
fi
echo "names of definitions: each stands in one crate"
