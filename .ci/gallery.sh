#!/bin/sh
# The pictures of docs/guide.md are those of the pages in examples/replay: the first drawing of each page, with the colours that the page
# has. It fails where one of them differs. `gallery.sh make` writes them anew.

root=$(CDPATH='' cd -- "$(dirname -- "$0")/.." && pwd) || exit 2
made=$(mktemp) || exit 2
trap 'rm -f -- "$made"' EXIT

# The drawing of a page, as a file of its own.
drawing_of() {
    awk '
        /^<\/?style>$/ { style = !style; next }
        style && /^(:root|@media|text|[.#])/ && !/^[.](wide|key)/ { rules = rules $0 "\n" }
        /^<svg / && !drawn {
            inside = drawn = 1
            sub(/^<svg /, "<svg xmlns=\047http://www.w3.org/2000/svg\047 ")
            print
            print "<style>"
            printf "%s", rules
            print "svg{background:var(--page);font-family:system-ui,sans-serif}"
            print "</style>"
            next
        }
        inside { print }
        inside && /^<\/svg>$/ { inside = 0 }
    ' "$1"
}

mkdir -p "$root/docs/gallery"
failed=0
for page in "$root"/examples/replay/*/*.html; do
    picture=docs/gallery/$(basename "$page" .html).svg
    drawing_of "$page" >"$made"
    if [ "${1-}" = make ]; then
        cp -- "$made" "$root/$picture"
        chmod 644 "$root/$picture"
    elif ! cmp -s "$made" "$root/$picture"; then
        echo "$picture is not the drawing of its page"
        failed=1
    fi
done
[ "$failed" -eq 0 ] && echo 'gallery: each picture is that of its page'
exit "$failed"
