#!/bin/sh
# Opens pages of `show` in Debian's chromium, which is no part of the gate: at 1,280 and at 400 units, light and dark. It fails where the
# browser reports an error, where two texts of a picture at one height overlap, and where a mark, a bar, a line or a text stands outside its drawing. The
# pictures of the screen are left beside the copies that it looks at.
#
#   bench/browser.sh [FOLDER [PAGE...]]   the pages of examples/replay, or these, with copies and pictures in FOLDER or a new one
set -u

root=$(CDPATH='' cd -- "$(dirname -- "$0")/.." && pwd) || exit 1
command -v chromium >/dev/null || {
    echo 'browser.sh: no chromium is on the path' >&2
    exit 1
}
folder=${1-$(mktemp -d)}
[ $# -eq 0 ] || shift
[ $# -gt 0 ] || set -- "$root"/examples/replay/*/*.html
mkdir -p "$folder" && folder=$(CDPATH='' cd -- "$folder" && pwd) || exit 1

# What looks at a page, in a copy of it: the page itself has no script.
cat >"$folder/look.js" <<'END'
addEventListener('load', () => {
    const faults = [];
    const drawing = document.querySelector('.wide svg');
    const whole = drawing.getBoundingClientRect();
    const outside = (box) => box.left < whole.left - 1 || box.right > whole.right + 1
        || box.top < whole.top - 1 || box.bottom > whole.bottom + 1;
    for (const part of drawing.querySelectorAll('use, rect, text, path.sees, path.helps')) {
        if (outside(part.getBoundingClientRect())) faults.push('outside: ' + part.outerHTML);
    }
    const texts = [...drawing.querySelectorAll('text')].map((text) => [text, text.getBoundingClientRect()]);
    const lines = new Map();
    for (const [text, box] of texts) {
        const line = text.getAttribute('y');
        lines.set(line, [...(lines.get(line) ?? []), [text, box]]);
    }
    for (const line of lines.values()) {
        line.sort((a, b) => a[1].left - b[1].left);
        for (let i = 1; i < line.length; i++) {
            if (line[i][1].left < line[i - 1][1].right) faults.push('overlap: ' + line[i][0].outerHTML);
        }
    }
    if (document.documentElement.scrollWidth > innerWidth) faults.push('the page is wider than its window');
    document.documentElement.dataset.looked = faults.length === 0 ? 'well' : faults.join('; ');
});
END

passed=0
failed=0
for page; do
    name=$(basename "$page" .html)
    sed "s|</body>|<script src='look.js'></script></body>|" "$page" >"$folder/$name.html"
    for width in 1280 400; do
        for scheme in light dark; do
            shade=0
            [ "$scheme" = light ] || shade=1
            set -- --headless --no-sandbox --disable-gpu --hide-scrollbars --enable-logging=stderr --v=0 \
                --window-size="$width,900" --blink-settings="preferredColorScheme=$((1 - shade))" --virtual-time-budget=5000
            chromium "$@" --dump-dom "file://$folder/$name.html" >"$folder/dom" 2>"$folder/log"
            chromium "$@" --screenshot="$folder/$name-$width-$scheme.png" "file://$page" >/dev/null 2>>"$folder/log"
            if grep -q "data-looked=\"well\"" "$folder/dom" && ! grep -q 'CONSOLE' "$folder/log"; then
                passed=$((passed + 1))
            else
                failed=$((failed + 1))
                echo "failed: $name at $width, $scheme: $(grep -o 'data-looked="[^"]*"' "$folder/dom" | head -c 400) $(grep CONSOLE "$folder/log" | head -n 1)"
            fi
        done
    done
done
echo "$passed passed, $failed failed; the pictures are in $folder"
[ "$failed" -eq 0 ]
