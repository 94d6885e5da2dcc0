#!/bin/sh
# Fails where a document quotes code that doesn't stand so in its file: a block of code after a line `<!-- quoted from FILE -->`
# stands there line by line, one after another. A block of Rust in docs/using.md has such a line. After `<!-- columns of FILE... -->`
# the columns of a block, which begin where those of its first line do, are all lines of these files, one after another; after
# `<!-- named columns of FILE... -->` its first line has their names.
cd "$(dirname "$0")/.." || exit 2
for document in README.md docs/*.md; do
    awk -v document="$document" '
        # Whether the lines of the block stand in the file, one after another.
        function stands(file,    line, count, i, j) {
            count = 0
            while ((getline line < file) > 0) text[++count] = line
            close(file)
            for (i = 1; i + lines - 1 <= count; i++) {
                for (j = 1; j <= lines && text[i + j - 1] == block[j]; j++);
                if (j > lines) return 1
            }
            return 0
        }
        # Whether the columns of the block are the lines of the files.
        function are_columns(names, from,    file, files, count, starts, columns, rest, at, line, cell, i, j) {
            files = split(names, file, " ")
            for (i = 1; i <= files; i++) while ((getline line < file[i]) > 0) wanted[++count] = line
            for (i = 1; i <= files; i++) close(file[i])
            rest = block[1]; at = starts[columns = 1] = 1
            while (match(rest, /   */)) {
                at += RSTART + RLENGTH - 1; starts[++columns] = at; rest = substr(rest, RSTART + RLENGTH)
            }
            starts[columns + 1] = 1000
            j = 0
            for (at = 1; at <= columns; at++) for (i = from; i <= lines; i++) {
                cell = substr(block[i], starts[at], starts[at + 1] - starts[at]); sub(/ *$/, "", cell)
                if (cell != "" && cell != wanted[++j]) return 0
            }
            return j == count
        }
        /^```/ && !inside {
            inside = 1; lines = 0; start = FNR
            if (!source && document == "docs/using.md" && $0 == "```rust") { print document ":" FNR ": no line says where this code is from"; failed = 1 }
            next
        }
        /^```/ {
            if (source) {
                if (stands(source)) quoted++
                else { print document ":" start ": this doesn" "\047" "t stand in " source; failed = 1 }
            }
            if (columns_of) {
                if (are_columns(columns_of, named ? 2 : 1)) quoted++
                else { print document ":" start ": these columns aren" "\047" "t those of " columns_of; failed = 1 }
            }
            inside = 0; source = ""; columns_of = ""
            next
        }
        inside { block[++lines] = $0; next }
        /^<!-- quoted from .* -->$/ { source = $4; next }
        /^<!-- (named )?columns of .* -->$/ { named = $2 == "named"; columns_of = $0; sub(/^.* columns of /, "", columns_of); sub(/ -->$/, "", columns_of); next }
        /./ { source = ""; columns_of = "" }
        END { if (quoted) print document ": " quoted " quoted"; exit failed }
    ' "$document" || failed=1
done
exit "${failed:-0}"
