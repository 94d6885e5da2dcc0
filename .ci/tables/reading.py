"""Reads the tables of rows, NAME.txt. `rows.txt` says at its head what a row has.

A text is a name of `texts.txt`, or is written out: `\\n`, `\\r`, `\\377` are bytes; `{NAME}` is a text of that name, `{<FILE}` an example's
file, and `{64 read,0\\n}` is `read,0` and a newline 64 times. One that begins with `<` is an example's file, `turns 1 14 0 3` is a schedule
of 14 turns of process 1 and three of process 0, and a content `NAME <FILE` is an example's file under another name.
"""

import re
from functools import lru_cache
from pathlib import Path

from tables.spelling import spelled
from tables.trying import EXAMPLES, Case, is_true, printed, refused, verified

HERE = Path(__file__).parent


@lru_cache(maxsize=None)
def texts():
    """The texts that have a name."""
    found = (line.split("|", 1) for line in read_lines("texts"))
    return {name: text for name, text in found}


def read_lines(table):
    """The lines of a table but for comments and empty ones."""
    return [line for line in (HERE / f"{table}.txt").read_text("ascii").split("\n") if line and not line.startswith("#")]


def expanded(field):
    """A field with all that its braces stand for."""
    def one(match):
        inside = match[1]
        number, _, text = inside.partition(" ")
        if inside.startswith("<"):
            return (EXAMPLES / inside[1:]).read_text("ascii").removesuffix("\n")
        return text * int(number) if number.isdigit() else texts()[inside]

    while "{" in field:
        field = re.sub(r"\{([^{}]*)\}", one, field)
    return field


def text_of(field):
    """The bytes that a field stands for."""
    if field.startswith("<"):
        return (EXAMPLES / field[1:]).read_bytes()
    if field.startswith("turns "):
        turns = field.split()[1:]
        return b"".join(b"%s\n" % who.encode() * int(many) for who, many in zip(turns[::2], turns[1::2]))
    field = expanded(texts().get(field, field))
    return field.encode("ascii").decode("unicode_escape").encode("latin-1")


def put_files(folder, contents):
    """Writes the files `book`, `0`, `1` and so on, one for each content that isn't empty."""
    for name, content in zip(["book", *map(str, range(len(contents)))], contents):
        other, _, example = content.rpartition(" <")
        if other:
            folder.write(other, text_of("<" + example))
        elif content:
            folder.write(name, text_of(content))


def try_row(folder, row, steps):
    """Tries a row: `steps` are the lines below it, which spell its text where its status is `steps`."""
    words, status, text, *contents = row
    put_files(folder, contents)
    words = [text_of(word) for word in expanded(words).split()]
    answer = folder.run(*words)
    if status == "verified":
        verified(folder, answer, words)
        is_true(answer.out.endswith(text_of(text)), "the report ends otherwise")
    elif status == "steps":
        printed(answer, spelled(text_of(contents[0]).decode(), steps))
    elif status == "0":
        printed(answer, text_of(text))
    else:
        refused(answer, int(status), text_of(text).removesuffix(b"\n"))


def cases(table):
    """The cases of a table's rows."""
    name, rows = None, []
    for line in read_lines(table):
        if line.startswith("= "):
            name = line[2:]
        elif line.startswith("  "):
            rows[-1][2].append(line.strip())
        else:
            row = line.split("|")
            rows.append((name or f"{row[0]}: {row[2]}", row, []))
            name = None
    for name, row, steps in rows:
        yield Case(name, try_row, row, steps)
