"""The text of `trace`, spelled in short.

A line is a stretch of turns of one call, `PROCESS.LINE`, and what they do, in order; `-> REPLY` is the reply at the last of them. Of a line
with ` & ` in it the turns of both stretches come in turn. `load length 0..2` is three loads. What calls are made of has short names:

    looks               two collects of all lengths
    counts Q I          a record of a process that it counts: seven words
    publishes I         its record of this number: nine words, the view's among them where there are two processes; then its length
    asks A S I          its request on an account: slot and number. Six words, and the announced word
    finds-none A S      the row of a slot, or of a range of slots, that has asked for nothing, or is its own
    finds A S I         the row of a slot whose last request has this number
    proposes A R        it proposes to a round of an account
    settles A S I P     it publishes what was decided, for which it loads that request again: its record P
    none                a call that makes no step
"""

import re

SHORT = {
    "looks": ["load length @", "load length @"],
    "counts": ["load record {0} {1} 0..6"],
    "publishes": ["store record {who} {0} 0..{last}", "store length {who}"],
    "asks": ["store request {0} {1} {2} 0..5", "store announced {0} {1}"],
    "finds-none": ["load announced {0} {1}"],
    "finds": ["load announced {0} {1}", "load request {0} {1} {2} 0..5"],
    "proposes": ["exchange cell {0} {1}"],
    "settles": ["load request {0} {1} {2} 0..5", "store record {who} {3} 0..{last}", "store length {who}"],
}


def names_of(book):
    """The processes of a book."""
    lines = book.split("\n")
    given = lines[1].split(",")[1:]
    return given if lines[0] == "book,2" else [str(p) for p in range(int(given[0]))]


def ranged(step, names):
    """The steps of one that ends with a range, or with `@` for all processes."""
    head, _, last = step.rpartition(" ")
    if last == "@":
        return [f"{head} {name}" for name in names]
    ends = re.fullmatch(r"(\d+)\.\.(\d+)", last)
    return [f"{head} {i}" for i in range(int(ends[1]), int(ends[2]) + 1)] if ends else [step]


def stretch(text, names):
    """The turns of a stretch: process, line, step, word and reply of each."""
    call, _, parts = text.partition(" ")
    who, line = call.split(".")
    parts, _, reply = parts.partition(" -> ")
    steps = []
    for part in parts.split(", "):
        word, *given = part.split()
        for step in SHORT.get(word, [part]):
            steps += ranged(step.format(*given, who=who, last=6 + len(names)), names)
    turns = [[who, line, *step.partition(" ")[::2], ""] for step in steps]
    turns[-1][-1] = reply
    return turns


def spelled(book, steps):
    """The text of `trace` that is spelled so, beside this book."""
    names = names_of(book)
    turns = []
    for line in steps:
        turns += [turn for beside in zip(*(stretch(text, names) for text in line.split(" & "))) for turn in beside]
    rows = [",".join([str(number), *turn]) for number, turn in enumerate(turns, 1)]
    return "\n".join(["turn,process,line,step,word,reply", *rows, ""])
