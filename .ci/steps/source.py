"""Reads .rt files as the compiler does: words, marks and groups, with comments, texts and clauses left out. What two readers might take
for different things is refused, whatever the compiler takes it for."""

import re

OPEN = {"(": ")", "[": "]", "{": "}"}
SPACE = re.compile(r"[ \n]+|//[^\n]*")
ODD = re.compile(r"[^\S \n]|[\0-\t\v-\x1f\x7f]")
TEXT = re.compile(r'(?:b|c)?"(?:[^"\\]|\\.)*"', re.S)
RAW = re.compile(r'(?:b|c)?r(#*)"')
SIGN = re.compile(r"b?'(?:[^'\\\n]|\\(?:u\{[0-9a-fA-F_]+\}|x[0-9a-fA-F]{2}|.))'")
LIFE = re.compile(r"'[A-Za-z_]\w*")
WORD = re.compile(r"[A-Za-z_][A-Za-z_0-9]*")
NUMBER = re.compile(r"[0-9][A-Za-z_0-9]*")
# What stands before the braces of a clause, and between those of a ghost item and its default.
CLAUSE = re.compile(r"(?:requires|ensures)\s*\*?\s*(?:\w+\s*)?(?={)")
GHOST = re.compile(r"ghost\s+(?:pub\s+)?\w+\s*[:=]\s*(?:owns\s*|lends\s*)?(?={)")
GHOST_USE = re.compile(r'ghost\s+use\s[^;"#]*;')
NEXT = re.compile(r"\s*(?:=|by)\s*(?={)")
# In a clause a text has no braces and no backslash, a name in guillemets is one word, and nothing is commented out.
INSIDE = re.compile(r'"[^"\\{}\n]*"|«\w+»|--|//|/\*|\{-|\'[{}"]|["{}«]')


class Unreadable(Exception):
    """What no reader of this program takes in, and so none may write."""


class Token:
    """A word, a mark, a text, a number, or a group with what stands in it."""

    def __init__(self, kind, text, line, inner=()):
        self.kind, self.text, self.line, self.inner = kind, text, line, inner

    def __repr__(self):
        return f"{self.text}{self.inner or ''}"

    def is_word(self, *words):
        return self.kind == "word" and (not words or self.text in words)

    def is_mark(self, mark):
        return self.kind == "mark" and self.text == mark

    def is_group(self, opens):
        return self.kind == "group" and self.text == opens


class Reader:
    """Goes through one file."""

    def __init__(self, text):
        self.text, self.at = text, 0

    def line(self):
        return self.text.count("\n", 0, self.at) + 1

    def stop(self, why):
        raise Unreadable(f"line {self.line()}: {why}")

    def braces(self):
        """Passes the braces of a clause."""
        depth = 0
        for mark in INSIDE.finditer(self.text, self.at):
            if mark[0] in "{}":
                depth += 1 if mark[0] == "{" else -1
            elif mark[0][0] not in '"«' or len(mark[0]) == 1:
                self.stop(f"{mark[0]} in a clause")
            if not depth:
                self.at = mark.end()
                return
        self.stop("a clause without an end")

    def clause(self, word):
        """Passes what the word begins: a clause, or a ghost item."""
        use = GHOST_USE.match(self.text, self.at)
        if word == "ghost" and use:
            self.at = use.end()
            return
        head = (GHOST if word == "ghost" else CLAUSE).match(self.text, self.at)
        if not head:
            self.stop(f"no clause after {word}")
        while head:
            self.at = head.end()
            self.braces()
            head = NEXT.match(self.text, self.at) if word == "ghost" else None

    def tokens(self):
        """Gives all that is code, without groups."""
        odd = ODD.search(self.text)
        if odd:
            self.at = odd.start()
            self.stop("a sign that may end a line or not")
        while self.at < len(self.text):
            space = SPACE.match(self.text, self.at)
            if space:
                self.at = space.end()
            elif self.text.startswith("/*", self.at):
                self.stop("a comment that may end on another line")
            else:
                yield from self.token()

    def token(self):
        line = self.line()
        if RAW.match(self.text, self.at):
            self.stop("a raw text")
        for kind, form in (("text", TEXT), ("text", SIGN), ("life", LIFE), ("word", WORD), ("number", NUMBER)):
            found = form.match(self.text, self.at)
            if not found:
                continue
            if found[0] in ("ghost", "requires", "ensures"):
                self.clause(found[0])
                return
            if self.text.startswith("#", found.end()) and found[0] in ("r", "br", "cr"):
                self.stop("a raw name")
            self.at = found.end()
            yield Token(kind, found[0], line)
            return
        mark = self.text[self.at]
        if not mark.isascii() or mark in "\"'`\\":
            self.stop(f"{mark} is no mark of the language")
        self.at += 1
        yield Token("mark", mark, line)


def read(text):
    """The tokens of a file, each group with what stands in it."""
    reader = Reader(text)
    levels, opened = [[]], []
    for token in reader.tokens():
        if token.kind == "mark" and token.text in OPEN:
            opened.append(token)
            levels.append([])
        elif token.kind == "mark" and token.text in OPEN.values():
            if not opened or OPEN[opened[-1].text] != token.text:
                reader.stop(f"{token.text} closes nothing")
            start, inner = opened.pop(), levels.pop()
            levels[-1].append(Token("group", start.text, start.line, inner))
        else:
            levels[-1].append(token)
    if opened:
        reader.stop(f"{opened[-1].text} of line {opened[-1].line} without an end")
    return levels[0]
