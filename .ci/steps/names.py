"""What a file declares, imports and names."""

from collections import namedtuple

from source import Token, Unreadable, read

# Where something is named: in which function, if in any, on which line, and after how many words of the file.
Named = namedtuple("Named", "path function line order")
# A function; which functions it calls outside all groups, whether what stands in it is run once at most, and whether it is run once and
# in order.
Function = namedtuple("Function", "name calls is_once is_straight")
# What a file has: modules in files of their own, and those of them that tests alone read; what it imports; which paths and methods it
# names, and which words; its macros, attributes and functions; the traits that it implements; what it declares, and what of that is a
# trait, or another name of a type.
File = namedtuple("File", "modules tests uses paths members words macros attributes functions impls declared traits aliases")

ITEMS = ("fn", "mod", "struct", "enum", "trait", "type", "const", "static", "union")
AGAIN = ("for", "while", "loop", "continue", "move")
BRANCHES = ("if", "match", "else", "return", "break")
KEYWORDS = {*ITEMS, *AGAIN, *BRANCHES, "as", "let", "in", "mut", "ref", "pub", "use", "impl", "where", "unsafe", "extern", "dyn", "async", "await", "final"}
HEADS = ("crate", "self", "super", "Self")
TESTS = "cfg ( test )"
END = Token("end", "", 0)


def is_path_mark(tokens, at):
    return at + 1 < len(tokens) and tokens[at].is_mark(":") and tokens[at + 1].is_mark(":")


def use_paths(tokens, above):
    """The paths of a use tree, each with the name under which it is known."""
    at, path = 0, list(above)
    while at < len(tokens):
        token = tokens[at]
        if is_path_mark(tokens, at):
            at += 2
        elif token.is_word("as"):
            yield tuple(path), tokens[at + 1].text
            at, path = at + 2, None
        elif token.kind == "word":
            path.append(token.text)
            at += 1
        elif token.is_group("{"):
            yield from use_branches(token.inner, path)
            at, path = at + 1, None
        elif token.is_mark("*"):
            yield (*path, "*"), "*"
            at, path = at + 1, None
        else:
            raise Unreadable(f"line {token.line}: {token.text} in a use tree")
    if path is not None:
        path = path[:-1] if path[-1] == "self" and len(path) > 1 else path
        yield tuple(path), path[-1]


def use_branches(tokens, above):
    start = 0
    for at, token in enumerate([*tokens, None]):
        if token is None or token.is_mark(","):
            if tokens[start:at]:
                yield from use_paths(tokens[start:at], above)
            start = at + 1


class Walk:
    """Goes over the tokens of one file."""

    def __init__(self):
        self.file = File([], [], [], [], [], [], [], [], [], [], set(), set(), set())
        self.function, self.depth = None, 0

    def level(self, tokens):
        """Goes over what stands in one group, or in the file."""
        at, attributes = 0, []
        self.depth += 1
        while at < len(tokens):
            token = tokens[at]
            if token.is_mark("#"):
                is_inner = at + 1 < len(tokens) and tokens[at + 1].is_mark("!")
                at += 2 if is_inner else 1
                said = self.attribute(tokens[at])
                if is_inner and said == TESTS:
                    raise Unreadable(f"line {token.line}: what only tests read is a module in a file of its own")
                attributes += [] if is_inner else [said]
                at += 1
                continue
            at = self.passed(tokens, at) if TESTS in attributes else self.one(tokens, at)
            attributes = []
        self.depth -= 1

    def named(self, path, line):
        return Named(path, self.function, line, len(self.file.words))

    def attribute(self, group):
        said = spelled(group.inner)
        self.file.attributes.append(self.named(said, group.line))
        if said.startswith(("derive", "error")):
            self.level(group.inner)
        return said

    def passed(self, tokens, at):
        """Passes a module that is read for tests alone, in a file of its own."""
        if not (tokens[at].is_word("mod") and tokens[at + 2].is_mark(";") and self.depth == 1):
            raise Unreadable(f"line {tokens[at].line}: what only tests read is a module in a file of its own")
        self.file.tests.append(tokens[at + 1].text)
        return at + 3

    def one(self, tokens, at):
        """Goes over one item or one name, and gives where the next one begins."""
        token, after = tokens[at], tokens[at + 1] if at + 1 < len(tokens) else END
        if token.is_word("use"):
            end = next(i for i in range(at, len(tokens)) if tokens[i].is_mark(";"))
            self.file.uses.extend((self.named(path, token.line), name) for path, name in use_paths(tokens[at + 1 : end], ()))
            return end + 1
        if token.is_word("extern"):
            if not (after.text == '"C"' and tokens[at + 2].is_word("fn")):
                raise Unreadable(f"line {token.line}: extern of what is no function of this crate")
            return at + 2
        if token.is_word("fn") and after.kind == "word":
            return self.body(tokens, at)
        if token.is_word(*ITEMS) and after.kind == "word":
            if token.is_word("mod") and at + 2 < len(tokens) and tokens[at + 2].is_mark(";"):
                if self.depth > 1:
                    raise Unreadable(f"line {token.line}: mod {after.text} of a file of its own within braces")
                self.file.modules.append(after.text)
            self.file.declared.add(after.text)
            self.word(token)
            if token.is_word("enum"):
                self.variants(tokens, at)
            if token.is_word("trait"):
                self.file.traits.add(after.text)
            if token.is_word("type"):
                self.file.aliases.add(after.text)
            return at + 2
        if token.is_word("impl"):
            self.implemented(tokens, at)
        if token.kind == "group":
            self.level(token.inner)
        elif token.is_mark("."):
            return self.member(tokens, at)
        elif token.kind == "word" or is_path_mark(tokens, at):
            return self.path(tokens, at)
        return at + 1

    def implemented(self, tokens, at):
        """Notes the trait that an impl is of: what stands before `for`, without what it takes in < and >."""
        # (what stands in braces within < and > is a number)
        body = (i for i in range(at + 1, len(tokens)) if tokens[i].is_group("{") and tokens[i - 1].text not in ("<", ","))
        head = tokens[at : next(body, len(tokens))]
        ends = [i for i in range(1, len(head) - 1) if head[i].is_word("for") and not head[i + 1].is_mark("<")]
        if not ends:
            return
        depth, path = 0, []
        for token in reversed(head[: ends[0]]):
            depth += 1 if token.is_mark(">") else 0
            if not depth and not (token.kind == "word" and token.text not in KEYWORDS or token.is_mark(":")):
                break
            path += [token.text] if not depth and token.kind == "word" else []
            depth -= 1 if token.is_mark("<") else 0
        if not path:
            raise Unreadable(f"line {tokens[at].line}: an impl of a trait that isn't found")
        self.file.impls.append(self.named(tuple(reversed(path)), tokens[at].line))

    def variants(self, tokens, at):
        group = next((it for it in tokens[at:] if it.is_group("{")), None)
        self.file.declared.update(it.text for it in (group.inner if group else ()) if it.kind == "word")

    def word(self, token):
        self.file.words.append(self.named(token.text, token.line))

    def path(self, tokens, at):
        """Goes over a path of names."""
        start, path = at, []
        if is_path_mark(tokens, at):
            if not (at + 2 < len(tokens) and tokens[at + 2].kind == "word"):
                return at + 2
            # What comes after a type in < and >, or begins with a crate.
            path.append("" if at and tokens[at - 1].is_mark(">") else "::")
            at += 2
        while at < len(tokens) and tokens[at].kind == "word":
            path.append(tokens[at].text)
            self.word(tokens[at])
            at += 1
            if not (is_path_mark(tokens, at) and at + 2 < len(tokens) and tokens[at + 2].kind == "word"):
                break
            at += 2
        if at < len(tokens) and tokens[at].is_mark("!") and not (at + 1 < len(tokens) and tokens[at + 1].is_mark("=")):
            if path[-1] not in KEYWORDS:
                self.file.macros.append(self.named("::".join(path), tokens[start].line))
        elif path and path[-1] not in KEYWORDS:
            self.file.paths.append(self.named(tuple(path), tokens[start].line))
        return max(at, start + 1)

    def member(self, tokens, at):
        """Goes over what stands after a point: a method where it is called, else a field."""
        if at + 1 >= len(tokens) or tokens[at + 1].kind != "word" or (at and tokens[at - 1].is_mark(".")):
            return at + 1
        name, at = tokens[at + 1], at + 2
        self.word(name)
        if at < len(tokens) and (tokens[at].is_group("(") or is_path_mark(tokens, at)):
            self.file.members.append(self.named(name.text, name.line))
            return at + 2 if is_path_mark(tokens, at) else at
        return at

    def body(self, tokens, at):
        """Goes over a function."""
        name, above = tokens[at + 1], self.function
        self.file.declared.add(name.text)
        end = next((i for i in range(at, len(tokens)) if tokens[i].is_group("{") or tokens[i].is_mark(";")), len(tokens) - 1)
        self.function = name.text
        self.level(tokens[at + 2 : end + 1])
        self.function = above
        inner = tokens[end].inner
        self.file.functions.append(Function(name.text, outer_calls(inner), is_once(inner), is_straight(inner)))
        return end + 1


def spelled(tokens):
    return " ".join(it.text + (f" {spelled(it.inner)} " + ")]}"["([{".index(it.text)] if it.kind == "group" else "") for it in tokens)


def outer_calls(tokens):
    """What is called here in no group and in no closure, so that no loop calls it again."""
    names, in_closure = set(), False
    for token, after in zip(tokens, tokens[1:]):
        in_closure = not token.is_mark(";") and (in_closure or token.is_mark("|"))
        if token.kind == "word" and after.is_group("(") and not in_closure:
            names.add(token.text)
    return names


def is_once(tokens):
    """Whether what stands here is run once at most: no loop, and no closure."""
    return not any(it.is_word(*AGAIN) or it.is_mark("|") or not is_once(it.inner) for it in tokens)


def is_straight(tokens):
    """Whether it is run once and in order: no branch and no early end either."""
    both = any(one.is_mark("&") and other.is_mark("&") for one, other in zip(tokens, tokens[1:]))
    return not both and is_once(tokens) and not any(it.is_word(*BRANCHES) or it.is_mark("?") or not is_straight(it.inner) for it in tokens)


def names_of(text):
    walk = Walk()
    walk.level(read(text))
    return walk.file
