#!/usr/bin/env python3
"""Writes the reference: a page for each crate, with what its sources say, and an index.

  docs.py [--check] [FOLDER]    writes the pages into FOLDER, or into out/docs; --check tells beside it what has no comment of its own:
                                a later definition of a file stands under the comment before it, the first one under none

Of each crate stand there its public functions with their clauses, its public types, the definitions of its specs/, each with the
comment over it, the laws of its proofs/ that crates above cite, and its must-fail edits. Names of definitions are links to them. The same
sources give the same pages.
"""

import pathlib
import re
import sys

ROOT = pathlib.Path(__file__).resolve().parent.parent
ITEM = re.compile(r"pub (?:const |unsafe )*(?:extern \"C\" )?(fn|struct|enum|trait|type|const) (\w+)")
IMPL = re.compile(r"impl(?:<.*?>)? (?:(\w+)(?:<.*>)? for )?(\w+)")
METHOD = re.compile(r"(fn) (\w+)")
USE = re.compile(r"^pub use ([^;]+);", re.M)
CLAUSE = re.compile(r"(?:requires|ensures)\s*\*?\s*(?:\w+\s*)?{")
CITED = re.compile(r"^(?:pub )?use Rattle\.(at_\w+)\.proofs\.([\w.]+)\.{([^}]*)}", re.M)
LAW = re.compile(r"(?:abbrev |unfoldable )?pub ([^\s]+) : ")
DEFINITION = re.compile(r"(?:(?:abbrev|unfoldable) )?pub (?:(?:record|data) )?([^\s]+)(?: :| [({])")
NAME = re.compile(r"[A-Za-z_][\w'-]*(?<!-)")
# Where a text names no definition: in comments and texts, at the head of a clause, behind a dot.
PASSED = re.compile(r'//[^\n]*|--[^\n]*|"[^"\n]*"|(?:requires|ensures)\s*\*?\s*\w*\s*{|(?<=\w)\.[\w\'-]+')
CLOSES = {"(": ")", "[": "]", "{": "}"}


class Item:
    """A function, a type or a definition: its name, the comment over it, its text, its clauses, and the file that it stands in."""

    def __init__(self, kind, name, comment, text, place, owner=None, clauses=""):
        self.kind, self.name, self.comment, self.text = kind, name, comment, text
        self.place, self.owner, self.clauses, self.model = place, owner, clauses, ""

    def title(self):
        return f"{self.owner}::{self.name}" if self.owner else self.name

    def anchor(self):
        if self.kind in ("definition", "law"):
            return self.name
        return f"{self.kind}.{self.owner}.{self.name}" if self.owner else f"{self.kind}.{self.name}"


class Crate:
    """A crate with what its page shows."""

    def __init__(self, name, below):
        self.name, self.below, self.folder = name, below, ROOT / "crates" / name
        self.head, self.functions, self.types, self.definitions, self.laws, self.edits = "", [], [], [], [], []


def comment_over(lines, at, mark):
    """The comment right over a line, without its marks. Attributes may stand between."""
    said = []
    while at > 0:
        line = lines[at - 1].strip()
        if line.startswith(mark):
            said.append(line[len(mark):].removeprefix(" "))
        elif not (line.startswith("#[") and mark == "///"):
            break
        at -= 1
    return "\n".join(reversed(said))


def group_end(text, at):
    """Where the group ends that a bracket opens."""
    depth = []
    for found in re.compile(r'"(?:[^"\\]|\\.)*"|//[^\n]*|[][(){}]').finditer(text, at):
        mark = found[0]
        if mark in CLOSES:
            depth.append(CLOSES[mark])
        elif depth and mark == depth[-1]:
            depth.pop()
            if not depth:
                return found.end()
    return len(text)


def signature_end(text, at):
    """Where a function's signature ends: before its first clause, its body or its semicolon."""
    marks = re.compile(r"[([{;]|requires\b|ensures\b")
    while True:
        found = marks.search(text, at)
        if not found or found[0] not in ("(", "["):
            return found.start() if found else len(text)
        at = group_end(text, found.start())


def clauses_at(text, at):
    """The text of the clauses from a place on, with the comments between them."""
    begin = end = at
    gap = re.compile(r"(?:\s|//[^\n]*)*")
    while True:
        clause = CLAUSE.match(text, gap.match(text, end).end())
        if not clause:
            return text[begin:end].strip("\n")
        end = group_end(text, clause.end() - 1)


def type_text(text, at, kind):
    """The text of a type: an enum as it stands, of a struct the public fields, of a trait what it is known by."""
    stop = re.compile(r"[{;(]").search(text, at)
    if kind in ("type", "const") or stop[0] == ";":
        return text[at:text.index(";", at) + 1]
    end = group_end(text, stop.start())
    if stop[0] == "(" or kind == "enum":
        return text[at:end]
    body = text[stop.end():end - 1]
    if kind == "struct":
        kept = re.findall(r"(?:^[ \t]*//[^\n]*\n)*^[ \t]*(?:ghost )?pub (?!\()[^\n]*\n", body, re.M)
    else:
        kept = re.findall(r"(?:^[ \t]*//[^\n]*\n)*^[ \t]*ghost \w+[^\n]*\n", body, re.M)
    return text[at:stop.end()] + ("\n" + "".join(kept) if kept else " ") + "}"


def undented(text, by):
    return "\n".join(line.removeprefix(by) for line in text.split("\n"))


def items_of(path, place):
    """The public functions and types of a file, in order; of an impl of a trait the functions that have clauses of their own."""
    text = path.read_text(encoding="utf-8")
    at, owner, inside = 0, None, None
    lines = text.split("\n")
    for number, line in enumerate(lines):
        if line and not line.startswith((" ", "}", ")")):
            head = IMPL.match(line)
            inside = ("of" if head[1] else "impl") if head else "trait" if line.startswith("pub trait") else None
            owner = head[2] if head else ITEM.match(line)[2] if inside == "trait" else None
        bare = line.lstrip()
        by, begin = line[:len(line) - len(bare)], at + len(line) - len(bare)
        at += len(line) + 1
        found = ITEM.match(bare) or (inside in ("trait", "of") and METHOD.match(bare)) or None
        if not found or (by and not owner):
            continue
        comment = comment_over(lines, number, "///")
        if found[1] != "fn":
            yield Item(found[1], found[2], comment, undented(type_text(text, begin, found[1]), by), place, owner if by else None)
            continue
        end = signature_end(text, begin)
        clauses = undented(clauses_at(text, end), by + "    ")
        if inside == "of":
            comment = comment or f"As of the trait `{head[1]}`, and:"
        if clauses or inside != "of":
            yield Item("fn", found[2], comment, undented(text[begin:end].rstrip(), by), place, owner if by else None, clauses)


def models_of(folder):
    """What each type is seen as in clauses."""
    seen = {}
    for path in sorted(folder.glob("src/**/*.rt")):
        for found in re.finditer(r"^impl(?:<.*?>)? Model for (\w+).*?ghost Value = {\s*(.*?)\s*};", path.read_text(encoding="utf-8"), re.M | re.S):
            seen[found[1]] = found[2]
    return seen


def exported(root):
    """The names that a library hands out, or None where it says none."""
    used = USE.findall(root)
    return {name for words in used for name in NAME.findall(words)} if used else None


def definitions_of(path, place):
    """The public definitions of a file of specs/, in order: each up to the next empty line, comment or definition."""
    lines = path.read_text(encoding="utf-8").split("\n")
    at = 0
    while at < len(lines):
        found = DEFINITION.match(lines[at])
        if not found or lines[at].startswith("pub mod") or lines[at].startswith("pub use"):
            at += 1
            continue
        end = at + 1
        while end < len(lines) and lines[end] and not lines[end].startswith("--") and not DEFINITION.match(lines[end]):
            end += 1
        yield Item("definition", found[1], comment_over(lines, at, "--"), "\n".join(lines[at:end]), place)
        at = end


def cited():
    """Of each crate the modules of its proofs/ that other crates cite, each with the names that they take from there."""
    found = {}
    for path in sorted(ROOT.glob("crates/*/proofs/**/*.antt")):
        for crate, module, names in CITED.findall(path.read_text(encoding="utf-8")):
            if crate != path.relative_to(ROOT / "crates").parts[0] and not module.endswith("Prelude"):
                found.setdefault(crate, {}).setdefault(module, set()).update(name.split(" as ")[0].strip() for name in names.split(","))
    return found


def laws_of(path, place, names):
    """The comment at the head of a file of proofs/, and those of its laws that are named: each up to its proof."""
    lines = path.read_text(encoding="utf-8").split("\n")
    head = 0
    while head < len(lines) and lines[head].startswith("--"):
        head += 1
    laws = []
    for at, line in enumerate(lines):
        found = LAW.match(line)
        if found and found[1] in names:
            end = at + 1
            while end < len(lines) and lines[end].startswith(" "):
                end += 1
            laws.append(Item("law", found[1], comment_over(lines, at, "--"), "\n".join(lines[at:end]), place))
    return place, "\n".join(line[2:].strip() for line in lines[:head]), laws


def edit_of(path):
    """A must-fail edit: what its remarks say, and each file with what it replaces, and by what."""
    said, changes, file = [], [], ""
    for line in path.read_text(encoding="utf-8").split("\n"):
        word, _, text = line.partition(":")
        if word == "file":
            file = text.strip()
        elif word == "old":
            changes.append([file, text.strip(), ""])
        elif word == "new" and changes:
            changes[-1][2] = text.strip()
        elif line.startswith(("#", "--", "//")):
            said.append(line.lstrip("#-/ "))
    return path.stem, " ".join(said), changes


def read_crate(name, below, laws):
    crate = Crate(name, below)
    source = crate.folder / "src"
    root = next(path for path in (source / "lib.rt", source / "main.rt") if path.exists()).read_text(encoding="utf-8")
    crate.head = "\n".join(line[3:].strip() for line in root.split("\n") if line.startswith("//!"))
    names, models = exported(root), models_of(crate.folder)
    for path in sorted(source.glob("**/*.rt")):
        for item in items_of(path, path.relative_to(crate.folder).as_posix()):
            if names is not None and path.stem != "lib" and (item.owner or item.name) not in names:
                continue
            item.model = models.get(item.name, "") if item.kind in ("struct", "enum") else ""
            (crate.functions if item.kind == "fn" else crate.types).append(item)
    for path in sorted((crate.folder / "specs").glob("**/*.antt")):
        crate.definitions += definitions_of(path, path.relative_to(crate.folder).as_posix())
    for module, names in sorted(laws.items()):
        path = crate.folder / "proofs" / (module.replace(".", "/") + ".antt")
        if path.exists():
            crate.laws.append(laws_of(path, path.relative_to(crate.folder).as_posix(), names))
    crate.edits = [edit_of(path) for path in sorted((crate.folder / "must-fail").glob("*.edit"))]
    return crate


def crates():
    """Each crate of crates.txt, lowest first."""
    laws = cited()
    for line in (ROOT / "crates.txt").read_text(encoding="utf-8").split("\n"):
        if line and not line.startswith("#"):
            name, _, below = line.partition(":")
            yield read_crate(name.split()[0], [word for word in below.split() if word.startswith("at_")], laws.get(name.split()[0], {}))


def links_of(text, known, page, besides=()):
    """The names of a text that are known there, as links, each once. Comments, texts, names of clauses and what stands behind a dot have none."""
    found = []
    for name in NAME.findall(PASSED.sub(" ", text)):
        if name in known and name not in besides and name not in found:
            found.append(name)
    return ", ".join(f"[{name}]({known[name].removeprefix(page)})" for name in found)


def code(text, kind):
    return f"```{kind}\n{text}\n```\n"


def shown(item, known, types, page):
    """A function or a type with all that stands beside it."""
    yield f'<a id="{item.anchor()}"></a>\n#### {item.title()}\n'
    yield f"{item.comment}\n" if item.comment else "(no comment)\n"
    yield code(item.text, "rust")
    if item.model:
        yield f"In clauses it is seen as `{item.model}`.\n"
    if item.clauses:
        yield code(item.clauses, "antt")
    links = [links_of(item.clauses + " " + item.model, known, page), links_of(item.text, types, page, {item.name})]
    if any(links):
        yield f"See {', '.join(filter(None, links))}.\n"
    yield f"`{item.place}`\n"


def plain(item, known, page):
    """A definition or a law with the comment over it."""
    yield f'<a id="{item.anchor()}"></a>\n#### {item.name}\n'
    if item.comment:
        yield f"{item.comment}\n"
    yield code(item.text, "antt")
    links = links_of(item.text, known, page, {item.name})
    if links:
        yield f"See {links}.\n"


def parts_of(crate, known, types, page):
    """The parts of a page, each with its title."""
    for title, items in (("Types", crate.types), ("Functions", crate.functions)):
        yield title, [text for item in items for text in shown(item, known, types, page)]
    files = {}
    for item in crate.definitions:
        files.setdefault(item.place, []).append(item)
    yield "Definitions", [text for place, items in files.items() for text in [f"### {place}\n", *(text for item in items for text in plain(item, known, page))]]
    yield "Laws for callers", [text for place, head, items in crate.laws if items
                               for text in [f"### {place}\n\n{head}\n", *(text for item in items for text in plain(item, known, page))]]
    yield "Wrong bodies", [text for name, said, changes in crate.edits
                           for text in [f'<a id="edit.{name}"></a>\n#### {name}\n', *([f"{said}\n"] if said else []), *(code(f"{file}\n- {old}\n+ {new}", "diff") for file, old, new in changes)]]


def page_of(crate, known, types):
    """The page of a crate."""
    parts = [(title, texts) for title, texts in parts_of(crate, known, types, f"{crate.name}.md") if texts]
    yield f"# {crate.name}\n"
    yield f"{crate.head}\n"
    if crate.below:
        yield "It stands on " + ", ".join(f"[{name}]({name}.md)" for name in crate.below) + ".\n"
    yield "On this page: " + ", ".join(f"[{title}](#{title.lower().replace(' ', '-')})" for title, _ in parts) + ".\n"
    for title, texts in parts:
        yield f"## {title}\n"
        yield from texts


def lines_in(folder, kind, words=("",)):
    """How many lines the files of a kind have whose names have one of these words."""
    paths = [path for path in folder.glob(f"**/*.{kind}") if any(word in path.name for word in words)]
    return sum(path.read_text(encoding="utf-8").count("\n") for path in paths)


def sizes_of(all_crates):
    """A table of each crate's lines, and of its edits."""
    yield "\n## Sizes\n\nLines of each crate, and its wrong bodies:\n\n| crate | code | tests | definitions | proofs | wrong bodies |\n|---|---|---|---|---|---|"
    for crate in all_crates:
        tests = lines_in(crate.folder / "src", "rt", ("test", "slow", "trial"))
        code_lines, definitions, proofs = (lines_in(crate.folder / part, kind) for part, kind in (("src", "rt"), ("specs", "antt"), ("proofs", "antt")))
        yield f"| {crate.name} | {code_lines - tests} | {tests} | {definitions} | {proofs} | {len(crate.edits)} |"


def index_of(all_crates):
    """The index: each crate, their sizes, and each name with its page."""
    yield "# Reference\n"
    yield "Made from the sources by `./bezglami docs`. Each page has a crate's public types and functions with their clauses, its definitions, the laws of its proofs that crates above cite, and the wrong bodies that the prover has to refuse.\n"
    for crate in all_crates:
        first = crate.head.split("\n\n")[0].replace("\n", " ")
        yield f"- [{crate.name}]({crate.name}.md): {first}"
    yield from sizes_of(all_crates)
    names = sorted(((item.title(), item.kind, f"{crate.name}.md#{item.anchor()}") for crate in all_crates for item in crate.functions + crate.types + crate.definitions),
                   key=lambda entry: (entry[0].lower(), entry))
    yield "\n## Names\n"
    yield " · ".join(f"[{name}]({place})" for name, _, place in names)


def bare_of(all_crates):
    """What has no comment of its own: definitions that stand behind others of their file, and all else."""
    later, first = [], []
    for crate in all_crates:
        place = None
        for item in crate.functions + crate.types + crate.definitions:
            if not item.comment:
                (later if item.kind == "definition" and item.place == place else first).append(f"{item.title()} of {crate.name}")
            place = item.place
    return later, first


def known_in(crate, by_name, kind):
    """The names that a crate's page knows, each with its place: of the crate itself and of those below it."""
    names, seen, left = {}, set(), [crate.name]
    while left:
        name = left.pop(0)
        if name in seen:
            continue
        seen.add(name)
        left += by_name[name].below
        for item in getattr(by_name[name], kind):
            if not item.owner:
                names.setdefault(item.name, f"{name}.md#{item.anchor()}")
    return names


def write(folder):
    """Writes all pages, and answers the crates."""
    folder.mkdir(parents=True, exist_ok=True)
    for old in folder.glob("*.md"):
        old.unlink()
    all_crates = list(crates())
    by_name = {crate.name: crate for crate in all_crates}
    for crate in all_crates:
        pages = page_of(crate, known_in(crate, by_name, "definitions"), known_in(crate, by_name, "types"))
        (folder / f"{crate.name}.md").write_text("\n".join(pages), encoding="utf-8")
    (folder / "index.md").write_text("\n".join(index_of(all_crates)) + "\n", encoding="utf-8")
    return all_crates


def main(words):
    check = "--check" in words
    rest = [word for word in words if word != "--check"]
    folder = pathlib.Path(rest[0]) if rest else ROOT / "out" / "docs"
    all_crates = write(folder)
    counts = ", ".join(f"{sum(len(getattr(crate, kind)) for crate in all_crates)} {kind}" for kind in ("functions", "types", "definitions", "edits"))
    counts += f", {sum(len(items) for crate in all_crates for _, _, items in crate.laws)} laws"
    print(f"docs: {counts} of {len(all_crates)} crates, in {folder}")
    if check:
        later, first = bare_of(all_crates)
        print(f"docs: {len(later)} definitions stand under the comment of another: {', '.join(later)}")
        print(f"docs: {len(first)} have no comment: {', '.join(first) or 'none'}")
    return 0


if __name__ == "__main__":
    sys.exit(main(sys.argv[1:]))
