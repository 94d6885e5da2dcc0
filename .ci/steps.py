#!/usr/bin/env python3
"""Fails where a step could be made that no clause counts, or where one thread could wait for another.

What a seat counts of its own steps is proved of each call of at_board, against the table that its words lie in. That a call makes one
operation there, and that no other word is shared, is looked at here: in every file of every crate, all that is named has to be listed in
steps/lists.py. Wrong bodies stand in steps/wrong, and each of them is tried first: it passes none of these.

    steps.py             tries the wrong bodies, and then the tree
    steps.py NAME...     tries these wrong bodies, and says of each why it is refused
    steps.py places      prints where the words stand now that lists.py keeps to their places
"""

import sys
from collections import defaultdict
from functools import lru_cache
from pathlib import Path

ROOT = Path(__file__).resolve().parent.parent
sys.path.insert(0, str(ROOT / ".ci/steps"))
sys.dont_write_bytecode = True

import lists
from edits import changed, edits
from names import HEADS, names_of
from source import Unreadable

names_of = lru_cache(maxsize=None)(names_of)


def crates_of(text):
    """The crates that crates.txt has, each with those that it stands on."""
    lines = [line.partition("#")[0].partition(":") for line in text.split("\n")]
    return {head.split()[0]: below.split() for head, _, below in lines if head.strip()}


@lru_cache(maxsize=None)
def listed(crate):
    """The paths of other libraries that a crate may name."""
    found = set(lists.EVERYWHERE)
    for crates, paths in lists.PATHS:
        found |= set(paths) if crate in crates else set()
    return found


class Crate:
    """The files of a crate that its programs are built from."""

    def __init__(self, name, files, say):
        self.name, self.files = name, {}
        self.kept = lists.KEPT.union(*(words for crates, words in lists.KEPT_IN if name in crates))
        top, tests = f"crates/{name}/src/", set()
        there = {path for path in files if path.startswith(f"crates/{name}/") and path.endswith(".rt")}
        left = [path for path in (f"{top}lib.rt", f"{top}main.rt") if path in there]
        if not left:
            say(f"{name}: has no {top}lib.rt and no {top}main.rt")
        while left:
            path = left.pop()
            try:
                found = self.files[path[len(top) :]] = names_of(files[path])
            except (Unreadable, IndexError, StopIteration) as why:
                say(f"{path}: {why or 'cannot be read'}")
                continue
            folder = top if path in (f"{top}lib.rt", f"{top}main.rt") else path[: -len(".rt")] + "/"
            tests |= {f"{folder}{module}.rt" for module in found.tests}
            for module in found.modules:
                inner = f"{folder}{module}.rt"
                if inner not in there or inner[len(top) :] in self.files or inner in left:
                    say(f"{path}: mod {module} is not {inner} alone")
                else:
                    left.append(inner)
        # (what only a test reads may name anything)
        for path in sorted(there - tests - {top + it for it in self.files}):
            if not path.startswith(tuple(it[: -len(".rt")] + "/" for it in tests)):
                say(f"{path}: no mod of the crate reads it")


class Check:
    """One look at all crates."""

    def __init__(self, files):
        self.faults = []
        self.below = crates_of(files["crates.txt"])
        self.crates = [Crate(name, files, self.faults.append) for name in self.below]
        every = [file for crate in self.crates for file in crate.files.values()]
        self.declared = set().union(*(file.declared for file in every), *(file.modules for file in every))
        self.crates_with = defaultdict(list)
        for crate in self.crates:
            for trait in (it for file in crate.files.values() for it in file.traits):
                self.crates_with[trait].append(crate.name)
        self.aliases = set().union(*(file.aliases for file in every))
        self.known = self.declared | lists.METHODS | set(self.below)
        self.places = defaultdict(list)

    def all(self):
        self.lists()
        for crate in self.crates:
            for path, file in crate.files.items():
                self.file(crate, path, file)
        self.at_their_places()
        return self.faults

    def lists(self):
        """Each crate is one that the lists know, and stands on no library that it may not name."""
        known = {crate for crates, _ in lists.PATHS for crate in crates} | set(lists.PLAIN)
        self.faults += [f"{name}: no list of steps/lists.py knows this crate" for name in self.below if name not in known]
        self.faults += [f"{name}: steps/lists.py has a crate that isn't there" for name in sorted(known - set(self.below))]
        for name, below in self.below.items():
            roots = {path.split("::")[0] for path in listed(name)} | set(self.below) | set(lists.UNNAMED.get(name, ()))
            self.faults += [f"{name}: stands on {it}, of which it may name nothing" for it in below if it not in roots]
        for crates, path in lists.APART:
            far = {name for name in self.below if path in listed(name)}
            self.faults += [f"{crate}: stands on {it}, which may name {path}" for crate in crates for it in sorted(self.under(crate) & far)]

    def under(self, crate):
        """The crates of the product that a crate stands on, also by others."""
        found, left = set(), [crate]
        while left:
            new = {it for it in self.below.get(left.pop(), ()) if it in self.below} - found
            found |= new
            left += new
        return found

    def file(self, crate, path, file):
        where = f"{crate.name}/{path}"
        meanings = defaultdict(set)
        roots = {*HEADS, *lists.OUTSIDE, *self.below[crate.name]}
        for named, name in file.uses:
            meanings[name].add(named.path)
            if name != named.path[-1]:
                self.say(where, named, "another name for it")
            if named.path[0] not in roots and named.path[0] not in self.declared:
                self.say(where, named, "of a library on which the crate doesn't stand")
            self.path(crate, where, named, named.path)
        for named in file.paths:
            if named.path[0] == "" and not (len(named.path) == 2 and named.path[1][:1].isupper()):
                self.say(where, named, "a function of a type in < >")
            if named.path[0] == "Self" and named.path[-1][:1].islower():
                self.say(where, named, "a function by Self")
            for known in meanings.get(named.path[0], [named.path[:1]] if named.path[1:] else []):
                self.path(crate, where, named, known + named.path[1:])
            self.head(where, named, meanings, file)
        for named in file.impls:
            for known in meanings.get(named.path[0], [named.path[:1]]):
                self.implemented(crate, where, named, known + named.path[1:])
        for named in file.members:
            if named.path not in self.known and named.path not in crate.kept:
                self.say(where, named, "a method that is not listed")
        for named in file.macros:
            if named.path not in lists.MACROS and not (crate.name in lists.PRINTS and named.path in ("print", "println")):
                self.say(where, named, "a macro that is not listed")
        for named in file.attributes:
            if not named.path.startswith(lists.ATTRIBUTES):
                self.say(where, named, "an attribute that is not listed")
        self.exports(where, file)
        self.kept(crate, where, file)

    def path(self, crate, where, named, path):
        """A path of std or of the kit is listed, and one of the product has names of the product."""
        path = path[1:] if path[0] == "::" else path
        if "*" in path:
            self.say(where, named, "all that a module has")
        elif path[0] in lists.OUTSIDE or path[0] in self.below[crate.name] and path[0] not in self.below:
            self.outside(crate, where, named, "::".join(path))
        else:
            if "::".join(path[:2]) in lists.SHOWN:
                self.outside(crate, where, named, "::".join(path[:2]))
            for above, name in zip(path, path[1:]):
                if name not in self.known and name not in crate.kept and name not in HEADS:
                    self.say(where, named, f"{name}, which is not listed")
                if above in self.aliases and name[:1].islower():
                    self.say(where, named, f"{name} by another name of its type")

    def outside(self, crate, where, named, full):
        if full not in listed(crate.name):
            self.say(where, named, f"{full}, which is not listed")

    def implemented(self, crate, where, named, path):
        """A trait that is implemented is one of the crate's, whose name is that of no other, or listed."""
        own = path[0] not in self.below[crate.name] and self.crates_with[path[-1]] == [crate.name]
        if not own and not any("::".join(path) in traits for crates, traits in lists.TRAITS if crates == "all" or crate.name in crates):
            self.say(where, named, "a trait of others, that is not listed")

    def head(self, where, named, meanings, file):
        """A type that is named alone is one of the crate's, an imported one, a parameter, or one of those that need no import."""
        head = named.path[0]
        if not head[:1].isupper() or not head[1:] or head in HEADS:
            return
        if head not in meanings and head not in self.declared and head not in lists.PRELUDE:
            self.say(where, named, "a type that is not listed")

    def exports(self, where, file):
        """What programs in C see are the functions of the header, by names that no other library has."""
        exported = [it for it in file.attributes if it.path == lists.EXPORT]
        if len(exported) != sum(it.name.startswith("bezglami_") for it in file.functions):
            self.faults.append(f"{where}: an export that isn't named bezglami_")

    def kept(self, crate, where, file):
        """Notes each word that is kept to its places."""
        words = [(it.path, it) for it in file.words]
        words += [("." + it.path, it) for it in file.members]
        # A method may also be called by the path of its type.
        words += [(form, it) for it in file.paths if it.path[1:] for form in ("." + it.path[-1], "::".join(it.path[-2:]))]
        found = defaultdict(list)
        # (an impl has the word of a loop)
        words = [(word, it) for word, it in words if word in crate.kept and (it.function or word != "for")]
        for word, it in sorted(words, key=lambda it: it[1].order):
            found[it.function].append(word)
        for function, words in found.items():
            self.places[where, function or "-"] += words
            if function and f"{where} {function}" not in lists.FREE:
                self.once(where, function, set(words), [it for it in file.functions if it.name == function])

    def once(self, where, function, words, found):
        """Looks at how often a step is made, where there is one."""
        self.faults += [f"{where}: {function} has {word} in braces or not as a call" for it in found for word in sorted(words & lists.STARTS - it.calls)]
        if words & (lists.ONCE | lists.STRAIGHT):
            if len(found) != (2 if f"{where} {function}" in lists.TWICE else 1):
                self.faults.append(f"{where}: {function} stands in it {len(found)} times")
            if not all(it.is_once for it in found):
                self.faults.append(f"{where}: {function} has a loop or a closure")
        if words & lists.STRAIGHT and not all(it.is_straight for it in found):
            self.faults.append(f"{where}: {function} has a branch, a loop, a closure or an early end")

    def at_their_places(self):
        wanted = {tuple(place.split()): words.split() for place, _, words in (line.partition(": ") for line in lists.PLACES.strip().splitlines())}
        for place, words in self.places.items():
            want = wanted.pop(place, [])
            if words != want:
                self.faults.append(f"{place[0]}: {place[1]} has {' '.join(words)} and not {' '.join(want) or 'none of these'}")
        self.faults += [f"{where}: {function} has none of {' '.join(words)}" for (where, function), words in wanted.items()]

    def say(self, where, named, why):
        path = named.path if isinstance(named.path, str) else "::".join(named.path)
        self.faults.append(f"{where}:{named.line}: {path}: {why}")


def tree():
    """The text of each file that is looked at."""
    paths = [ROOT / "crates.txt", *sorted((ROOT / "crates").glob("*/**/*.rt"))]
    return {str(path.relative_to(ROOT)): path.read_text(encoding="utf-8") for path in paths if "/out/" not in str(path)}


def tried(files, name, edit, is_shown):
    """Why the check doesn't refuse a wrong body for what it does, if it doesn't."""
    why, texts, says = changed(files, edit)
    faults = [] if why else Check(texts).all()
    if is_shown:
        print("\n  ".join([f"{name}:", *faults]))
    return why or (None if any(says in it for it in faults) else f"refused, but not since {says}" if faults else "passes")


def main(words):
    files = tree()
    check = Check(files)
    faults = check.all()
    if words == ["places"]:
        print("\n".join(f"{where} {function}: {' '.join(found)}" for (where, function), found in check.places.items()))
        return 0
    wrong = edits(ROOT / ".ci/steps/wrong", words)
    failed = [f"{name}: {why}" for name, edit in wrong if (why := tried(files, name, edit, bool(words)))]
    print("\n".join([*failed, f"steps: {len(wrong) - len(failed)} of {len(wrong)} wrong bodies are refused"]))
    print("\n".join(faults or ["steps: each operation on the board is one counted step; no other word is shared, and no thread waits"]))
    return 1 if failed or faults or not wrong else 0


if __name__ == "__main__":
    sys.exit(main(sys.argv[1:]))
