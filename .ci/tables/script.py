"""The script `bezglami`, in folders that look like a repository: what it runs for which words, with which paths, settings and status. The
program there, and `rt`, are small scripts that tell how they were called."""

import os
import shutil
import subprocess
import time

from tables.trying import PATHS, ROOT, Answer, Case, Untried, expect, is_true, printed, refused

# Prints the settings of the allocator, and the words, one a line. Its status is the first word's number, where that is one.
PROGRAM = """#!/bin/sh
printf 'settings %s\\n' "${GLIBC_TUNABLES-none}"
printf '%s\\n' "$@"
case ${1-} in *[!0-9]* | '') exit 0 ;; esac
exit "$1"
"""

# An unproved run by `rt`: it prints its words, and ends as rt tells of a program, among lines of its own.
UNPROVED = """#!/bin/sh
printf '%s\\n' "$@"
echo 'checked: 3 functions' >&2
echo 'races: none' >&2
echo 'a line of the program' >&2
echo 'run=ended status=4 steps=7' >&2
"""

SETTINGS = "glibc.malloc.hugetlb=1:glibc.malloc.arena_max=1:glibc.malloc.mmap_threshold=33554432:glibc.malloc.trim_threshold=268435456"
UNPROVED_LINE = "bezglami: this run is unproved, slow and for small files; '{}' proves and leaves the program\n"


class House:
    """A repository in a folder of this name, with the script and a program that was built after its sources."""

    def __init__(self, folder, name="house"):
        self.path = folder.path / name
        self.program = self.path / "crates" / "at_program" / "out" / "at_program"
        for part in ("src", "specs", "proofs", "out"):
            (self.path / "crates" / "at_program" / part).mkdir(parents=True)
        self.file("crates/at_program/src/main.rt", "")
        self.file("crates.txt", "")
        self.script = self.file("bezglami", (ROOT / "bezglami").read_text())
        self.file("crates/at_program/out/at_program", PROGRAM, 1)

    def file(self, name, text, later=0):
        """A file that may be run, by so many minutes later than now."""
        path, when = self.path / name, time.time() + 60 * later
        path.parent.mkdir(parents=True, exist_ok=True)
        path.write_text(text)
        path.chmod(0o755)
        os.utime(path, (when, when))
        return path

    def tool(self, text):
        """An `rt` on the path, which is the folder that is given back."""
        return self.file("path/rt", text).parent

    def run(self, *words, script=None, path="/usr/bin:/bin", **surroundings):
        """Calls the script from another folder, with nothing else around."""
        (self.path / "elsewhere").mkdir(exist_ok=True)
        ended = subprocess.run(
            [script or self.script, *words], cwd=self.path / "elsewhere", stdin=subprocess.DEVNULL, capture_output=True, check=False,
            timeout=60, env={"PATH": str(path), "LC_ALL": "C", **surroundings},
        )
        return Answer(ended.returncode, ended.stdout, ended.stderr)


def told(words, settings=SETTINGS):
    """What the program prints that is given these words."""
    return "".join(f"{line}\n" for line in [f"settings {settings}", *words])


def helps(folder, *words):
    """The head of the script is printed: a line for each command, and for what else it takes."""
    answer = House(folder).run(*words)
    printed(answer, answer.out)
    lines = answer.out.decode().split("\n")
    is_true(lines[0] == "Runs the program, builds it, or passes all tests, from any folder.", "another first line")
    commands = "run check make replay agree deliver verify kinds needs costs orders ledger trace show import build release docs test help".split()
    named = [line.split()[1] for line in lines if line.startswith("  bezglami ")]
    is_true(named == commands, f"it names {named}")


def helps_with(folder, command, first, lines):
    """The lines of one command in the head of the script are printed, the first of which has its words."""
    answer = House(folder).run(command, "--help")
    printed(answer, answer.out)
    found = answer.out.decode().split("\n")
    is_true(found[0].startswith(first) and len(found) == lines + 1, f"it prints {found}")


def passes(folder, *words):
    """The built program gets all words as they are, and its output is the script's."""
    printed(House(folder).run(*words), told(words))


def passes_status(folder):
    """The program's status is the script's."""
    expect(House(folder).run("13", "x"), 13, told(["13", "x"]), "")


def keeps_settings(folder, settings):
    """Settings of the allocator that were given stay."""
    printed(House(folder).run("run", GLIBC_TUNABLES=settings), told(["run"], settings))


def from_a_link(folder):
    """A link to the script, in another folder, leads to its own repository."""
    house = House(folder)
    link = folder.path / "a link"
    link.symlink_to(house.script)
    printed(house.run("kinds", "b c", script=link), told(["kinds", "b c"]))


def in_spaces(folder):
    """The repository's own path may have spaces."""
    printed(House(folder, "a house of words").run("run", "book"), told(["run", "book"]))


def without_rt(folder, *words):
    """What needs the toolchain says so where it isn't on the path."""
    house = House(folder)
    if words != ("build",):
        house.file("crates/at_program/src/main.rt", "", 2)
    if shutil.which("rt", path="/usr/bin:/bin"):
        raise Untried("a path without rt")
    refused(house.run(*words), 1, "bezglami: rt, Rattle's toolchain, is not on the path")


def unproved(folder, part, words, given):
    """Once a file is newer than the program, or there is none, the words go to an unproved run, whose own lines aren't shown."""
    house = House(folder)
    if part:
        house.file(part, "", 2)
    else:
        house.program.unlink()
    given = ["try", "--", *(f"{house.path / 'elsewhere'}/{word[1:]}" if word.startswith("@") else word for word in given)]
    wanted = UNPROVED_LINE.format(f"{house.script} build") + "a line of the program\n"
    expect(house.run(*words, path=f"{house.tool(UNPROVED)}:/usr/bin:/bin"), 4, "".join(f"{word}\n" for word in given), wanted)


def no_answer(folder):
    """Where an unproved run doesn't end with a status, all its lines are shown."""
    house = House(folder)
    house.program.unlink()
    answer = house.run("run", "b", path=f"{house.tool('#!/bin/sh' + chr(10) + 'echo rt: no >&2')}:/usr/bin:/bin")
    expect(answer, 1, "", UNPROVED_LINE.format(f"{house.script} build") + "rt: no\nbezglami: the program gave no answer\n")


def builds(folder, text, status):
    """`build` has rt make the program, and takes it where it prints the sample's report. The library is made after it."""
    house = House(folder)
    house.file("examples/usual/usual.report", "right\n")
    tool = f"#!/bin/sh\ncase $1 in run) echo {text} ;; lib) mkdir -p out && echo x >out/libat_c.a ;; esac\n"
    (house.path / "crates" / "at_c").mkdir()
    answer = house.run("build", path=f"{house.tool(tool)}:/usr/bin:/bin")
    program = f"bezglami: the program is {house.program}\nbezglami: the library for C is {house.path}/crates/at_c/out/libat_c.a\n"
    wrong = "bezglami: the program was not built, or prints another text of the sample\n"
    expect(answer, status, "", wrong if status else program)


def hands_on(folder, word, name, script):
    """`test` and `import` are other scripts of the repository, which get the words after it."""
    house = House(folder)
    house.file(name, script)
    printed(house.run(word, "a b", path=os.environ["PATH"]), b"a b\n" if word == "import" else b"the gate\n")


def is_the_program(folder):
    """With the program that was built, its answers are those of the program itself."""
    house = House(folder)
    shutil.copyfile(PATHS["at_program"], house.program)
    os.utime(house.program, (time.time() + 60,) * 2)
    book, pays = ROOT / "examples" / "usual" / "book.csv", ROOT / "examples" / "usual" / "pay0.csv"
    printed(house.run("kinds", str(book), str(pays)), (ROOT / "examples" / "usual" / "usual.kinds").read_bytes())
    refused(house.run("check", str(book), "nothing"), 5, "read fault: file 1")


def cases():
    """The cases, by what the words lead to."""
    for words in ((), ("help",), ("--help",)):
        yield Case(f"help by {words}", helps, *words)
    yield Case("help with one command", helps_with, "kinds", "  bezglami kinds BOOK PAY...    tells ", 1)
    yield Case("help with a command of two lines", helps_with, "replay", "  bezglami replay BOOK SCHEDULE PAY...", 2)
    yield Case("help with the last command", helps_with, "test", "  bezglami test ", 1)
    yield Case("help with no command", passes, "kind", "--help")
    yield Case("words as they are", passes, "run", "a book", "", "--x", "*", "$(x)")
    yield Case("words of no form", passes, "Run", "x")
    yield Case("the program's status", passes_status)
    yield Case("settings that were given", keeps_settings, "glibc.malloc.arena_max=2")
    yield Case("no settings", keeps_settings, "")
    yield Case("a link to the script", from_a_link)
    yield Case("a path with spaces", in_spaces)
    yield Case("no rt to build", without_rt, "build")
    yield Case("no rt for an unproved run", without_rt, "run", "book")
    for part in ("crates/at_program/src/main.rt", "crates/at_program/specs/Lib.antt", "crates/at_program/proofs/x.antt", "crates.txt", ""):
        yield Case(f"unproved: {part or 'no program'}", unproved, part, ["run", "b", "/c"], ["run", "@b", "/c"])
    for command in "check replay deliver verify kinds needs orders costs ledger trace show".split():
        yield Case(f"unproved: the paths of {command}", unproved, "", [command, "b", ""], [command, "@b", ""])
    yield Case("unproved: numbers are no paths", unproved, "", ["make", "7", "2", "5"], ["make", "7", "2", "5"])
    yield Case("unproved: values are no paths", unproved, "", ["agree", "7", "2"], ["agree", "7", "2"])
    yield Case("unproved: no answer", no_answer)
    yield Case("build", builds, "right", 0)
    yield Case("build of another text", builds, "wrong", 1)
    yield Case("test", hands_on, "test", ".ci/run", "#!/bin/sh\necho the gate\n")
    yield Case("import", hands_on, "import", "tools/from_export.py", "import sys\nprint(*sys.argv[1:])\n")
    yield Case("the program that was built", is_the_program)
