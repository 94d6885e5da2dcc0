"""What a case is, and how it runs the built programs in a folder of its own."""

import os
import re
import resource
import subprocess
from collections import namedtuple
from contextlib import contextmanager
from pathlib import Path

ROOT = Path(__file__).resolve().parents[2]
EXAMPLES = ROOT / "examples"

# What the standard input of each run holds. No command reads it, so it has to be there still when the run has ended.
TYPED = b"read,0\n"

# How long a command may take. None takes a tenth of that.
SECONDS = 300

# The statuses of files that are refused.
OF_A_FILE = {3, 4, 5, 8, 9, 10, 11, 12}

# The programs, where the runner has no other words, and the library of `shim.py`, once that is built.
PATHS = {name: ROOT / "crates" / name / "out" / name for name in ("at_program", "at_example")}

Answer = namedtuple("Answer", "status out err")


class Failed(Exception):
    """What a program answered isn't what is wanted."""


class Untried(Exception):
    """What a case needs isn't there, as a C compiler."""


class Case:
    """A case: `tries` takes a folder and what is given. It raises Failed, or gives back what a reader may like to know of what it tried."""

    def __init__(self, name, tries, *given):
        self.name, self.tries, self.given = name, tries, given


class Folder:
    """A folder in which a case runs. The folders of the examples stand in it."""

    def __init__(self, path):
        self.path = Path(path)
        self.missing = set()
        for example in EXAMPLES.iterdir():
            (self.path / example.name).symlink_to(example)

    def write(self, name, content):
        """Writes a file. It gives back its name."""
        (self.path / name).write_bytes(bytes_of(content))
        return name

    def read(self, name):
        """The bytes of a file."""
        return (self.path / name).read_bytes()

    def run(self, *words, program=None, typed=None, out=subprocess.PIPE, err=subprocess.PIPE, memory=None, **surroundings):
        """Runs a command, and gives its status and both streams. Its standard input is `typed`, or else a pipe, which it has to leave
        alone. `memory` limits the address space, in KiB."""
        words = [bytes_of(word) for word in words]
        limit = memory and (lambda: resource.setrlimit(resource.RLIMIT_AS, (memory * 1024, memory * 1024)))
        surroundings = {name: str(value) for name, value in surroundings.items()}
        with standard_input(typed) as given:
            try:
                ended = subprocess.run(
                    [program or PATHS["at_program"], *words], cwd=self.path, stdin=given, stdout=out, stderr=err, timeout=SECONDS, check=False,
                    preexec_fn=limit, env={**os.environ, **surroundings},
                )
            except subprocess.TimeoutExpired:
                raise Failed(f"it didn't end in {SECONDS} seconds") from None
        return Answer(ended.returncode, ended.stdout or b"", ended.stderr or b"")


@contextmanager
def standard_input(path):
    """A file, or else a pipe with TYPED, which has to be there still at the end."""
    if path is not None:
        with open(path, "rb") as file:
            yield file
        return
    reading, writing = os.pipe()
    os.write(writing, TYPED)
    os.close(writing)
    try:
        yield reading
        is_true(os.read(reading, len(TYPED) + 1) == TYPED, "it read from the standard input")
    finally:
        os.close(reading)


def bytes_of(text):
    """A text's bytes."""
    return text.encode("ascii") if isinstance(text, str) else bytes(text)


def lines(*texts):
    """A text of these lines."""
    return "".join(f"{text}\n" for text in texts)


def is_true(good, what):
    """Fails with these words where that isn't so."""
    if not good:
        raise Failed(what)


def expect(answer, status, out, err):
    """The answer has this status and these streams."""
    wanted = Answer(status, bytes_of(out), bytes_of(err))
    if answer == wanted:
        return
    stream, found, needed = ("output", answer.out, wanted.out) if answer.out != wanted.out else ("error output", answer.err, wanted.err)
    pairs = zip(found.split(b"\n") + [None], needed.split(b"\n") + [None])
    number, pair = next((p for p in enumerate(pairs, 1) if p[1][0] != p[1][1]), (0, ("", "")))
    raise Failed(
        f"status {answer.status}, wanted {status}; {len(answer.out)} bytes on the output, wanted {len(wanted.out)}; "
        f"on the error output {answer.err[:200]!r}; line {number} of the {stream} is {pair[0]!r:.200}, wanted {pair[1]!r:.200}"
    )


def printed(answer, text):
    """All was done, and the output is this text."""
    expect(answer, 0, text, b"")


def same(found, wanted):
    """A text is the one that is wanted."""
    printed(Answer(0, bytes_of(found), b""), wanted)


def refused(answer, status, text):
    """It was refused with this status, and nothing was printed. The text is what was told; where it has one line, and a file was refused, or
    how many there are, some second line of that file, or of the book, was told too."""
    said = bytes_of(text) + b"\n"
    of_files = said.startswith(b"files: wanted ")
    if (status in OF_A_FILE or of_files) and said.count(b"\n") == 1:
        second = answer.err.removeprefix(said)
        place = rb": " if status in (5, 8) or of_files else rb", line [1-9][0-9]*: "
        is_true(re.fullmatch(rb"  [^\n]*" + place + rb"[^\n]+\n", second), f"the second line is {second!r:.200}")
        said += second
    expect(answer, status, b"", said)


def verified(folder, answer, words):
    """All was done, and the output is a report of these words that `verify` takes."""
    expect(answer, 0, answer.out, b"")
    command, book, *pays = (os.fsdecode(word) for word in words)
    folder.write("report", answer.out)
    number = answer.out.split(b"\n")[0].removeprefix(b"journal ")
    printed(folder.run("verify", book, "report", *(pays[1:] if command == "replay" else pays)), b"verified " + number + b"\n")


def ran(folder, *words, **surroundings):
    """A run whose report is taken by `verify`. It gives back the report."""
    answer = folder.run(*words, **surroundings)
    verified(folder, answer, words)
    return answer.out
