"""Outputs that take nothing or not all, the standard input, and too little memory for a file."""

import subprocess

from tables.trying import EXAMPLES, PATHS, TYPED, Case, Failed, expect, is_true, printed, refused

BOOK, PAY = "usual/book.csv", "usual/pay0.csv"
PRINTED = (EXAMPLES / "usual" / "usual.report").read_bytes()
# Words that each command answers with a text.
WORDS = {
    "run": ["run", BOOK, PAY],
    "check": ["check", BOOK, PAY],
    "make": ["make", "7", "1", "2"],
    "replay": ["replay", BOOK, "empty", PAY],
    "agree": ["agree", "5", "5"],
    "deliver": ["deliver", "deliver/book.csv", "deliver/order.csv", "deliver/send0.csv", "deliver/send1.csv"],
    "verify": ["verify", BOOK, "usual/usual.report", PAY],
    "kinds": ["kinds", BOOK, PAY],
    "needs": ["needs", BOOK, PAY],
    "costs": ["costs", BOOK, PAY],
    "orders": ["orders", BOOK, PAY],
    "ledger": ["ledger", BOOK, PAY],
    "trace": ["trace", BOOK, "empty", PAY],
    "show": ["show", BOOK, "empty", PAY],
}


def full(folder, words):
    """A full device takes no text."""
    folder.write("empty", "")
    with open("/dev/full", "wb") as device:
        refused(folder.run(*words, out=device), 6, "write fault")


def closes(folder):
    """An output that takes one byte and closes."""
    folder.write("reads", "read,0\n" * 16384)
    with subprocess.Popen(["head", "-c", "1"], stdin=subprocess.PIPE, stdout=subprocess.DEVNULL) as reader:
        refused(folder.run("run", BOOK, "reads", out=reader.stdin), 6, "write fault")


def full_errors(folder):
    """A refusal whose line is not taken has its status."""
    with open("/dev/full", "wb") as device:
        expect(folder.run("run", "nothing", PAY, err=device), 5, b"", b"")


def closed(folder):
    """An output that is closed is a write fault. An error output or a standard input that is closed changes no answer."""
    for how, wanted in ((">&-", (6, b"", b"write fault\n")), ("2>&-", (0, PRINTED, b"")), ("<&-", (0, PRINTED, b"")), ("<&- >&- 2>&-", (6, b"", b""))):
        answer = folder.run("-c", f'exec "$0" "$@" {how}', PATHS["at_program"], *WORDS["run"], program="/bin/sh")
        expect(answer, *wanted)


def little(folder, command):
    """The longest files need more memory than there is."""
    folder.write("long", b"\0" * 8388609)
    refused(folder.run(command, BOOK, "long", memory=12000), 7, "no memory")


def typed(folder, words):
    """A command leaves a pipe alone, a closed input too, and a text that it is given there changes nothing."""
    folder.write("empty", "")
    answer = folder.run(*words)  # which fails where any of the text was read
    expect(answer, 0, answer.out, b"")
    is_true(answer.out, "it prints nothing")
    for how in ("/dev/null", EXAMPLES / "usual" / "pay0.csv"):
        printed(folder.run(*words, typed=how), answer.out)


def reader_is_found(folder):
    """The runner finds a program that reads the standard input: this one takes it away, and then does all else as it should."""
    folder.write("reads", '#!/bin/sh\ncat >/dev/null\nexec "$0.program" "$@"\n')
    folder.write("reads.program", "#!/bin/sh\necho done\n")
    for name in ("reads", "reads.program"):
        (folder.path / name).chmod(0o755)
    printed(folder.run("word", program=folder.path / "reads.program"), b"done\n")
    try:
        folder.run("word", program=folder.path / "reads")
    except Failed:
        return
    is_true(False, f"it took {TYPED!r}, and nobody saw it")


def cases():
    """The cases."""
    for name, words in WORDS.items():
        yield Case(f"a full device for {name}", full, words)
        yield Case(f"the standard input of {name}", typed, words)
    yield Case("a program that reads the standard input is found", reader_is_found)
    yield Case("an output that closes early", closes)
    yield Case("an error output that is full", full_errors)
    yield Case("streams that are closed", closed)
    yield Case("too little memory", little, "run")
    yield Case("too little memory for a command that shows", little, "kinds")
