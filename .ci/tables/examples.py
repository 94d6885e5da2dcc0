"""The examples: what commands print of them is what stands beside them, and what depends on threads is looked at by other means."""

import shutil
import subprocess

from tables import costs, model
from tables.trying import EXAMPLES, Case, Failed, expect, is_true, printed, ran, refused

PAYS = {
    "usual": ["pay0.csv"],
    "owners": ["pay0.csv", "pay1.csv"],
    "realistic": ["pay0.csv", "pay1.csv", "pay2.csv"],
    "household": ["ann.csv", "bob.csv"],
    "short": ["ann.csv", "bob.csv"],
}


def words_of(name):
    """The book and the payment files of an example."""
    return [f"{name}/{file}" for file in ["book.csv", *PAYS[name]]]


def same(folder, command, name, stored):
    """A command prints what stands in a file."""
    printed(folder.run(command, *words_of(name)), (EXAMPLES / stored).read_bytes())


def runs(folder, name):
    """A run of the example has a report that is taken."""
    ran(folder, "run", *words_of(name))


def verifies(folder, name):
    """The example's report is taken."""
    book, *pays = words_of(name)
    number = (EXAMPLES / name / f"{name}.report").read_bytes().split(b"\n")[0].removeprefix(b"journal ")
    printed(folder.run("verify", book, f"{name}/{name}.report", *pays), b"verified " + number + b"\n")


def forged_report(folder):
    """A report of no run is refused."""
    book, *pays = words_of("household")
    said = (EXAMPLES / "household" / "forged.said").read_text("ascii").rstrip("\n")
    refused(folder.run("verify", book, "household/forged.report", *pays), 12, said)


def printed_by(folder, command, name):
    """The book and the files of an example, and what a command prints of them."""
    answer = folder.run(command, *words_of(name))
    expect(answer, 0, answer.out, b"")
    texts = [(EXAMPLES / word).read_text("ascii") for word in words_of(name)]
    book = model.read_book(texts[0])
    return book, [model.read_file(book, text) for text in texts[1:]], answer.out.decode()


def takes(folder, text):
    """Whether a journal is taken by hledger and by ledger-cli, each where it is there, with every account declared."""
    journal = folder.path / folder.write("journal", text)
    taken = True
    for words in (["hledger", "-f", f"journal:{journal}", "check", "accounts"], ["ledger", "--pedantic", "-f", str(journal), "balance"]):
        if not shutil.which(words[0]):
            folder.missing.add(f"journals by {words[0]} itself, which isn't there")
        else:
            answer = subprocess.run(words, check=False, capture_output=True)
            taken = taken and answer.returncode == 0 and not answer.stderr
    return taken


def adds_up(folder, name):
    """The journal of an example adds up, by the plain ledger, and by other programs where they are there."""
    book, files, text = printed_by(folder, "ledger", name)
    model.is_ledger(book, files, text)
    is_true(takes(folder, text), "it isn't taken")


def has_costs(folder, name):
    """The costs of an example are within their bounds."""
    found = costs.fault(*printed_by(folder, "costs", name))
    is_true(found is None, found)


def by_turns(folder, command, name, ending):
    """A command prints of a schedule what stands beside it."""
    here = EXAMPLES / "replay" / name
    pays = sorted(str(pay) for pay in here.glob("pay*.csv"))
    printed(folder.run(command, str(here / "book.csv"), str(here / "schedule.csv"), *pays), (here / f"{name}.{ending}").read_bytes())


def forged_bound(folder):
    """A bound that isn't that of the call is found."""
    book, files, text = printed_by(folder, "costs", "household")
    head, first, rest = text.split("\n", 2)
    is_true(costs.fault(book, files, text) is None, "a right text is refused")
    is_true(costs.fault(book, files, "\n".join([head, first + "1", rest])) is not None, "it isn't found")


def forged_read(folder):
    """A read that isn't of the balance is found."""
    book, files, text = printed_by(folder, "ledger", "household")
    model.is_ledger(book, files, text)
    try:
        model.is_ledger(book, files, text.replace("  0 = ", "  0 = 1"))
    except Failed:
        return
    is_true(False, "it isn't found")


def forged_payment(folder):
    """A payment of which the journal tells another amount is found, though nobody reads its accounts."""
    book, files, text = printed_by(folder, "ledger", "usual")
    parts = text.split("\n\n")
    unread = "\n\n".join(part for part in parts if " read\n" not in part)
    forged = unread.replace("  -30\n", "  -31\n").replace("  30\n", "  31\n")
    is_true(takes(folder, unread), "a right text is refused")
    is_true(forged != unread, "nothing is forged")
    is_true(shutil.which("hledger") is None and shutil.which("ledger") is None or not takes(folder, forged), "it isn't found")


def cases():
    """The cases."""
    yield Case("the example usual", same, "run", "usual", "usual/usual.report")
    for name in ("owners", "realistic", "household", "short"):
        yield Case(f"a run of the example {name}", runs, name)
    for name in ("usual", "owners", "realistic", "household"):
        yield Case(f"the report of the example {name}", verifies, name)
        yield Case(f"the kinds of the example {name}", same, "kinds", name, f"{name}/{name}.kinds")
        yield Case(f"the orders of the example {name}", same, "orders", name, f"{name}/{name}.orders")
        yield Case(f"the journal of the example {name} adds up", adds_up, name)
    # Of one process costs and journal are the same at each run.
    yield Case("the costs of the example usual", same, "costs", "usual", "usual/usual.costs")
    yield Case("the journal of the example usual", same, "ledger", "usual", "usual/usual.ledger")
    for name in ("owners", "realistic", "household"):
        yield Case(f"the costs of {name}", has_costs, name)
    yield Case("a forged report", forged_report)
    yield Case("a forged bound is found", forged_bound)
    yield Case("a forged read does not add up", forged_read)
    yield Case("a forged payment that nobody reads does not add up", forged_payment)
    # A schedule fixes the order of the steps, so the report is the same at each run.
    for name in sorted(folder.name for folder in (EXAMPLES / "replay").iterdir() if folder.is_dir()):
        yield Case(f"the example replay/{name}, once", by_turns, "replay", name, "report")
        yield Case(f"the example replay/{name}, again", by_turns, "replay", name, "report")
        yield Case(f"the turns of {name}", by_turns, "trace", name, "trace")
        yield Case(f"the page of {name}", by_turns, "show", name, "html")
