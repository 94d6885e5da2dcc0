"""Runs with the Nth allocation refused, alone or with all later ones. Each answer has to be the one with memory, or want of memory: its
status and its one line on the error output, and nothing on the output. Of small files each allocation is refused in turn, and of large ones
those at both ends and some that are drawn."""

import random
from collections import Counter
from itertools import product

from tables import limits, model
from tables.combinations import quoted
from tables.shim import over
from tables.trying import PATHS, Case, Failed, is_true, lines, ran

NO_MEMORY = (7, [b"no memory\n"])
# The example tells it in one of two lines.
EXAMPLE = (1, [b"Error: no memory\n", b"Error: memory allocation failed\n"])
# Of a large run that makes more so many are refused.
DRAWN = 24


def plain(out):
    """The output."""
    return out


def unordered(out):
    """Its lines, where the order of several processes' lines is open."""
    return sorted(out.split(b"\n"))


def is_refused(folder, words, number, how):
    """Runs with this allocation refused: the answer, and whether there is such an allocation."""
    mark = folder.path / "refused"
    mark.unlink(missing_ok=True)
    answer = over(folder, *words, REFUSE=number, **how)
    return answer, mark.exists()


def allocations(folder, words, how):
    """How many requests for memory the run makes."""
    least, most = 0, 1
    while is_refused(folder, words, most, how)[1]:
        least, most = most, 2 * most
    while most - least > 1:
        middle = (least + most) // 2
        least, most = (middle, most) if is_refused(folder, words, middle, how)[1] else (least, middle)
    return least


def drawn_of(count):
    """Which of so many allocations are refused: those at both ends, and some that are drawn."""
    draw = random.Random(count)
    return sorted({*range(1, 7), *range(count - 5, count + 1), *(draw.randint(1, count) for _ in range(DRAWN - 12))})


def tried(folder, words, wants=NO_MEMORY, least=0, compared=unordered, program=None, large=False):
    """Each answer is good. Some have to be want of memory, and at least so many the one with memory."""
    asked = {"program": PATHS[program]} if program else {}
    status, errors = wants
    known = folder.run(*words, **asked)
    is_true(known.status != status, f"with all its memory it answers status {known.status}")
    count = allocations(folder, words, asked)
    is_true(count > 0, "it makes no allocation")
    ended = Counter()
    for number, rest in product(drawn_of(count) if large and count > DRAWN else range(1, count + 1), ({}, {"REST": "too"})):
        answer, _ = is_refused(folder, words, number, {**asked, **rest})
        if answer.status == status and not answer.out and answer.err in errors:
            ended["want"] += 1
        elif (answer.status, compared(answer.out), answer.err) == (known.status, compared(known.out), known.err):
            ended["whole"] += 1
        else:
            raise Failed(f"allocation {number} of {count} {rest}: status {answer.status}, {len(answer.out)} bytes, {answer.err!r:.100}")
    is_true(ended["want"] > 0 and ended["whole"] >= least, f"{ended['want']} answers of want of memory, {ended['whole']} as with memory")
    return f"{count} allocations, {ended['want']} answers of want of memory, {ended['whole']} as with memory"


def two_processes(folder, command):
    """Each of two processes pays from an account of its own and reads one that nobody pays to, so each reply is the same in all orders."""
    accounts = ["account,0,100,0", "account,1,100,1", "account,2,7,", "account,3,9,0 1"]
    folder.write("book", lines("book,1", "processes,2", "limits,4,4", *accounts))
    folder.write("0", lines("transfer,0,0,30", "read,2", "transfer,3,3,1"))
    folder.write("1", lines("transfer,1,1,20", "read,2", "transfer,3,3,2"))
    return tried(folder, [command, "book", "0", "1"])


def quoted_files(folder, command):
    """Quoted files of 42 calls each, beside a quoted book of version 2 of 40 accounts. Each process pays itself, so each reply is the same
    in all orders."""
    accounts = [model.Account(f"account-{a}", 1000, [a % 2]) for a in range(40)]
    book = model.Book(["ann", "bob"], 40, 4, accounts, 2)
    folder.write("book", quoted(model.book_records(book)))
    for p in (0, 1):
        calls = [model.Call("transfer", p, [(p, 1)]), model.Call("pay", p, [(p, 2), (p, 3)]), model.Call("read", 39, [])]
        folder.write(str(p), quoted(model.file_records(book, calls * 14)))
    return tried(folder, [command, "book", "0", "1"])


def many_accounts(folder):
    """Messages between 100 accounts."""
    folder.write("book", lines("book,1", "processes,2", "limits,9,9", *(f"account,{a},10,{a % 2}" for a in range(100))))
    for p in (0, 1):
        sent = (f"send,{a},{99 - a},1,{f'{i},0' if p == 0 else f'0,{i}'}" for i, a in enumerate(range(p, 100, 2)))
        folder.write(str(p), lines(*sent))
    folder.write("order", lines(*(f"{node},{p},{i}" for node, p, i in product((0, 1), (0, 1), range(50)))))
    return tried(folder, ["deliver", "book", "order", "0", "1"])


def many_calls(folder, command):
    """Four processes, each of which makes the most calls that a file may have, 65,536 in all. Of `run` the report has more than 1 MiB."""
    folder.write("book", lines("book,1", "processes,4", "limits,4,4", *(f"account,{a},10,{a}" for a in range(4))))
    pays = [folder.write(str(p), lines(f"read,{p}", f"transfer,{p},{p},1") * 8192) for p in range(4)]
    return tried(folder, [command, "book", *pays], large=True)


def long_report(folder):
    """A report of more than 4 MiB: 49,152 calls of names and amounts of the longest form."""
    limits.put_longest_names(folder)
    folder.write("0", ("pay,from-12345678901" + ",to-1234567890123,18446744073709551615" * 2 + "\n") * 16384)
    words = ["run", "book", "0", "0", "0"]
    is_true(len(ran(folder, *words)) > 4 << 20, "the report is too short")
    return tried(folder, words, large=True)


def cases():
    """The cases."""
    owners = ["owners/book.csv", "owners/pay0.csv", "owners/pay1.csv"]
    household = ["household/book.csv", "household/ann.csv", "household/bob.csv"]
    helping = [f"replay/helping/{name}.csv" for name in ("book", "schedule", "pay0", "pay1")]
    usual = ["usual/book.csv", "usual/pay0.csv"]
    bad = [household[0], household[0], household[2]]
    for name, *words in (
        ("run, of one process", "run", *usual),
        ("check", "check", *household),
        ("make", "make", "7", "3", "4"),
        ("replay", "replay", *helping),
        ("agree", "agree", "5", "5", "5"),
        ("deliver", "deliver", "deliver/book.csv", "deliver/order.csv", "deliver/send0.csv", "deliver/send1.csv"),
        ("verify", "verify", owners[0], "owners/owners.report", *owners[1:]),
        ("verify, of a forged report", "verify", household[0], "household/forged.report", *household[1:]),
        ("a refusal", "check", *bad),
        ("kinds", "kinds", *owners),
        ("kinds, of names", "kinds", *household),
        ("needs", "needs", *owners),
        ("costs", "costs", *usual),
        ("ledger", "ledger", *usual),
        ("trace", "trace", *helping),
        ("show", "show", *helping),
        ("a refusal of a command that shows", "kinds", *bad),
    ):
        yield Case(name, tried, words)
    yield Case("run, of two processes", two_processes, "run")
    yield Case("orders", two_processes, "orders")
    # The example closes its ledger once more, with what was handed back, where there was no memory for that. A closing of two processes
    # takes memory five times, so where one of these is refused alone it has to answer as with memory.
    yield Case("the example, which closes its ledger again", tried, [], EXAMPLE, 5, plain, "at_example")
    for command in ("run", "check", "kinds", "ledger"):
        yield Case(f"{command}, of quoted files and 40 named accounts", quoted_files, command)
    yield Case("deliver, of 100 accounts", many_accounts)
    for command in ("check", "run", "kinds"):
        yield Case(f"{command}, of four processes with 65,536 calls", many_calls, command)
    yield Case("run, of a report of more than 4 MiB", long_report)
