"""Each command on books and files that are made in all combinations and not written down: of version 1 and 2, with and without pay-outs, in
each spelling, of one process, two, and the most. Every other one has files that name their processes. The same book prints the same in every
spelling, by numbers and by names, and what it prints is what the plain ledger of `model` says of it."""

import random
import re
from collections import namedtuple

from tables import costs, model, orders
from tables.trying import Case, expect, is_true, refused, same

SPELLINGS = {
    "plain": model.csv,
    "quoted": lambda records: quoted(records),
    "with CR LF": lambda records: model.csv(records).replace("\n", "\r\n"),
    "quoted, with CR LF": lambda records: quoted(records, "\r\n"),
    "with blank lines, and no last newline": lambda records: "\n\n" + "\n\r\n".join(map(",".join, records)),
    "with a byte order mark, every other field quoted": lambda records: b"\xef\xbb\xbf" + quoted(records, "\n", 2).encode(),
}


def quoted(records, end="\n", every=1):
    """Records whose fields are quoted."""
    return "".join(",".join(f'"{field}"' if i % every == 0 else field for i, field in enumerate(record)) + end for record in records)


class Shape(namedtuple("Shape", "name processes accounts calls own request opening first")):
    """How large a book and its files are. `first` is what account 1 opens with."""

    def book(self, version):
        """Account 0 is shared, the last is nobody's, and each other one has one owner. Names have the most bytes."""
        processes, accounts = range(self.processes), []
        for a in range(self.accounts):
            owners = list(processes)[:8] if a == 0 else [] if a == self.accounts - 1 else [a % self.processes]
            accounts.append(model.Account(named("a", a, version), self.first if a == 1 else self.opening, owners))
        return model.Book([named("p", p, version) for p in processes], self.own, self.request, accounts, version)

    def files(self, pays, calls):
        """Calls that are drawn, mostly payments from an account of the process."""
        draw = random.Random(calls)
        return [[self.call(draw, p, pays) for _ in range(min(calls, self.calls))] for p in range(self.processes)]

    def call(self, draw, process, pays):
        """A call of this process."""
        source = draw.choice([0, 1 + draw.randrange(self.accounts - 1), 1 + (process - 1) % self.processes])
        kind = draw.choice(["read", "transfer", "pay" if pays else "transfer"])
        targets = {"read": 0, "transfer": 1, "pay": draw.randint(1, 4)}[kind]
        pairs = [(draw.randrange(self.accounts), draw.choice([0, 1, 5, 9])) for _ in range(targets)]
        return model.Call(kind, min(source, self.accounts - 1), pairs)


SHAPES = [
    Shape("one process", 1, 3, 6, 2, 2, 13, 9),
    Shape("two processes", 2, 5, 6, 2, 1, 13, 9),
    # The openings cover all payments, so that `orders` has an answer.
    Shape("the most processes and accounts", 16, 1024, 512, 4096, 1024, 1 << 20, (1 << 64) - 1 - (1023 << 20)),
]


def named(letter, number, version):
    """A name of 16 bytes, or the number beside a book of version 1."""
    return f"{letter}{number}-".ljust(16, "x") if version == 2 else str(number)


def numbered(text):
    """A text with the numbers of processes and accounts in the place of their names."""
    return re.sub(rb"\b[pa](\d+)-x*", rb"\1", text)


class Given:
    """A book and its files in one spelling, written into a folder. Where they are headed each file names its process first."""

    def __init__(self, folder, shape, version, pays, spell, headed, calls):
        self.folder, self.version = folder, version
        self.book, self.files = shape.book(version), shape.files(pays, calls)
        self.draw = random.Random(calls + 1)
        self.spell = spell
        heads = [[["process", name]] if headed else [] for name in self.book.processes]
        self.pays = [self.put(str(p), heads[p] + model.file_records(self.book, file)) for p, file in enumerate(self.files)]
        self.put("book", model.book_records(self.book))

    def put(self, name, records):
        """Writes a file of records."""
        return self.folder.write(name, self.spell(records))

    def run(self, command, *second):
        """All is done. It gives the output."""
        answer = self.folder.run(command, "book", *second, *self.pays)
        expect(answer, 0, answer.out, b"")
        is_true(answer.out, "it prints nothing")
        return answer.out

    def order(self):
        """A drawn order of all calls."""
        order = [p for p, file in enumerate(self.files) for _ in file]
        self.draw.shuffle(order)
        return order

    def scheduled(self):
        """A drawn schedule, as a file."""
        turns = self.draw.choices(range(len(self.files)), k=9000)
        return self.put("schedule", [[str(p)] for p in turns])


def looks_check(given):
    calls = sum(map(len, given.files))
    same(given.run("check"), f"checked {len(given.files)} {len(given.book.accounts)} {calls}\n")


def looks_kinds(given):
    same(given.run("kinds"), model.kinds_text(given.book, given.files))


def looks_needs(given):
    same(given.run("needs"), model.needs_text(given.book, given.files))


def looks_run(given):
    text = given.run("run")
    model.is_report(given.book, given.files, text.decode())
    same(given.run("verify", given.folder.write("report", text)), f"verified {sum(map(len, given.files))}\n")


def looks_verify(given):
    journal, balances = model.play(given.book, given.files, given.order())
    right = model.report_text(given.book, journal, balances)
    given.folder.write("report", right)
    same(given.run("verify", "report"), f"verified {len(journal)}\n")
    at = given.draw.randrange(len(journal))
    answer = journal[at].answer
    journal[at] = journal[at]._replace(answer=answer + 1 if isinstance(answer, int) else "full" if answer == "done" else "done")
    given.folder.write("report", model.report_text(given.book, journal, balances))
    told = f"report: line {at + 2}: not legal\n  report, line {at + 2}: expected: " + right.split("\n")[at + 1]
    refused(given.folder.run("verify", "book", "report", *given.pays), 12, told)


def looks_replay(given):
    text = given.run("replay", given.scheduled())
    model.is_report(given.book, given.files, text.decode())
    return numbered(text)


def looks_trace(given):
    schedule = given.scheduled()
    text = given.run("trace", schedule)
    turns = [row.split(",") for row in text.decode().split("\n")[1:-1]]
    told = sorted((turn[1], turn[2], turn[5]) for turn in turns if turn[5])
    report = given.run("replay", schedule).decode().split("\n")[1 : 1 + len(told)]
    is_true(told == sorted((*line.split()[:2], line.split()[-1]) for line in report), "`replay` has other replies")
    return numbered(text)


def looks_show(given):
    # Where a call's words fit into the picture depends on how long the names are.
    return given.version, given.run("show", given.scheduled())


def looks_ledger(given):
    model.is_ledger(given.book, given.files, given.run("ledger").decode())


def looks_costs(given):
    found = costs.fault(given.book, given.files, given.run("costs").decode())
    is_true(found is None, found)


def looks_orders(given):
    text = given.run("orders")
    if orders.number_of_orders(given.files) <= orders.MOST_ORDERS:
        same(text, orders.text_of(given.book, given.files))
    return numbered(text)


def looks_deliver(given):
    """Each process sends a message for each of its payments from its own accounts; the nodes are given all of them, in a drawn order."""
    size, sent = len(given.files), []
    for p, file in enumerate(given.files):
        own = [call for call in file if model.kind_of(given.book, p, call) == "alone"][:256]
        records = []
        for i, call in enumerate(own):
            deps = [str(i if q == p else given.draw.choice([0, 0, 1])) for q in range(size)]
            records.append(["send", str(call.account), str(call.pairs[0][0]), str(call.pairs[0][1]), *deps])
        given.put(str(p), records)
        sent += [[str(node), str(p), str(i)] for node in range(size) for i in range(len(own))]
    given.draw.shuffle(sent)
    return given.run("deliver", given.put("order", sent[:65536]))


# The commands, with the most calls of a file.
LOOKS = {
    "check": (looks_check, 16384),
    "kinds": (looks_kinds, 16384),
    "needs": (looks_needs, 16384),
    "run": (looks_run, 16384),
    "verify": (looks_verify, 16384),
    "replay": (looks_replay, 64),
    "trace": (looks_trace, 64),
    "show": (looks_show, 64),
    "ledger": (looks_ledger, 16384),
    "costs": (looks_costs, 16384),
    "orders": (looks_orders, 16384),
    "deliver": (looks_deliver, 16384),
}


def try_combinations(folder, command, shape, pays):
    """A command on a book and its files in each version and spelling."""
    looks, calls = LOOKS[command]
    seen = {}
    for version in (2,) if pays else (1, 2):
        for number, (spelling, spell) in enumerate(SPELLINGS.items()):
            told = looks(Given(folder, shape, version, pays, spell, number % 2 == 1, calls))
            key, text = told if isinstance(told, tuple) else (None, told)
            is_true(seen.setdefault(key, text) == text, f"version {version}, {spelling}: it prints another text than of another spelling")
    return f"{len(SPELLINGS)} spellings" + ("" if pays else " of both versions")


def cases():
    """The cases."""
    for command in LOOKS:
        for shape in SHAPES:
            for pays in (False, True):
                name = f"{command}, of {shape.name}{', with pay-outs' if pays else ''}"
                yield Case(name, try_combinations, command, shape, pays)
