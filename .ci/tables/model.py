"""The ledger as a plain program, written apart from the program's: books, calls, and the texts that commands print of them."""

import re
from collections import Counter, namedtuple

from tables.trying import is_true, lines, same

# The names of the processes, both rooms, the accounts with their openings and owners, which are numbers of processes, and the version.
Book = namedtuple("Book", "processes own request accounts version")
Account = namedtuple("Account", "name opening owners")
# `pairs` are the targets of a payment, with their amounts, and `account` is its source or what is read.
Call = namedtuple("Call", "word account pairs")
Line = namedtuple("Line", "process number call answer")


def book_records(book):
    """The book's records, as lists of fields."""
    head = [str(len(book.processes))] if book.version == 1 else book.processes
    records = [["book", str(book.version)], ["processes", *head], ["limits", str(book.own), str(book.request)]]
    for account in book.accounts:
        records.append(["account", account.name, str(account.opening), " ".join(book.processes[p] for p in account.owners)])
    return records


def file_records(book, file):
    """The records of a payment file."""
    return [call_fields(book, call) for call in file]


def call_fields(book, call):
    """The words of a call."""
    pairs = [field for target, amount in call.pairs for field in (book.accounts[target].name, str(amount))]
    return [call.word, book.accounts[call.account].name, *pairs]


def csv(records):
    """Records as a plain file."""
    return "".join(",".join(record) + "\n" for record in records)


def read_book(text):
    """The book of a plain file."""
    (_, version), (_, *processes), (_, own, request), *accounts = (line.split(",") for line in text.split("\n") if line)
    names = [str(p) for p in range(int(processes[0]))] if version == "1" else processes
    accounts = [Account(name, int(opening), [names.index(owner) for owner in owners.split()]) for _, name, opening, owners in accounts]
    return Book(names, int(own), int(request), accounts, int(version))


def read_file(book, text):
    """The calls of a plain file, whose first record may name its process."""
    numbers = {account.name: a for a, account in enumerate(book.accounts)}
    records = (line.split(",") for line in text.split("\n") if line and not line.startswith("process,"))
    return [Call(word, numbers[name], [(numbers[t], int(a)) for t, a in zip(rest[::2], rest[1::2])]) for word, name, *rest in records]


def kind_of(book, process, call):
    """The kind of a call by the book, its process and its account."""
    owners = book.accounts[call.account].owners
    if call.word == "read":
        return "read"
    if process not in owners:
        return "refused"
    return "alone" if len(owners) == 1 else "agreed"


def play(book, files, order):
    """Makes the calls in this order, a list of processes. It gives the lines of the journal, and the last balances."""
    balances = [account.opening for account in book.accounts]
    used = Counter()
    made = [0] * len(book.processes)
    journal = []
    for p in order:
        call = files[p][made[p]]
        made[p] += 1
        journal.append(Line(p, made[p], call, answer_of(book, p, call, balances, used)))
    return journal, balances


def answer_of(book, process, call, balances, used):
    """Makes one call: what it is answered. It changes the balances and the used rooms."""
    kind = kind_of(book, process, call)
    if kind == "read":
        return balances[call.account]
    if kind == "refused":
        return "not-owner"
    room, most = (process, book.own) if kind == "alone" else ((process, call.account), book.request)
    if used[room] == most:
        return "full"
    paid = sum(amount for _, amount in call.pairs)
    if balances[call.account] < paid:
        used[room] += kind == "agreed"
        return "short"
    used[room] += 1
    balances[call.account] -= paid
    for target, amount in call.pairs:
        balances[target] += amount
    return "done"


def report_text(book, journal, balances):
    """The report of a journal and its last balances."""
    calls = [f"{book.processes[x.process]} {x.number} {' '.join(call_fields(book, x.call))} {x.answer}" for x in journal]
    left = [f"{account.name} {balance}" for account, balance in zip(book.accounts, balances)]
    return lines(f"journal {len(calls)}", *calls, f"balances {len(left)}", *left, f"total {sum(balances)}")


def ledger_text(book, journal, balances):
    """The journal for hledger of lines and their last balances."""
    names = [f"    account:{account.name}  " for account in book.accounts]
    texts = [
        lines(*(f"account account:{account.name}" for account in book.accounts), "account equity:openings"),
        lines("1970-01-01 openings", *(f"{n}{a.opening}" for n, a in zip(names, book.accounts)), "    equity:openings"),
    ]
    for line in journal:
        who, call = f"{book.processes[line.process]} {line.number}", line.call
        if call.word == "read":
            texts.append(lines(f"1970-01-01 {who} read", f"{names[call.account]}0 = {line.answer}"))
        elif line.answer == "done":
            paid = f"{names[call.account]}-{sum(amount for _, amount in call.pairs)}"
            texts.append(lines(f"1970-01-01 {who} {call.word}", paid, *(f"{names[a]}{amount}" for a, amount in call.pairs)))
        else:
            texts.append(lines(f"; {who} {' '.join(call_fields(book, call))} {line.answer}"))
    texts.append(lines("1970-01-01 balances", *(f"{n}0 = {balance}" for n, balance in zip(names, balances))))
    return "\n".join(texts)


def order_of(book, files, texts):
    """The order of these lines, each of which begins with a process's name. It has to be one of the files' calls."""
    numbers = {name: p for p, name in enumerate(book.processes)}
    order = [numbers[text.split(" ", 1)[0]] for text in texts]
    is_true([order.count(p) for p in range(len(files))] == [len(file) for file in files], "it has other calls")
    return order


def is_report(book, files, text):
    """A report is that of its own order."""
    texts = text.split("\n")
    order = order_of(book, files, texts[1 : 1 + int(texts[0].removeprefix("journal "))])
    same(text, report_text(book, *play(book, files, order)))


def is_ledger(book, files, text):
    """A journal for hledger is that of its own order: so every transaction adds up to 0, no balance falls below it, every read finds the
    balance that it asserts, and each account ends with the last one."""
    titles = re.findall(r"^(?:1970-01-01|;) (\S+ \d+ .*)$", text, re.M)
    same(text, ledger_text(book, *play(book, files, order_of(book, files, titles))))


def use_of(account):
    """How the owners of an account use it."""
    return ("nobody", "alone", "shared")[min(len(account.owners), 2)]


def needs_text(book, files):
    """What `needs` prints."""
    texts = ["account,kind,opening,asked,missing,owner,owner_asked"]
    for a, account in enumerate(book.accounts):
        asks = [sum(n for call in files[p] if call.word != "read" and call.account == a for _, n in call.pairs) for p in account.owners]
        head = [account.name, use_of(account), account.opening, sum(asks), max(sum(asks) - account.opening, 0)]
        tails = [[book.processes[p], n] for p, n in zip(account.owners, asks)] or [["", ""]]
        texts += [",".join(map(str, head + tail)) for tail in tails]
    return lines(*texts)


def kinds_text(book, files):
    """What `kinds` prints."""
    kinds, paid, groups = Counter(), Counter(), Counter()
    for p, file in enumerate(files):
        for call in file:
            kind = kind_of(book, p, call)
            kinds[kind] += 1
            paid[call.account] += kind in ("alone", "agreed")
            groups[tuple(book.accounts[call.account].owners)] += kind == "agreed"
    counts = {kind: kinds[kind] for kind in ("refused", "alone", "agreed")}
    texts = [f"payments {sum(counts.values())}", *(f"{kind} {number}" for kind, number in counts.items()), f"accounts {len(book.accounts)}"]
    for i, account in enumerate(book.accounts):
        texts.append(" ".join([account.name, use_of(account), str(paid[i]), *(book.processes[p] for p in account.owners)]))
    some = sorted((-number, owners) for owners, number in groups.items() if number)
    texts += [f"groups {len(some)}", *(" ".join([str(-number), *(book.processes[p] for p in owners)]) for number, owners in some)]
    return lines(*texts)
