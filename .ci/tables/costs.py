"""Looks at a text of `costs`: kinds and bounds are reckoned from the book alone, the records stand by process and line, and no cost is
above its bounds."""

from tables import model

HEAD = "process,line,call,account,kind,reply,steps,exchanges,new,most_steps,most_exchanges"


def most_steps(kind, n, k, new):
    """The most steps of a call of n processes, on an account of k owners, that counts so many records."""
    snapshot = n * n + 2 * n
    if kind == "read":
        return snapshot + 7 * new
    if kind == "alone":
        return snapshot + n + 8 + 7 * new
    return snapshot + 7 * k + 1 + k * (snapshot + n + 15) + 7 * new


def is_good(record, book, process, number, call):
    """Whether a record is of this call, and has its kind and bounds, and costs within them."""
    *names, reply, steps, exchanges, new, most, most_exchanges = record.split(",")
    steps, exchanges, new = int(steps), int(exchanges), int(new)
    kind, account = model.kind_of(book, process, call), book.accounts[call.account]
    owners, nothing = len(account.owners), reply in ("not-owner", "full")
    bounds = (0, 0) if nothing else (most_steps(kind, len(book.processes), owners, new), owners if kind == "agreed" else 0)
    return (
        names == [book.processes[process], str(number), call.word, account.name, kind]
        and (kind == "refused") == (reply == "not-owner")
        and (int(most), int(most_exchanges)) == bounds
        and exchanges <= steps <= bounds[0]
        and exchanges <= bounds[1]
        and (steps == 0) == nothing
        and (len(book.processes) > 1 or new == 0)
    )


def made(text):
    """How many steps and exchanges each call makes by a text of `costs`, and how many records it counts anew, by process and line."""
    records = [record.split(",") for record in text.split("\n")[1:-1]]
    return {(process, line): [int(steps), int(exchanges), int(new)] for process, line, *_, steps, exchanges, new, _, _ in records}


def made_by_turns(text):
    """The same by a text of `trace`: a record of another process is counted once its first word is loaded."""
    calls = {}
    for record in text.split("\n")[1:-1]:
        _, process, line, step, word, _ = record.split(",")
        call = calls.setdefault((process, line), [0, 0, 0])
        call[0] += step != "none"
        call[1] += step == "exchange"
        parts = word.split()
        call[2] += step == "load" and parts[0] == "record" and parts[1] != process and parts[3] == "0"
    return calls


def made_in_turn(book, files, order):
    """The same, reckoned from the book and the files alone, where the processes make their calls one after another in this order. A look is
    two collects, and the loads of the records that are new; a record has a store for each word and one more. Who asks on a shared account
    loads the announced word of each owner, and the last request of each that has asked before; then it looks again, decides, and loads its
    own request."""
    n, calls = len(book.processes), {}
    journal, _ = model.play(book, files, [p for p in order for _ in files[p]])
    published, seen, asked = [0] * n, [0] * n, {}
    for line in journal:
        p, kind = line.process, model.kind_of(book, line.process, line.call)
        made = calls.setdefault((book.processes[p], str(line.number)), [0, 0, 0])
        if line.answer in ("not-owner", "full"):
            continue
        others = sum(published) - published[p]
        new, seen[p] = others - seen[p], others
        made[:] = [2 * n + 7 * new, 0, new]
        if kind == "agreed":
            owners, askers = book.accounts[line.call.account].owners, asked.setdefault(line.call.account, set())
            made[0] += 7 + len(owners) + 6 * len(askers - {p}) + 2 * n + 1 + 6
            made[1] = 1
            askers.add(p)
        if kind == "agreed" or line.answer == "done":
            made[0] += n + 8
            published[p] += 1
    return calls


def fault(book, files, text):
    """The first fault of the text, or None."""
    head, *records = text.removesuffix("\n").split("\n")
    calls = [(p, number, call) for p, file in enumerate(files) for number, call in enumerate(file, 1)]
    if head != HEAD or len(records) != len(calls):
        return "another head, or another number of calls"
    return next((record for record, call in zip(records, calls) if not is_good(record, book, *call)), None)
