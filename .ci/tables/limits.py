"""Each command at its limits, where want of memory would be a wrong answer: the most processes, accounts, owners, rooms, calls, turns,
messages, deliveries and bytes."""

from functools import lru_cache

from tables import costs, model
from tables.shim import over
from tables.trying import Case, expect, is_true, lines, printed, ran, refused

PROCESSES = range(16)
PAYS = [f"{p}" for p in PROCESSES]


@lru_cache(maxsize=None)
def largest_book():
    """Account 0 has eight owners and all rounds that there may be, and the openings are the largest."""
    first = ["account,0,8192,0 1 2 3 4 5 6 7", "account,1,18446744073708521423,1"]
    return lines("book,1", "processes,16", "limits,4096,1024", *first, *(f"account,{a},1000,{a % 16}" for a in range(2, 1024)))


def put_largest(folder, calls):
    """Writes the book, and files of so many calls: each process pays from account 0 and from an account of its own, up to the rooms and
    past them."""
    folder.write("book", largest_book())
    for p in PROCESSES:
        folder.write(str(p), lines(f"transfer,0,{16 + p},1", f"transfer,{16 + p},0,1", "read,1023", "read,0") * (calls // 4))
    folder.write("schedule", "".join(f"{p}\n" for p in PROCESSES) * 62500)


def loaded(folder):
    """The book and the files, for the plain ledger."""
    book = model.read_book(folder.read("book").decode())
    return book, [model.read_file(book, folder.read(pay).decode()) for pay in PAYS]


def done(answer):
    """All was done. It gives the output's lines."""
    expect(answer, 0, answer.out, b"")
    return answer.out.decode().split("\n")[:-1]


def reads_most(folder):
    """All calls are read."""
    put_largest(folder, 16384)
    printed(folder.run("check", "book", *PAYS), "checked 16 1024 262144\n")


def runs_most(folder):
    """All calls are made, and the report is taken."""
    put_largest(folder, 16384)
    ran(folder, "run", "book", *PAYS)


def replays(folder):
    """The most turns and calls of a replay: its report is taken, and the replies of its turns are those of its lines."""
    put_largest(folder, 64)
    report = ran(folder, "replay", "book", "schedule", *PAYS).decode().split("\n")
    is_true(report[0] == "journal 1024", report[0])


def traces(folder):
    """The replies of the turns are those of the report's lines."""
    put_largest(folder, 64)
    report = done(folder.run("replay", "book", "schedule", *PAYS))[1:1025]
    turns = [line.split(",") for line in done(folder.run("trace", "book", "schedule", *PAYS))[1:]]
    told = {(turn[1], turn[2]): turn[5] for turn in turns if turn[5]}
    is_true(len(told) == 1024, f"{len(told)} calls end")
    is_true(told == {tuple(line.split()[:2]): line.split()[-1] for line in report}, "the turns have other replies")


def curves_and_arrows(turns):
    """How many curves and arrows the page has: a curve for each record and each other process that loads it; an arrow for each first
    exchange of a cell whose process then loads the request of another owner (of account 0, slot S is that of process S)."""
    seen, cells, decided, helps = set(), set(), {}, 0
    for turn in turns:
        who, word = turn[1], turn[4].split()
        helps += bool(decided.get(who) and word[:1] == ["request"] and word[2] != who)
        decided[who] = word[:1] == ["cell"] and tuple(word) not in cells
        if word[:1] == ["cell"]:
            cells.add(tuple(word))
        if turn[3] == "load" and word[0] == "record" and word[1] != who:
            seen.add((who, word[1], word[2]))
    return len(seen), helps


def shows(folder):
    """The page has a mark for each turn, and the curves and arrows that they tell."""
    put_largest(folder, 64)
    turns = [line.split(",") for line in done(folder.run("trace", "book", "schedule", *PAYS))[1:]]
    page = done(folder.run("show", "book", "schedule", *PAYS))
    drawn = [sum(line.startswith(mark) for line in page) for mark in ("<use href='#", "<path class='sees'", "<path class='helps'")]
    is_true(len(turns) > 1024 and drawn == [len(turns), *curves_and_arrows(turns)], f"it has {drawn} marks, curves and arrows")


def delivers(folder):
    """Each process sends 256 messages around a ring, and each node is given all of them, the last ones first."""
    folder.write("book", lines("book,1", "processes,16", "limits,256,1", *(f"account,{p},300,{p}" for p in PROCESSES)))
    for p in PROCESSES:
        sent = (",".join(str(i if q == p else 0) for q in PROCESSES) for i in range(256))
        folder.write(str(p), lines(*(f"send,{p},{(p + 1) % 16},1,{deps}" for deps in sent)))
    order = (f"{node},{p},{i}" for i in reversed(range(256)) for node in PROCESSES for p in PROCESSES)
    folder.write("order", lines(*order))
    left = ["validated" + " 256" * 16, *(f"{p} 300" for p in PROCESSES), "total 4800"]
    printed(folder.run("deliver", "book", "order", *PAYS), lines(*(line for node in PROCESSES for line in [f"node {node}", *left])))


def put_longest_names(folder):
    """Writes a book of names of the most bytes, in which nobody owns an account. It gives the processes' names."""
    names = [letter + "123456789012345" for letter in "abc"]
    accounts = ["account,from-12345678901,7,", "account,to-1234567890123,5,"]
    folder.write("book", lines("book,2", f"processes,{','.join(names)}", "limits,1,1", *accounts))
    return names


def longest_report(folder):
    """A right report of as many bytes as a file may have: pay-outs of the longest form that are answered not-owner, of which the first
    have shorter amounts."""
    names = put_longest_names(folder)
    end = lines("balances 2", "from-12345678901 7", "to-1234567890123 5", "total 12")
    size = number = over = 0
    while size + over < 8388608:
        number += 1
        size += 201 + len(str((number - 1) % 16384 + 1))
        over = len(f"journal {number}\n{end}")
    over += size - 8388608
    journal, files = [f"journal {number}"], [[], [], []]
    for i in range(number):
        call = "from-12345678901"
        for _ in range(4):
            cut = min(over, 19)
            over -= cut
            call += f" to-1234567890123 {'18446744073709551615'[: 20 - cut]}"
        journal.append(f"{names[i // 16384]} {i % 16384 + 1} pay {call} not-owner")
        files[i // 16384].append("pay," + call.replace(" ", ","))
    folder.write("report", lines(*journal) + end)
    pays = [folder.write(str(p), lines(*file)) for p, file in enumerate(files)]
    is_true(len(folder.read("report")) == 8388608, "the report isn't the longest")
    printed(folder.run("verify", "book", "report", *pays), f"verified {number}\n")


def forged_at_the_end(folder):
    """A report of the most calls whose last line has another reply is refused for that line."""
    put_largest(folder, 16384)
    report = folder.run("run", "book", *PAYS).out.decode().split("\n")
    last = report[262144]
    call, _, reply = last.rpartition(" ")
    report[262144] = f"{call} {int(reply) + 1 if reply.isdigit() else 'full' if reply == 'done' else 'done'}"
    folder.write("report", "\n".join(report))
    told = f"report: line 262145: not legal\n  report, line 262145: expected: {last}"
    refused(folder.run("verify", "book", "report", *PAYS), 12, told)


def longest_text(folder):
    """A report of more bytes than a file may have, of pay-outs of the longest form that are answered not-owner. A disk that is full before its
    end takes what it has room for."""
    names = put_longest_names(folder)
    call = "from-12345678901" + " to-1234567890123 18446744073709551615" * 4
    pays = [folder.write(name, f"pay,{call.replace(' ', ',')}\n" * 16384) for name in names]
    answer = folder.run("run", "book", *pays)
    text = done(answer)
    wanted = [f"{name} {i} pay {call} not-owner" for name in names for i in range(1, 16385)]
    left = ["balances 2", "from-12345678901 7", "to-1234567890123 5", "total 12"]
    is_true(text[0] == "journal 49152" and sorted(text[1:-4]) == sorted(wanted) and text[-4:] == left, "it has other lines")
    for room in (8388608, len(answer.out) - 1):
        cut = over(folder, "run", "book", *pays, ROOM=room)
        is_true(len(answer.out) > room and (cut.status, len(cut.out), cut.err) == (6, room, b"write fault\n"), f"status {cut.status}, {len(cut.out)} bytes")


def eight_owners(folder):
    """A book of 1,024 accounts, each of eight owners and with the longest names. Each owner asks for what the account opens with, which one gets."""
    processes = [f"p{p}-".ljust(16, "x") for p in PROCESSES]
    accounts = [model.Account(f"a{a}-".ljust(16, "x"), 1, sorted((a + 2 * slot) % 16 for slot in range(8))) for a in range(1024)]
    book = model.Book(processes, 4096, 1, accounts, 2)
    own = [[a for a, account in enumerate(accounts) if p in account.owners] for p in PROCESSES]
    files = [[model.Call("transfer", a, [((a + 1) % 1024, 1)]) for a in own[p]] + [model.Call("read", p, [])] for p in PROCESSES]
    folder.write("book", model.csv(model.book_records(book)))
    for p, file in enumerate(files):
        folder.write(str(p), model.csv(model.file_records(book, file)))
    model.is_report(book, files, ran(folder, "run", "book", *PAYS).decode())
    model.is_ledger(book, files, folder.run("ledger", "book", *PAYS).out.decode())
    printed(folder.run("kinds", "book", *PAYS), model.kinds_text(book, files))
    printed(folder.run("needs", "book", *PAYS), model.needs_text(book, files))
    found = costs.fault(book, files, folder.run("costs", "book", *PAYS).out.decode())
    is_true(found is None, found)


def sums_needs(folder):
    """The needs of the most calls."""
    put_largest(folder, 16384)
    printed(folder.run("needs", "book", *PAYS), model.needs_text(*loaded(folder)))


def orders_most(folder):
    """The orders of the most calls, which the openings cover: each process reads the account of the one before it, which pays once."""
    folder.write("book", lines("book,1", "processes,16", "limits,4,4", *(f"account,{p},5,{p}" for p in PROCESSES), "account,16,0,"))
    for p in PROCESSES:
        folder.write(str(p), f"read,{(p - 1) % 16}\n" * 16383 + f"transfer,{p},16,1\n")
    rows = ["process,line,call,account,kind,replies"]
    for p in PROCESSES:
        rows += [f"{p},{i},read,{(p - 1) % 16},read,4 5" for i in range(1, 16384)] + [f"{p},16384,transfer,{p},alone,done"]
    printed(folder.run("orders", "book", *PAYS), lines(*rows))


def counts_kinds(folder):
    """The kinds of the most calls."""
    put_largest(folder, 16384)
    text = done(folder.run("kinds", "book", *PAYS))
    wanted = ["payments 131072", "refused 32768", "alone 65536", "agreed 32768", "accounts 1024", "groups 1", "32768 0 1 2 3 4 5 6 7"]
    is_true(text[:5] + text[-2:] == wanted, f"it has {text[:5] + text[-2:]}")


def costs_most(folder):
    """The costs of the most calls."""
    put_largest(folder, 16384)
    found = costs.fault(*loaded(folder), "\n".join(done(folder.run("costs", "book", *PAYS))))
    is_true(found is None, found)


def helps(folder):
    """Eight owners pay from account 0, so in one of a few runs some payment decides more than its own round."""
    put_largest(folder, 16384)
    for _ in range(8):
        rows = [line.split(",") for line in done(folder.run("costs", "book", *PAYS))[1:]]
        if any(int(row[7]) > 1 for row in rows):
            return
    is_true(False, "no payment makes more than one exchange")


def journals(folder):
    """The journal of the most calls."""
    put_largest(folder, 16384)
    model.is_ledger(*loaded(folder), lines(*done(folder.run("ledger", "book", *PAYS))))


def cases():
    """The cases."""
    for name, tries in (
        ("the most calls, read", reads_most),
        ("a run at the limits", runs_most),
        ("a replay at the limits", replays),
        ("a trace at the limits", traces),
        ("a page at the limits", shows),
        ("the most messages and deliveries", delivers),
        ("a right report of the most bytes", longest_report),
        ("a report of the most calls that is wrong at its end", forged_at_the_end),
        ("a report of more bytes than a file may have", longest_text),
        ("the most owners of all accounts", eight_owners),
        ("the needs of the most calls", sums_needs),
        ("the orders of the most calls", orders_most),
        ("the kinds of the most calls", counts_kinds),
        ("the costs of the most calls", costs_most),
        ("a payment makes more than one exchange", helps),
        ("the journal of the most calls", journals),
    ):
        yield Case(name, tries)
