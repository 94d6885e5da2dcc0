"""The command `orders` on small books and payment files that are made at random, and at its limits.

Here every order of all calls is gone through by itself, one after another. No order is left out, and none is joined with another. What
the calls are answered in them is written down as the command writes it, and the bytes have to be the same.
"""

import random

from tables import model
from tables.trying import Case, Failed, lines, printed

MOST_ORDERS = 5000
SEEDS = 500
AT_ONCE = 25


def draw_book(draw):
    """Draws how many processes there are, both rooms, and the opening and the owners of each account. Some books have names, and in some
    one account has nearly all that 64 bits hold."""
    processes = draw.randint(1, 5)
    named = draw.random() < 0.5
    accounts = []
    for a in range(draw.randint(1, 5)):
        owners = sorted(draw.sample(range(processes), min(processes, draw.choice([0, 1, 1, 1, 2, 2, 3]))))
        accounts.append(model.Account(f"till{a}" if named else str(a), draw.choice([0, 0, 1, 5, 10, 20, 40]), owners))
    if draw.random() < 0.1:
        rest = sum(account.opening for account in accounts[1:])
        accounts[0] = accounts[0]._replace(opening=2**64 - 1 - rest)
    names = [f"p{p}" if named else str(p) for p in range(processes)]
    return model.Book(names, draw.randint(1, 3), draw.randint(1, 3), accounts, 2 if named else 1)


def draw_source(draw, book, process):
    """Draws an account: mostly one that the process owns, if it has one."""
    owned = [a for a, account in enumerate(book.accounts) if process in account.owners]
    if owned and draw.random() < 0.85:
        return draw.choice(owned)
    return draw.randrange(len(book.accounts))


def draw_call(draw, book, process):
    """Draws a call: the account that it names first, and the targets and the amounts of a payment. Some pay the source itself."""
    count = len(book.accounts)
    if draw.random() < 0.3:
        return model.Call("read", draw.randrange(count), [])
    source = draw_source(draw, book, process)
    large = book.accounts[0].opening > 2**60
    amounts = [0, 1, 4, 5, 6, 10, 15] + [2**64 - 1, 2**63, 2**64 - 20] * large
    targets = draw.choice([1, 1, 1, 2, 3, 4]) if book.version == 2 else 1
    paid = [(draw.choice([source, *range(count)]), draw.choice(amounts)) for _ in range(targets)]
    if book.version == 1 or (targets == 1 and draw.random() < 0.8):
        return model.Call("transfer", source, paid)
    return model.Call("pay", source, paid)


def number_of_orders(files):
    """Counts the orders of all calls."""
    orders, made = 1, 0
    for file in files:
        for i in range(1, len(file) + 1):
            made += 1
            orders = orders * made // i
    return orders


def draw_case(seed):
    """Draws a book and a file for each process, whose calls have no more than MOST_ORDERS orders."""
    draw = random.Random(seed)
    while True:
        book = draw_book(draw)
        files = [[draw_call(draw, book, p) for _ in range(draw.randint(0, 4))] for p in range(len(book.processes))]
        if number_of_orders(files) <= MOST_ORDERS:
            return book, files


def every_order(lengths):
    """Goes through the orders: each is a list of processes, in which each stands as often as its file has calls."""
    if not any(lengths):
        yield []
        return
    for p, left in enumerate(lengths):
        if left:
            for rest in every_order(lengths[:p] + [left - 1] + lengths[p + 1 :]):
                yield [p] + rest


def text_of(book, files):
    """The text that is wanted."""
    found = {}
    for order in every_order([len(file) for file in files]):
        for line in model.play(book, files, order)[0]:
            found.setdefault((line.process, line.number), set()).add(line.answer)
    rows = ["process,line,call,account,kind,replies"]
    for p, file in enumerate(files):
        for i, call in enumerate(file, 1):
            answers = found[p, i]
            if call.word == "read":
                replies = sorted({min(answers), max(answers)})
            else:
                replies = [word for word in ("done", "short", "full", "not-owner") if word in answers]
            told = [book.processes[p], i, call.word, book.accounts[call.account].name, model.kind_of(book, p, call)]
            rows.append(",".join(map(str, [*told, " ".join(map(str, replies))])))
    return lines(*rows)


def try_seeds(folder, first):
    """Tries the files of these seeds."""
    for seed in range(first, first + AT_ONCE):
        book, files = draw_case(seed)
        names = [folder.write(f"pay{p}", model.csv(model.file_records(book, file))) for p, file in enumerate(files)]
        folder.write("book", model.csv(model.book_records(book)))
        try:
            printed(folder.run("orders", "book", *names), text_of(book, files))
        except Failed as fault:
            raise Failed(f"the files of seed {seed}: {fault}") from None


def most_stages(folder):
    """Two files of 1,023 calls go through 1024 * 1024 stages, which is the most. They are of one part: the openings don't cover account 0,
    from which a payment is short always, and to which another pays nothing."""
    folder.write("book", lines("book,1", "processes,2", "limits,1,1", "account,0,5,0", "account,1,0,1"))
    folder.write("0", "read,0\n" * 1022 + "transfer,0,1,6\n")
    folder.write("1", "read,0\n" * 1022 + "transfer,1,0,0\n")
    first, second = ([f"{p},{i},read,0,read,5" for i in range(1, 1023)] for p in range(2))
    rows = ["process,line,call,account,kind,replies", *first, "0,1023,transfer,0,alone,short", *second, "1,1023,transfer,1,alone,done"]
    printed(folder.run("orders", "book", "0", "1"), lines(*rows))


def stages_of_two_parts(folder):
    """Without a payment that joins them, two files of more calls together are of no one part, and are answered."""
    folder.write("book", lines("book,1", "processes,2", "limits,1,1", "account,0,5,0", "account,1,0,1"))
    folder.write("0", "read,0\n" * 1022 + "transfer,0,1,6\n")
    folder.write("1", "read,0\n" * 1024)
    first, second = ([f"{p},{i},read,0,read,5" for i in range(1, 1023 + 2 * p)] for p in range(2))
    rows = ["process,line,call,account,kind,replies", *first, "0,1023,transfer,0,alone,short", *second]
    printed(folder.run("orders", "book", "0", "1"), lines(*rows))


def stages_by_room(folder):
    """A process pays itself what another brings to it once: 1,047,627 stages, in which the same calls were made and the balances are the
    same, and the used room differs."""
    folder.write("book", lines("book,1", "processes,2", "limits,4096,1", "account,0,0,0", "account,1,1,1"))
    folder.write("0", "transfer,0,0,1\n" * 1445)
    folder.write("1", "transfer,1,0,1\n")
    rows = ["process,line,call,account,kind,replies", *(f"0,{i},transfer,0,alone,done short" for i in range(1, 1446))]
    printed(folder.run("orders", "book", "0", "1"), lines(*rows, "1,1,transfer,1,alone,done"))


def one_beside_covered(folder):
    """A payment of 1 from an account that is empty, beside 320 that are covered: no two processes are of one part."""
    accounts = [f"account,{p},1000,{p}" for p in range(16)] + ["account,16,0,0"]
    folder.write("book", lines("book,1", "processes,16", "limits,4096,1024", *accounts))
    rows = ["process,line,call,account,kind,replies"]
    for p in range(16):
        paid = "".join(f"transfer,{p},{(p + i + 1) % 16},1\n" for i in range(20))
        folder.write(str(p), paid + "transfer,16,0,1\n" * (p == 0))
        rows += [f"{p},{i},transfer,{p},alone,done" for i in range(1, 21)]
        rows += ["0,21,transfer,16,alone,short"] * (p == 0)
    printed(folder.run("orders", "book", *map(str, range(16))), lines(*rows))


def longest(folder):
    """Where the openings cover the files, files of any size are answered."""
    folder.write("book", lines("book,1", "processes,2", "limits,4,1", "account,0,4,0", "account,1,0,"))
    folder.write("0", "read,1\n" * 16379 + "read,0\n" + "transfer,0,1,1\n" * 4)
    rows = ["process,line,call,account,kind,replies"]
    for p, reads, last, paid in ((0, "0", "4", "alone,done"), (1, "0 4", "0 4", "refused,not-owner")):
        rows += [f"{p},{i},read,1,read,{reads}" for i in range(1, 16380)] + [f"{p},16380,read,0,read,{last}"]
        rows += [f"{p},{i},transfer,0,{paid}" for i in range(16381, 16385)]
    printed(folder.run("orders", "book", "0", "0"), lines(*rows))


def cases():
    """The cases."""
    yield Case("the orders of the most stages", most_stages)
    yield Case("the orders of two parts that have more stages together", stages_of_two_parts)
    yield Case("the orders of the most stages that differ in the used room alone", stages_by_room)
    yield Case("the orders of a payment that isn't covered beside 320 that are", one_beside_covered)
    yield Case("the orders of the longest files, which the openings cover", longest)
    for first in range(1, SEEDS + 1, AT_ONCE):
        yield Case(f"orders of random files, seeds {first} to {first + AT_ONCE - 1}", try_seeds, first)
