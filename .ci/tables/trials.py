"""Runs step by step whose turns are too many to write down."""

from tables.spelling import spelled
from tables.trying import Case, is_true, lines, printed


def asking(last):
    """The stretches in which owners of account 0 ask one after another, each of whom finds those before it."""
    for p in range(last + 1):
        found = [f"finds{'' if slot < p else '-none'} 0 {slot}{' 0' if slot < p else ''}" for slot in range(last + 1)]
        yield f"{p}.1 looks, asks 0 {p} 0, {', '.join(found)}"


def serving(last):
    """The stretches in which the last of them serves all, and in which the others find their requests settled."""
    for r in range(last + 1):
        yield f"{last}.1 looks, proposes 0 {r}, settles 0 {r} 0 {r}{' -> done' if r == last else ''}"
    for p in reversed(range(last)):
        counted = [f"counts {last} {r}" for r in range(last + 1)]
        yield f"{p}.1 looks, {', '.join(counted)} -> done"


def serves_all(folder, owners, opening, turns, report):
    """Owners pay 10 each. The last serves all, in a turn for each: a look, the exchange, the request and the record."""
    names = range(owners)
    book = lines("book,1", f"processes,{owners}", "limits,4,4", f"account,0,{opening},{' '.join(map(str, names))}", "account,1,0,")
    folder.write("book", book)
    folder.write("pay", "transfer,0,1,10\n")
    folder.write("schedule", "".join(f"{who}\n" * many for who, many in turns))
    pays = ["pay"] * owners
    if report:
        done = [f"{p} 1 transfer 0 1 10 done" for p in names]
        left = ["balances 2", f"0 {opening - 10 * owners}", f"1 {10 * owners}", f"total {opening}"]
        printed(folder.run("replay", "book", "schedule", *pays), lines(f"journal {owners}", *done, *left))
    else:
        last = owners - 1
        printed(folder.run("trace", "book", "schedule", *pays), spelled(book, [*asking(last), *serving(last)]))


def stops(folder):
    """Process 0 stops for good once it has asked, in 17 steps. The other owner of the account, and two processes that read, make 64 calls
    each, the most of a replay, and all of these end: process 0 has its next turn behind them. Its request is decided first, by the other
    owner, which loads it once where it collects the rows, and again where it publishes the round."""
    folder.write("book", lines("book,1", "processes,4", "limits,4096,1024", "account,0,100,0 1", "account,1,0,", "account,2,300,2"))
    folder.write("pay0", "transfer,0,1,10\n")
    folder.write("pay1", "transfer,0,1,1\n" * 64)
    folder.write("reads", ("read,0\nread,1\nread,2\n" * 22)[: 64 * 7])
    folder.write("schedule", "0\n" * 17 + "1\n2\n3\n" * 10000)
    answer = folder.run("trace", "book", "schedule", "pay0", "pay1", "reads", "reads")
    turns = [line.split(",") for line in answer.out.decode().splitlines()[1:]]
    next_turn = [i for i, turn in enumerate(turns) if turn[1] == "0"][17]
    ended = [sum(turn[1] == p and turn[5] != "" for turn in turns[:next_turn]) for p in "123"]
    first = [turn for turn in turns if turn[1:3] == ["1", "1"]]
    tried = [turn[4] for turn in first if turn[3] == "exchange"]
    found = sum(turn[3:5] == ["load", "request 0 0 0 5"] for turn in first)
    is_true(answer.status == 0 and not answer.err, "it was refused")
    is_true((ended, tried, found) == ([64, 64, 64], ["cell 0 0", "cell 0 1"], 2), f"{ended} ended, {tried} exchanged, {found} found")


def cases():
    """The cases."""
    two = [(0, 13), (1, 19), (1, 42), (0, 18)]
    # They start in 16, 22 and 28 steps. Process 2 then makes an exchange in each of three turns of 24 steps, the most exchanges that one
    # payment may make, and process 0 has 27 steps.
    three = [(0, 16), (1, 22), (2, 28), (2, 72), (1, 27), (0, 27)]
    # Eight is the most owners of an account.
    eight = [(p, 31 + 6 * p) for p in range(8)] + [(7, 312)] + [(p, 72) for p in reversed(range(7))]
    for name, owners, opening, turns in (
        ("a request is overtaken once", 2, 30, two),
        ("the last of three owners makes three exchanges", 3, 30, three),
        ("a request is overtaken by seven", 8, 100, eight),
    ):
        for report, kind in ((False, "step by step"), (True, "its report")):
            yield Case(f"{name}, {kind}", serves_all, owners, opening, turns, report)
    yield Case("a process that stops holds up no other", stops)
