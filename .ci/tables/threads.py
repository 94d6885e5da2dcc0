"""Runs whose text depends on how the threads' steps fall, threads that are held up, and runs where no thread can be had.

A script sees what threads print, and can hold them up where they begin and stop them anywhere. That processes meet in the middle of one
call it can't see: the tests of at_program hold them at a gate before it and after."""

import itertools
import random

from tables import costs, orders, pages, reading
from tables.shim import over
from tables.trying import EXAMPLES, Case, Failed, is_true, lines, printed, ran, verified

COSTS = reading.texts()["COSTS"].removesuffix("\\n")

# How long after it was made a thread stops.
MICROSECONDS = [200, 500, 1000, 2000, 5000, 10000]


def run_all_kinds(folder):
    """Two processes share an account, the other two have one each, all four share one, and one has no owner. Each makes 60 calls. Of the
    payments 20, 30 and 30 are from accounts that the process doesn't own, and of each owner's ten requests on a shared account the last
    two are over the room."""
    accounts = ["account,pair,100,a b", "account,third,100,c", "account,fourth,100,d", "account,all,60,a b c d", "account,none,0,"]
    folder.write("book", lines("book,2", "processes,a,b,c,d", "limits,16,8", *accounts))
    names = ["pair", "third", "fourth", "all", "none"]
    calls = ["transfer,pair,third,3", "transfer,all,none,2", "transfer,third,pair,5", "read,{}", "pay,fourth,pair,1,all,2", "read,all"]
    folder.write("calls", lines(*(call.format(names[i % 5]) for i in range(3, 60, 6) for call in calls)))
    return ran(folder, "run", "book", *["calls"] * 4).decode().split("\n")


def runs_all_kinds(folder):
    """That run is taken by `verify`."""
    run_all_kinds(folder)


def has_refusals(folder):
    """That run has all its refusals."""
    report = run_all_kinds(folder)
    found = [sum(line.endswith(reply) for line in report) for reply in (" not-owner", " full")]
    is_true(found == [80, 12], f"it has {found} of them")


def either(folder):
    """Two processes that move money between each other are reported in one of both orders."""
    reading.put_files(folder, ["EACH_OWN", "PAYS_THIRTY", "PAYS_TWENTY_BACK"])
    answer = folder.run("run", "book", "0", "1")
    orders = [reading.text_of(name) for name in ("THIRTY_FIRST", "TWENTY_FIRST")]
    printed(answer, answer.out if answer.out in orders else orders[0])


def three_values(folder):
    """One of three values is agreed on."""
    values = (EXAMPLES / "agree" / "three.values").read_text("ascii").split()
    answer = folder.run("agree", *values)
    known = (EXAMPLES / "agree" / "three.lines").read_bytes().splitlines(keepends=True)
    printed(answer, answer.out if answer.out in known else known[0])


def fifty_times(folder):
    """Eight processes agree fifty times on one of their values."""
    values = ["11", "22", "33", "0", "4294967295", "44", "44", "55"]
    for _ in range(50):
        answer = folder.run("agree", *values)
        known = [f"agreed 8 {value}\n".encode() for value in values]
        printed(answer, answer.out if answer.out in known else known[0])


def without(folder, name):
    """Where no thread can be had the processes make their calls one after another, which is a legal run too."""
    pays = sorted(f"{name}/{pay.name}" for pay in (EXAMPLES / name).glob("pay*.csv"))
    words = ["run", f"{name}/book.csv", *pays]
    verified(folder, over(folder, *words, THREADS="none"), words)


def costs_in_turn(folder, contents, *either_way):
    """So each call costs the same at each run, whichever process is first."""
    reading.put_files(folder, contents)
    answer = over(folder, "costs", "book", "0", "1", THREADS="none")
    ways = [lines(COSTS, *way) for way in either_way]
    printed(answer, answer.out if answer.out.decode() in ways else ways[0])


def costs_are_turns(folder, first):
    """Where the processes of drawn files make their calls one after another, `costs` tells the steps, exchanges and new records of each call
    that `trace` does, by the schedule that has the processes so."""
    for seed in range(first, first + 25):
        book, files = orders.draw_case(seed)
        pays = pages.put_files(folder, book, files)
        answer = over(folder, "costs", "book", *pays, THREADS="none")
        is_true(answer.status == 0, f"seed {seed}: status {answer.status}")
        told = costs.made(answer.out.decode())
        for order in itertools.permutations(range(len(files))):
            folder.write("schedule", "".join(f"{p}\n" * 1500 for p in order))
            if costs.made_by_turns(folder.run("trace", "book", "schedule", *pays).out.decode()) == told:
                break
        else:
            raise Failed(f"the files of seed {seed}: `trace` has other steps, whichever process is first")


def costs_of_long(folder, seed, calls):
    """Where the processes of drawn files of so many calls make them one after another, each call costs what the book and the files say."""
    draw = random.Random(seed)
    book = pages.draw_book(draw, seed % 2, calls // 3, calls // 4, [100, 500])
    files = pages.draw_files(draw, book, [calls] * len(book.processes))
    pays = pages.put_files(folder, book, files)
    answer = over(folder, "costs", "book", *pays, THREADS="none")
    is_true(answer.status == 0, f"status {answer.status}")
    told = costs.made(answer.out.decode())
    wanted = [costs.made_in_turn(book, files, order) for order in itertools.permutations(range(len(files)))]
    is_true(told in wanted, "some call costs something else, whichever process is first")


def voices_in_turn(folder):
    """The voices of an agreement propose in turn, and all answer what the first of them proposed: the value of one process, whichever
    values they have."""
    first = set()
    for values in ("978", "987", "798", "789", "897", "879"):
        answer = over(folder, "agree", *values, THREADS="none")
        told = [p for p, value in enumerate(values) if answer == (0, f"agreed 3 {value}\n".encode(), b"")]
        is_true(len(told) == 1, f"of {values}: {answer}")
        first.update(told)
    is_true(len(first) == 1, f"it is one of the processes {first}")


def ends_of(report):
    """Where each process's first and last line stand in a report."""
    ends = {}
    for number, line in enumerate(report.decode().split("\n")[1 : 1 + int(report.split()[1])]):
        who = line.split(" ", 1)[0]
        ends[who] = (ends.get(who, (number, 0))[0], number)
    return ends


def put_long(folder, processes, pairs=8192):
    """Writes files of so many processes, of the most calls where no fewer are asked for."""
    accounts = [f"account,{p},100,{p}" for p in range(processes)]
    folder.write("book", lines("book,1", f"processes,{processes}", "limits,4096,1", *accounts))
    return [folder.write(str(p), lines(f"read,{p}", f"transfer,{p},{(p + 1) % processes},1") * pairs) for p in range(processes)]


def meet(folder, processes):
    """The processes of long files meet: of one of a few runs there is a place in the journal where each has made some calls and none has
    made all."""
    pays = put_long(folder, processes)
    for _ in range(100):
        ends = ends_of(folder.run("run", "book", *pays).out).values()
        if len(ends) == processes and max(first for first, _ in ends) < min(last for _, last in ends):
            return
    raise Failed("none of 100 runs has such a place")


def made_threads(folder, *words):
    """How many threads a command makes."""
    mark = folder.path / "made"
    mark.unlink(missing_ok=True)
    answer = over(folder, *words, MADE=mark)
    is_true(answer.status == 0, f"status {answer.status}")
    return len(mark.read_bytes()) if mark.exists() else 0


def have_threads(folder, processes):
    """A run of the longest files makes as many threads as one of short files, and one for each process but one at least."""
    few = made_threads(folder, "run", "book", *put_long(folder, processes, 1))
    found = made_threads(folder, "run", "book", *put_long(folder, processes))
    is_true(found >= max(few, processes - 1), f"it makes {found} threads, and {few} of short files")
    return f"{found} threads"


def each_number(folder, command, numbers):
    """A command makes as many threads more for each process more, however many there are."""
    made = []
    for number in numbers:
        if command == "agree":
            words = [command, *["7"] * number]
        else:
            words = [command, "7", str(number), "3"] if command == "make" else [command, "book", *put_long(folder, number, 1)]
        made.append(made_threads(folder, *words))
    each = (made[-1] - made[0]) // (numbers[-1] - numbers[0])
    is_true(each > 0 and made == [made[0] + each * i for i in range(len(numbers))], f"they are {made}")
    return f"{made[0]} to {made[-1]} threads"


def each_can_be_first(folder, voices):
    """Where threads are held up for drawn times each voice comes first in some run: its value is agreed on."""
    values = [str(10 + voice) for voice in range(voices)]
    first = set()
    for seed in range(1, 400):
        first.add(over(folder, "agree", *values, DELAY=seed).out)
        if len(first) == voices:
            return f"after {seed} runs"
    raise Failed(f"in 399 runs {len(first)} voices come first")


def stops(folder, processes, seed):
    """A process that stops for good in the middle of the longest files holds up no other: all that wait for no other thread end before it
    goes on. Which one stops, and when, is drawn, until it came to that three times."""
    words = ["run", "book", *put_long(folder, processes)]
    draw, free = random.Random(seed), 0
    for run in range(1, 301):
        verified(folder, over(folder, *words, STOP=draw.randint(2, processes), AFTER=draw.choice(MICROSECONDS)), words)
        is_true(not (folder.path / "held").exists(), "the others wait for the process that stopped")
        free += (folder.path / "free").exists()
        (folder.path / "free").unlink(missing_ok=True)
        if run >= 20 and free > 2:
            return f"in {free} of {run} runs a process stopped, drawn from seed {seed}"
    raise Failed(f"in {free} of 300 runs a process stopped")


def cases():
    """The cases."""
    yield Case("a run of the example of all kinds of accounts", runs_all_kinds)
    yield Case("that run has all its refusals", has_refusals)
    yield Case("two processes in either order", either)
    yield Case("the example agree, of three values", three_values)
    yield Case("eight processes agree fifty times", fifty_times)
    for name in ("owners", "realistic"):
        yield Case(f"a run without threads of the example {name}", without, name)
    # A payment from a shared account takes 34 steps, and 47 behind the other's, with one exchange each; one from an account of one owner
    # 14, and 21 behind the other's; a read behind one's own payment 4.
    both = ["BOTH_OWN", "SIXTY_AND_READS", "SIXTY_AND_READS"]
    done, short = "transfer,0,agreed,done,34,1,0,73,2", "transfer,0,agreed,short,47,1,1,80,2"
    reads = ["2,read,0,read,40,4,0,0,8,0"] * 2
    ways = [[f"0,1,{a}", f"0,{reads[0]}", f"1,1,{b}", f"1,{reads[1]}"] for a, b in ((done, short), (short, done))]
    yield Case("payments from a shared account, one process after the other", costs_in_turn, both, *ways)
    own = ["EACH_OWN", "transfer,0,1,30\\nread,1\\n", "transfer,1,0,20\\nread,0\\n"]
    first, second = "alone,done,14,0,0,18,0", "alone,done,21,0,1,25,0"
    one = [f"0,1,transfer,0,{first}", "0,2,read,1,read,130,4,0,0,8,0", f"1,1,transfer,1,{second}", "1,2,read,0,read,90,4,0,0,8,0"]
    other = [f"0,1,transfer,0,{second}", "0,2,read,1,read,110,4,0,0,8,0", f"1,1,transfer,1,{first}", "1,2,read,0,read,120,4,0,0,8,0"]
    yield Case("payments from accounts of one owner, one process after the other", costs_in_turn, own, one, other)
    for seed in range(1, 101, 25):
        yield Case(f"costs and turns of random files, seeds {seed} to {seed + 24}", costs_are_turns, seed)
    for seed in range(1, 9):
        yield Case(f"costs of each call of long files, seed {seed}", costs_of_long, seed, 400)
    yield Case("three voices in turn answer what the first of them proposed", voices_in_turn)
    # Of more threads on few processors the first may have ended before the last begin: these meet at the gates of at_program's tests.
    yield Case("the longest files of two processes meet", meet, 2)
    for processes in (2, 4, 16):
        yield Case(f"the longest files of {processes} processes have a thread each", have_threads, processes)
        yield Case(f"of {processes} processes one stops in the middle of the longest files", stops, processes, processes)
    for command, numbers in (("run", range(2, 17)), ("costs", range(2, 17)), ("ledger", range(2, 17)), ("make", range(2, 9)), ("agree", range(2, 9))):
        yield Case(f"{command}: as many threads as processes", each_number, command, numbers)
    for voices in (2, 3, 8):
        yield Case(f"of {voices} voices each can be first", each_can_be_first, voices)
