"""The page of `show`, written apart from the program's: it is reckoned from what `trace` and `replay` print of the same words. Of drawn
books, files and schedules it is that page, and the parts that are the same for all runs are those of an example."""

import random
import re
from collections import Counter, namedtuple

from tables import costs, model, orders
from tables.trying import EXAMPLES, Case, expect, is_true, same

Turn = namedtuple("Turn", "process line step word reply")
# A call by its process and its number, its first turn and its last, from 0, and those between.
Span = namedtuple("Span", "process line first last turns")

# What is in these parts of a page is of its run: the sentence, the picture's size, what the picture shows, the rows and the journal.
PARTS = re.compile(
    r"^(.*<p>)(.*?)(</p>.*<svg )(width='\d+' height='\d+')(.*</defs>\n)(.*)(</svg>\n</div>.*<tbody>\n)(.*)(</tbody>.*<ol>\n)(.*)(</ol>.*)$",
    re.S,
)


def lane(process):
    """The height of a lane."""
    return 64 + 132 * process


def beside(process, other, below, above):
    """A place below a lane where the other lane is, or above it."""
    return lane(process) + (below if process < other else -above)


def read_turns(book, text):
    """The turns of a text of `trace`."""
    numbers = {name: p for p, name in enumerate(book.processes)}
    rows = (row.split(",") for row in text.split("\n")[1:-1])
    return [Turn(numbers[process], int(line), step, word.split(), reply) for _, process, line, step, word, reply in rows]


def spans_of(book, turns):
    """The calls, by process and then in their order."""
    made = {}
    for m, turn in enumerate(turns):
        made.setdefault((turn.process, turn.line), []).append(m)
    return [Span(p, line, of[0], of[-1], [turns[m] for m in of]) for (p, line), of in sorted(made.items())]


def label_of(book, call):
    """A call in few words."""
    source = book.accounts[call.account].name
    if call.word == "read":
        return f"read {source}"
    if call.word == "pay":
        return f"{sum(amount for _, amount in call.pairs)} paid from {source}"
    ((target, amount),) = call.pairs
    return f"{amount} from {source} to {book.accounts[target].name}"


def sentence_of(book, files):
    """The sentence about the payments."""
    kinds = Counter(model.kind_of(book, p, call) for p, file in enumerate(files) for call in file)
    groups = model.kinds_text(book, files).split("\ngroups ")[1].split("\n")[1:-1]
    agreed = "".join("; {} by the owners {}".format(*group.split(" ", 1)) for group in groups)
    return (
        f"{kinds['refused'] + kinds['alone'] + kinds['agreed']} payments: {kinds['alone']} made without agreement, {kinds['refused']} refused "
        f"because the process does not own the source, {kinds['agreed']} agreed on{agreed}."
    )


def lanes_of(book, turns):
    """The lanes."""
    for p, name in enumerate(book.processes):
        yield (
            f"<rect class='lane' x='124' y='{lane(p)}' width='{24 + 6 * len(turns)}' height='1'/>"
            f"<text class='name' x='8' y='{lane(p) + 4}'>{name}</text>"
        )


def bars_of(book, files, turns, spans):
    """The bars, with words and replies where there is room for them."""
    for k, span in enumerate(spans):
        p, label, reply = span.process, label_of(book, files[span.process][span.line - 1]), span.turns[-1].reply
        left, width = 133 + 6 * span.first, 6 * (span.last - span.first + 1)
        yield (
            f"<rect class='bar' x='{left}' y='{lane(p) - 13}' width='{width}' height='26'><title>call {span.line} of {book.processes[p]}: "
            f"{label}, {reply}, turns {span.first + 1} to {span.last + 1}</title></rect>"
        )
        after = spans[k + 1].first if k + 1 < len(spans) and spans[k + 1].process == p else len(turns)
        if 7 * len(label) <= 6 * (after - span.first):
            yield f"<text x='{left}' y='{lane(p) - 19}'>{label}</text>"
        if 7 * len(reply) <= width:
            yield f"<text class='reply' x='{left + width}' y='{lane(p) + 28}'>{reply}</text>"


def curves_of(book, turns):
    """The curves: from each publication to the first load of its record by each other process."""
    for q, name in enumerate(book.processes):
        published = [m for m, turn in enumerate(turns) if turn.step == "store" and turn.word == ["length", name]]
        loaded = set()
        for m, turn in enumerate(turns):
            if turn.process == q or turn.step != "load" or turn.word[:2] != ["record", name] or (turn.process, turn.word[2]) in loaded:
                continue
            loaded.add((turn.process, turn.word[2]))
            p, s = turn.process, published[int(turn.word[2])]
            middle, here, there = (lane(p) + lane(q)) // 2, 136 + 6 * m, 136 + 6 * s
            path = f"M{there} {lane(q)}C{there} {middle} {here} {middle} {here} {beside(p, q, 13, 13)}"
            yield f"<path class='sees' d='{path}'><title>turn {m + 1}: first load of what turn {s + 1} published</title></path>"
            if int(turn.word[3]) >= 7:
                yield f"<text class='caption' x='{here + 5}' y='{beside(p, q, 44, 38)}'>borrows</text>"


def asked_next(book, turns, m):
    """The owner of the request that the process of this turn loads in its next one."""
    _, account, slot, *_ = next(turn.word for turn in turns[m + 1 :] if turn.process == turns[m].process)
    return next(known.owners for known in book.accounts if known.name == account)[int(slot)]


def helped_of(book, turns):
    """Each turn that decides another owner's request, with that owner: the first exchange of a cell, after which another's is loaded."""
    exchanged, helped = set(), {}
    for m, turn in enumerate(turns):
        if turn.step == "exchange" and tuple(turn.word) not in exchanged:
            exchanged.add(tuple(turn.word))
            owner = asked_next(book, turns, m)
            if owner != turn.process:
                helped[m] = owner
    return helped


def arrows_of(book, turns):
    """The arrows, by process."""
    for m, owner in sorted(helped_of(book, turns).items(), key=lambda made: (turns[made[0]].process, made[0])):
        p, words = turns[m].process, f"decides for {book.processes[owner]}"
        yield f"<path class='helps' d='M{136 + 6 * m} {lane(p)}V{beside(owner, p, 13, 13)}'><title>turn {m + 1}: {words}</title></path>"
        yield f"<text class='caption' x='{141 + 6 * m}' y='{beside(p, owner, 58, 54)}'>{words}</text>"


def marks_of(turns):
    """The marks."""
    for m, turn in enumerate(turns):
        shape = "publication" if turn.step == "store" and turn.word[0] == "length" else turn.step
        title = f"turn {m + 1}: {turn.step} {' '.join(turn.word)}"
        yield f"<use href='#{shape}' x='{136 + 6 * m}' y='{lane(turn.process)}'><title>{title}</title></use>"


def rows_of(book, files, spans):
    """The rows of the table."""
    for span in spans:
        p, call, reply = span.process, files[span.process][span.line - 1], span.turns[-1].reply
        kind, account = model.kind_of(book, p, call), book.accounts[call.account]
        steps = sum(turn.step != "none" for turn in span.turns)
        exchanges = sum(turn.step == "exchange" for turn in span.turns)
        begun = [turn.word[1] for turn in span.turns if turn.step == "load" and turn.word[0] == "record" and turn.word[3] == "0"]
        new = sum(name != book.processes[p] for name in begun)
        made = reply not in ("not-owner", "full")
        most = costs.most_steps(kind, len(book.processes), len(account.owners), new) if made else 0
        cells = [book.processes[p], span.line, call.word, account.name, kind, reply, steps, exchanges, new, most]
        cells.append(len(account.owners) if made and kind == "agreed" else 0)
        yield f"<tr>{''.join(f'<td>{cell}</td>' for cell in cells)}</tr>"


def parts_of(book, files, turns, report):
    """What is in the parts of the page."""
    spans = spans_of(book, turns)
    picture = [*lanes_of(book, turns), *bars_of(book, files, turns, spans), *curves_of(book, turns), *arrows_of(book, turns), *marks_of(turns)]
    size = f"width='{160 + 6 * len(turns)}' height='{132 * len(book.processes)}'"
    items = [f"<li>{line}\n</li>" for line in report.split("\n")[1 : 1 + int(report.split()[1])]]
    return [sentence_of(book, files), size, *("".join(f"{text}\n" for text in texts) for texts in (picture, rows_of(book, files, spans), items))]


def looks(page, book, files, trace, report):
    """The page is that of this trace and report."""
    found, example = PARTS.match(page), PARTS.match((EXAMPLES / "replay" / "borrowed" / "borrowed.html").read_text("ascii"))
    is_true(found and found.groups()[::2] == example.groups()[::2], "its other parts aren't those of an example")
    for told, wanted in zip(found.groups()[1::2], parts_of(book, files, read_turns(book, trace), report)):
        same(told, wanted)


def printed_by(folder, command, *words):
    """What a command prints."""
    answer = folder.run(command, *words)
    expect(answer, 0, answer.out, b"")
    return answer.out.decode()


def page_of(folder, *words):
    """The page of these words, with the turns and the report."""
    return [printed_by(folder, command, *words) for command in ("show", "trace", "replay")]


def is_page(folder, name):
    """The stored page of an example is that of its turns."""
    here = EXAMPLES / "replay" / name
    pays = sorted(here.glob("pay*.csv"))
    book = model.read_book((here / "book.csv").read_text("ascii"))
    files = [model.read_file(book, pay.read_text("ascii")) for pay in pays]
    page, trace, report = ((here / f"{name}.{ending}").read_text("ascii") for ending in ("html", "trace", "report"))
    looks(page, book, files, trace, report)


def draw_book(draw, named, own, request, openings):
    """Draws a book of an account of each process, two shared ones and one of nobody, whose names are numbers or not."""
    size = draw.randint(2, 4)
    owners = [[p] for p in range(size)] + [sorted(draw.sample(range(size), draw.randint(2, size))) for _ in range(2)] + [[]]
    names = ["ann", "bob", "carla-maria-ross", "dan-2"][:size] if named else [str(p) for p in range(size)]
    accounts = [model.Account(f"acc-{a}" if named else str(a), draw.choice(openings), of) for a, of in enumerate(owners)]
    return model.Book(names, own, request, accounts, 1 + named)


def draw_files(draw, book, lengths):
    """Draws files of so many calls, some of whose payments are pay-outs where the book has names."""
    return [[pay_out(draw, book, orders.draw_call(draw, book, p)) for _ in range(length)] for p, length in enumerate(lengths)]


def draw_run(seed):
    """Draws a book, files and a schedule of stretches."""
    draw = random.Random(seed)
    book = draw_book(draw, seed % 2, draw.randint(1, 4), draw.randint(1, 3), [0, 5, 10, 20])
    files = draw_files(draw, book, [draw.randint(0, 6) for _ in book.processes])
    stretches = [(draw.randrange(len(files)), draw.choice([1, 2, 3, 5, 13, 18, 34])) for _ in range(60)]
    return book, files, [p for p, turns in stretches for _ in range(turns)]


def pay_out(draw, book, call):
    """A payment, or in its place a pay-out where the book has names."""
    if call.word != "transfer" or book.version == 1 or draw.random() < 0.5:
        return call
    more = [(draw.randrange(len(book.accounts)), draw.choice([0, 1, 2])) for _ in range(draw.randint(0, 3))]
    return model.Call("pay", call.account, call.pairs + more)


def what_comes(book, turns):
    """What not every picture shows: decisions for an owner of a lower lane or a higher one, views that are borrowed from one, and an exchange
    that finds another owner's request, decided before."""
    numbers = {name: p for p, name in enumerate(book.processes)}
    helped, exchanged = helped_of(book, turns), set()
    for m, turn in enumerate(turns):
        if m in helped:
            yield "decides down" if turn.process < helped[m] else "decides up"
        if turn.step == "load" and turn.word[0] == "record" and turn.word[3] == "7":
            yield "borrows from below" if turn.process < numbers[turn.word[1]] else "borrows from above"
        if turn.step == "exchange":
            if tuple(turn.word) in exchanged and asked_next(book, turns, m) != turn.process:
                yield "finds another decided"
            exchanged.add(tuple(turn.word))


def put_files(folder, book, files):
    """Writes a book and files. It gives back the names of the files."""
    folder.write("book", model.csv(model.book_records(book)))
    return [folder.write(str(p), model.csv(model.file_records(book, file))) for p, file in enumerate(files)]


def are_pages(folder, first):
    """The pages of drawn runs are those of their turns."""
    come = set()
    for seed in range(first, first + 100):
        book, files, schedule = draw_run(seed)
        pays = put_files(folder, book, files)
        folder.write("schedule", "".join(f"{p}\n" for p in schedule))
        page, trace, report = page_of(folder, "book", "schedule", *pays)
        looks(page, book, files, trace, report)
        come |= set(what_comes(book, read_turns(book, trace)))
    is_true(len(come) == 5, f"no run of these shows all: {sorted(come)}")


def cases():
    """The cases."""
    for name in sorted(folder.name for folder in (EXAMPLES / "replay").iterdir() if folder.is_dir()):
        yield Case(f"the page of {name} is that of its turns", is_page, name)
    for first in (1, 101):
        yield Case(f"pages of drawn runs, seeds {first} to {first + 99}", are_pages, first)
