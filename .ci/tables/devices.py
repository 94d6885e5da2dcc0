"""Devices that fail: calls that open or read a file, outputs with little room, reads and writes that move less than was asked."""

import errno
import os
import random
import threading
import time
from itertools import product

from tables.shim import over
from tables.trying import EXAMPLES, Case, expect, is_true, lines, printed, ran, refused

USUAL = ["run", "usual/book.csv", "usual/pay0.csv"]
DELIVER = ["deliver", "deliver/book.csv", "deliver/order.csv", "deliver/send0.csv", "deliver/send1.csv"]
REPORT = (EXAMPLES / "usual" / "usual.report").read_bytes()
MOST = 8388608
DRAWN = 50
# Names of files, as they are written and as the words have them: each is that of one file and of no other.
NAMES = [(name, name) for name in (
    "b", " b", "b ", "a b", " ", "-", "--", "--book", "B", "b.", "~", "*", "$HOME", "%62", "'b'", '"b"', "b\\n", "b\tb", "b\nb", "@b", "#b", "b,1", "file:b",
    "b\u00fcch", "x" * 255,
)] + [("far", "./" * 2000 + "far")]
# Words by which a file of each kind is the longest, and its number: it is the last one that is read.
LONGEST = {
    "book": (["check", "long", "few"], 0),
    "payments": (["check", "book", "long"], 1),
    "schedule": (["replay", "book", "long", "few"], 2),
    "messages": (["deliver", "book", "few", "long"], 1),
    "deliveries": (["deliver", "book", "long", "none"], 2),
    "report": (["verify", "book", "long", "few"], 2),
}


def each_call_fails(folder, grain, reads, paid):
    """Each call that opens or reads a file fails in turn, and each names its file: a file is opened, and read up to its end, which is one
    read more. A device that moves a byte at a time fails after good reads, also where what was read is a whole book."""
    for call in range(1, reads + paid + 1):
        refused(over(folder, *USUAL, GRAIN=grain, FAIL=call), 5, f"read fault: file {int(call > reads)}")
    return f"{reads + paid} calls"


def no_further_call(folder, grain, calls):
    """There are no more calls than these."""
    printed(over(folder, *USUAL, GRAIN=grain, FAIL=calls + 1), REPORT)


def put_sixteen(folder):
    """Writes a book of sixteen processes, a file for each, and their report. It gives the files in the order of their numbers."""
    folder.write("book", lines("book,1", "processes,16", "limits,4,4", "account,0,5,0"))
    pays = [folder.write(str(p), "read,0\n") for p in range(16)]
    folder.write("report", ran(folder, "run", "book", *pays))
    return ["book", *pays, "report"]


def each_of_sixteen_fails(folder):
    """Each of the most files is missing in turn, and each call that opens or reads one fails in turn: it is opened, and read twice."""
    files = put_sixteen(folder)
    for number in range(len(files)):
        book, *pays, report = files[:number] + ["nothing"] + files[number + 1 :]
        refused(folder.run("verify", book, report, *pays), 5, f"read fault: file {number}")
        for call in range(3 * number + 1, 3 * number + 4):
            refused(over(folder, "verify", "book", "report", *files[1:-1], FAIL=call), 5, f"read fault: file {number}")
    return f"{3 * len(files)} calls"


def each_error(folder):
    """A read that fails is a fault, whatever the error is."""
    for name in ("EINTR", "EAGAIN", "EBADF", "EISDIR", "EINVAL", "ENOMEM", "EACCES", "ESTALE", "ENOTCONN"):
        for call in (2, 3, 5, 6):
            refused(over(folder, *USUAL, FAIL=call, ERRNO=getattr(errno, name)), 5, f"read fault: file {int(call > 3)}")


def named(folder):
    """A word is the name of a file as it stands, beside files with names that are like it."""
    folder.write("pay", "read,0\n")
    for number, (name, _) in enumerate(NAMES):
        folder.write(name, lines("book,1", "processes,1", "limits,4,4", f"account,0,{number},0"))
    for number, (_, word) in enumerate(NAMES):
        report = lines("journal 1", f"0 1 read 0 {number}", "balances 1", f"0 {number}", f"total {number}")
        printed(folder.run("run", os.fsencode(word), "pay"), report)
    for number, (name, _) in enumerate(NAMES):
        folder.write(name, "read,0\n" * number)
    for number, (_, word) in enumerate(NAMES):
        printed(folder.run("check", "usual/book.csv", os.fsencode(word)), f"checked 1 2 {number}\n")
    return f"{len(NAMES)} names"


def piped(folder, seed):
    """A file that is a pipe, into which a few bytes are written at a time, is read to its end."""
    pipe, draw = folder.path / "pipe", random.Random(seed)
    os.mkfifo(pipe)

    def write():
        left = b"read,0\n" * 9000
        with open(pipe, "wb", buffering=0) as file:
            while left:
                left = left[file.write(left[: draw.randint(1, 3000)]) :]
                time.sleep(0.002)

    writer = threading.Thread(target=write, daemon=True)
    writer.start()
    printed(folder.run("check", "usual/book.csv", "pipe"), "checked 1 2 9000\n")
    writer.join()


def put_longest(folder):
    """Writes a file of the largest size, of blank lines, and small ones beside it."""
    folder.write("book", lines("book,1", "processes,1", "limits,4,4", "account,0,100,0"))
    folder.write("long", b"\n" * MOST)
    folder.write("few", "read,0\n")
    folder.write("none", "")


def calls_of(folder, words, number, **grain):
    """The first and the last of the calls that open and read the file of this number."""

    def fails(call):
        return over(folder, *words, FAIL=call, **grain).err.startswith(b"read fault: file %d\n" % number)

    first = next(call for call in range(1, 100) if fails(call))
    low, high = first, first + 1
    while fails(high):
        low, high = high, 2 * high
    while high - low > 1:
        middle = (low + high) // 2
        low, high = (middle, high) if fails(middle) else (low, middle)
    return first, low


def longest_fails(folder, kind, grain, seed):
    """Of the calls that open and read a file of the largest size some that are drawn fail, and the last ones: after however many good reads
    a read that fails is a fault, and not the end of the file."""
    put_longest(folder)
    words, number = LONGEST[kind]
    first, last = calls_of(folder, words, number, GRAIN=grain)
    draw = random.Random(seed)
    drawn = sorted({first, last - 1, last, *(draw.randint(first, last) for _ in range(DRAWN))})
    for call in drawn:
        refused(over(folder, *words, GRAIN=grain, FAIL=call), 5, f"read fault: file {number}")
    is_true(last - first > 200, f"the file is read by {last - first} calls, and more than 200 are wanted")
    return f"{len(drawn)} of the calls {first} to {last}, drawn from seed {seed}"


def rooms(folder, grain):
    """An output of too little room is a write fault, and has as many bytes of the report as it has room for."""
    for room in range(len(REPORT)):
        expect(over(folder, *USUAL, GRAIN=grain, ROOM=room), 6, REPORT[:room], b"write fault\n")


def just_the_room(folder, grain):
    """One with just the room takes it."""
    printed(over(folder, *USUAL, GRAIN=grain, ROOM=len(REPORT)), REPORT)


def put_most_calls(folder):
    """Writes a file of the most calls, whose journal for hledger has more than 1 MiB."""
    folder.write("book", lines("book,1", "processes,1", "limits,4,4", "account,0,18446744073709551615,0"))
    folder.write("0", "read,0\n" * 16384)
    return ["ledger", "book", "0"]


def full_disk(folder, room, grain):
    """A disk on which so many bytes have place takes so many of a longer text, and that is a write fault."""
    words = put_most_calls(folder)
    text = folder.run(*words).out
    is_true(len(text) > room + 1, f"the text has {len(text)} bytes")
    expect(over(folder, *words, ROOM=room, GRAIN=grain), 6, text[:room], b"write fault\n")
    printed(over(folder, *words, ROOM=len(text), GRAIN=grain), text)


def short_writes(folder, grains):
    """A text of more than 1 MiB is written whole, however few of the bytes that are asked a write takes."""
    words = put_most_calls(folder)
    text = folder.run(*words).out
    is_true(len(text) > 1 << 20, f"the text has {len(text)} bytes")
    for grain in grains:
        printed(over(folder, *words, GRAIN=grain), text)
    return f"{len(text)} bytes, {len(grains)} sizes"


def full_late(folder, grain, nothing):
    """A disk that is full after a thousand writes and more is a write fault, and one that then takes nothing and tells no error."""
    words = put_most_calls(folder)
    text = folder.run(*words).out
    draw = random.Random(grain)
    for room in (len(text) - 1, draw.randrange(len(text)), draw.randrange(len(text))):
        expect(over(folder, *words, ROOM=room, GRAIN=grain, **nothing), 6, text[:room], b"write fault\n")
    return f"{len(text)} bytes"


def in_drawn_pieces(folder, grain, seeds):
    """Files and streams that give and take another number of bytes each time change nothing."""
    folder.write("reads", "read,0\n" * 4000)
    for seed in seeds:
        answer = over(folder, "run", "usual/book.csv", "reads", GRAIN=grain, VARY=seed)
        folder.write("report", answer.out)
        printed(over(folder, "verify", "usual/book.csv", "report", "reads", GRAIN=grain, VARY=seed), "verified 4000\n")
        printed(over(folder, *USUAL, GRAIN=grain, VARY=seed), REPORT)


def in_pieces(folder, grain):
    """Files and streams that give and take so many bytes at a time change nothing."""
    printed(over(folder, *USUAL, GRAIN=grain), REPORT)


def delivered_in_pieces(folder, grain):
    """The same of messages."""
    printed(over(folder, *DELIVER, GRAIN=grain), (EXAMPLES / "deliver" / "deliver.nodes").read_bytes())


def refused_in_pieces(folder, grain):
    """The same of a refusal."""
    refused(over(folder, "run", "usual/book.csv", "nothing", GRAIN=grain), 5, "read fault: file 1")


def empty_name(folder):
    """A word of no bytes names no file."""
    refused(folder.run("run", "", "usual/pay0.csv"), 5, "read fault: file 0")


def read_back(folder, grain):
    """A real file of 50,000 bytes and more is written, and read back: each byte of a report is compared."""
    folder.write("reads", "read,0\n" * 4000)
    answer = over(folder, "run", "usual/book.csv", "reads", GRAIN=grain)
    folder.write("report", answer.out)
    is_true(len(answer.out) > 50000, f"the report has {len(answer.out)} bytes")
    printed(over(folder, "verify", "usual/book.csv", "report", "reads", GRAIN=grain), "verified 4000\n")


def drawn_grains(seed):
    """Sizes of pieces from 65,536 bytes on, and a few below."""
    draw = random.Random(seed)
    return [1000, 4095, 65535, 65536, 65537, 131072, 1048575, 1048576] + [draw.randint(65536, 1 << 20) for _ in range(12)]


def cases():
    """The cases."""
    book, pay = ((EXAMPLES / "usual" / name).stat().st_size + 2 for name in ("book.csv", "pay0.csv"))
    for grain, reads, paid, name in ((16384, 3, 3, "in whole pieces"), (1, book, pay, "a byte at a time")):
        yield Case(f"{name}: each call of files fails", each_call_fails, grain, reads, paid)
        yield Case(f"{name}: there is no further call", no_further_call, grain, reads + paid)
    for seed, (kind, grain) in enumerate(product(LONGEST, (16384, 4000))):
        yield Case(f"the longest {kind}, {grain} bytes at a time: calls of it fail", longest_fails, kind, grain, seed)
    for grain in (16384, 1):
        yield Case(f"outputs of each room, which take {grain} bytes at once", rooms, grain)
        yield Case(f"an output with just the room, which takes {grain} bytes at once", just_the_room, grain)
    for room, grain in ((1 << 20, MOST), (1 << 20, 65536), (1 << 20, 100000), (65536, MOST), (131072, 65536), (65535, MOST)):
        yield Case(f"a disk with room for {room} bytes, which takes {grain} at once", full_disk, room, grain)
    yield Case("a text of more than 1 MiB, in short writes of many sizes", short_writes, drawn_grains(1))
    for grain in (1, 7, 4096):
        yield Case(f"usual, {grain} bytes at a time", in_pieces, grain)
        yield Case(f"deliver, {grain} bytes at a time", delivered_in_pieces, grain)
        yield Case(f"a refusal, {grain} bytes at a time", refused_in_pieces, grain)
    for grain in (16384, 4096, 1):
        yield Case(f"a report of more than 50,000 bytes, written and read back {grain} bytes at a time", read_back, grain)
    for grain in (16384, 1000, 20):
        yield Case(f"drawn numbers of bytes at a time, {grain} at most", in_drawn_pieces, grain, range(1, 6))
    for grain, nothing in ((1000, {}), (100, {}), (1000, {"NOTHING": "too"})):
        yield Case(f"a disk that is full late, which takes {grain} bytes at once{', and tells no error' if nothing else ''}", full_late, grain, nothing)
    yield Case("each of eighteen files is missing or fails", each_of_sixteen_fails)
    yield Case("each error of a read", each_error)
    yield Case("names of files as they stand", named)
    yield Case("a file that is a pipe", piped, 1)
    yield Case("an empty name", empty_name)
