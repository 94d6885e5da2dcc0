"""All 1,024 schedules of ten turns after each of four starts. Process 0 pays 8 from an account of 4 that both share, and process 1 pays 5
to it, and then reads it. The payment is short where it is first, and covered between the other calls and behind them."""

from tables.trying import Case, expect, is_true, lines

BOOK = lines("book,1", "processes,2", "limits,1,1", "account,0,4,0 1", "account,1,5,1")
CALLS = {"short": "0 1 transfer 0 1 8 short", "pays": "0 1 transfer 0 1 8 done", "credits": "1 1 transfer 1 0 5 done"}
FIRST = lines("journal 3", CALLS["short"], CALLS["credits"], "1 2 read 0 9", "balances 2", "0 9", "1 0", "total 9")
BETWEEN = lines("journal 3", CALLS["credits"], CALLS["pays"], "1 2 read 0 1", "balances 2", "0 1", "1 8", "total 9")
LAST = lines("journal 3", CALLS["credits"], "1 2 read 0 9", CALLS["pays"], "balances 2", "0 1", "1 8", "total 9")


def each_way(folder, command, start):
    """What a command prints of each schedule after this start."""
    folder.write("book", BOOK)
    folder.write("0", "transfer,0,1,8\n")
    folder.write("1", "transfer,1,0,5\nread,0\n")
    texts = []
    for way in range(1024):
        folder.write("way", start + "".join(f"{way >> turn & 1}\n" for turn in range(10)))
        answer = folder.run(command, "book", "way", "0", "1")
        expect(answer, 0, answer.out, b"")
        texts.append(answer.out.decode())
    return texts


def reports(folder, start, wanted):
    """Each report is one of those that are wanted, and each of these comes."""
    found = each_way(folder, "replay", start)
    is_true(set(found) == set(wanted), f"{len(set(found))} reports come, where {len(wanted)} are wanted")


def calls_of(trace):
    """The first and the last turn of each call, and its reply, by the turns alone."""
    calls = {}
    for row in trace.split("\n")[1:-1]:
        turn, process, line, _, _, reply = row.split(",")
        first, _, answer = calls.get((process, line), (int(turn), 0, ""))
        calls[process, line] = (first, int(turn), reply or answer)
    return calls


def keeps_time(report, trace):
    """No line stands behind one whose call began after its own had ended, but where neither moved anything, and each has its reply."""
    calls = calls_of(trace)
    journal = [line.split() for line in report.split("\n")[1 : int(report.split()[1]) + 1]]
    for at, line in enumerate(journal):
        first, last, reply = calls[line[0], line[1]]
        is_true(reply == line[-1], f"{line} is answered {reply} by the turns")
        for before in journal[:at]:
            is_true(calls[before[0], before[1]][0] <= last or "done" not in (line[-1], before[-1]), f"{line} stands behind {before}")


def times(folder, start):
    """The report of each way keeps the time of its turns."""
    for report, trace in zip(each_way(folder, "replay", start), each_way(folder, "trace", start)):
        keeps_time(report, trace)


def cases():
    """The cases."""
    for name, turns, wanted in (
        ("the schedules make the first turns of all", [], [FIRST, LAST]),
        ("process 0 looks beside the turn with which process 1 publishes", [(0, 13), (1, 13)], [FIRST, LAST]),
        ("process 1 reads beside the turn with which process 0 publishes that its payment was short", [(0, 30), (1, 14)], [FIRST]),
        # Process 0 has loaded the record of process 1.
        ("process 1 reads beside the turn with which process 0 publishes its payment", [(1, 14), (0, 37)], [BETWEEN, LAST]),
    ):
        start = "".join(f"{who}\n" * many for who, many in turns)
        yield Case(f"{name}: {len(wanted)} journals come", reports, start, wanted)
        yield Case(f"{name}: the journals keep the time of their turns, and have their replies", times, start)
