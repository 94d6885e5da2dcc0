"""Books that end too early, and books of the most accounts."""

from tables.trying import Case, lines, printed, refused

ONE = lines("book,1", "processes,1", "limits,4,4", "account,0,100,0", "account,1,0,")

# After so many bytes, from the least number to the greatest, the book has a fault in this line.
CUT = [
    (0, 4, 1, "shape"),
    (5, 5, 1, "version"),
    (6, 16, 2, "shape"),
    (17, 17, 2, "number"),
    (18, 27, 3, "shape"),
    (28, 28, 3, "number"),
    (29, 30, 4, "no account"),
    (31, 43, 4, "shape"),
    (47, 57, 5, "shape"),
]
# After so many it has so many accounts.
WHOLE = [(44, 1), (45, 1), (46, 1), (58, 2), (59, 2)]


def reads(folder, book, status, told):
    """What `check` answers to a book and an empty file."""
    folder.write("book", book)
    answer = folder.run("check", "book", folder.write("0", ""))
    if status:
        refused(answer, status, told)
    else:
        printed(answer, told + "\n")


def cases():
    """The cases."""
    given = []
    for least, greatest, line, cause in CUT:
        given += [(f"the first {n} bytes of a book", ONE[:n], 3, f"book: line {line}: {cause}") for n in range(least, greatest + 1)]
    given += [(f"the first {n} bytes of a book, which are one", ONE[:n], 0, f"checked 1 {accounts} 0") for n, accounts in WHOLE]
    most = ONE[: ONE.index("account")] + "".join(f"account,{a},1,0\n" for a in range(1025))
    given.append(("a book of 1,024 accounts", most.removesuffix("account,1024,1,0\n"), 0, "checked 1 1024 0"))
    given.append(("a book of 1,025 accounts", most, 3, "book: line 1028: too many accounts\n  book, line 1028: a book has at most 1024 accounts"))
    for name, *rest in given:
        yield Case(name, reads, *rest)
