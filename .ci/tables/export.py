"""What `bezglami import` makes of exports of payments, and what it refuses. It needs no built program; where that is there, it has to take
what was made."""

import os
import random
import shlex
import shutil
import subprocess
import sys
import time

from tables import model
from tables.trying import EXAMPLES, PATHS, ROOT, Case, expect, is_true, lines, printed, same

HEAD = "date,payer,payee,amount\n"
FROM = "payer,payee,amount,account\n"
PAIR = "payer,payee,debit,credit\n"
LEDGER = '"txnidx","date","date2","status","code","description","comment","account","amount","commodity","credit","debit"'
LEDGER += ',"posting-status","posting-comment"\n'
JOINT = {"joint.csv": "joint,ann bob\n"}
MOST_SECONDS = 20


def imports(folder, *words):
    """Runs the script."""
    return folder.run(os.fsencode(ROOT / "tools" / "from_export.py"), *words, program=sys.executable, PYTHONUTF8=1)


def put(folder, content, beside):
    """Writes the export, and the files beside it."""
    for name, text in {"paid.csv": content, **beside}.items():
        folder.write(name, text.encode() if isinstance(text, str) else text)


def takes(folder, told):
    """The built program takes what was made, by the commands that were told."""
    kinds, *later = (shlex.split(line) for line in told.decode().splitlines()[-3:])
    is_true(kinds[:2] == ["./bezglami", "kinds"], f"it tells {kinds}")
    is_true(later == [["./bezglami", command, *kinds[2:]] for command in ("needs", "orders")], f"it tells {later}")
    book, *files = [folder.read(word).decode() for word in kinds[2:]]
    book = model.read_book(book)
    files = [model.read_file(book, file) for file in files]
    if not PATHS["at_program"].exists():
        folder.missing.add("check and kinds of what an import makes, since the program isn't built")
        return
    printed(folder.run("check", *kinds[2:]), f"checked {len(files)} {len(book.accounts)} {sum(map(len, files))}\n")
    printed(folder.run(*kinds[1:]), model.kinds_text(book, files))


def makes(folder, content, words, wanted, beside=None, told=""):
    """It makes these files, and no other, and says this among what it says."""
    put(folder, content, beside or {})
    answer = imports(folder, "paid.csv", "--to", "made", *words)
    expect(answer, 0, answer.out, b"")
    for name, text in wanted.items():
        same(folder.read(f"made/{name}.csv"), text if name == "book" else f"process,{name}\n{text}")
    names = sorted(path.name for path in (folder.path / "made").iterdir())
    is_true(names == sorted(f"{name}.csv" for name in wanted), f"it makes {names}")
    is_true(told.encode() in answer.out, f"it says {answer.out!r}")
    takes(folder, answer.out)


def refuses(folder, content, words, told, beside=None):
    """It refuses the export with these lines, and writes nothing."""
    put(folder, content, beside or {})
    before = sorted(folder.path.rglob("*"))
    answer = imports(folder, "paid.csv", "--to", "made", *words)
    expect(answer, 1, b"", "".join(f"{line}\n" for line in told).encode())
    is_true(sorted(folder.path.rglob("*")) == before, "it writes something")


def book_of(processes, limits, *accounts):
    """A book."""
    return lines("book,2", f"processes,{processes}", f"limits,{limits}", *(f"account,{account}" for account in accounts))


def pays(*payments):
    """A payment file of transfers."""
    return lines(*(f"transfer,{payment}" for payment in payments))


def posted(*postings):
    """Postings as `hledger print -O csv` writes them: the number of the transaction, its code, the account and the amount."""
    text = LEDGER
    for number, code, account, amount in postings:
        credit, debit = (amount[1:], "") if amount[0] == "-" else ("", amount)
        fields = [number, "2026-01-03", "", "", code, "food", "", account, amount, "EUR", credit, debit, "", ""]
        text += ",".join(f'"{field}"' for field in fields) + "\n"
    return text


# A payment of 12.50 from ann to bob, however it is spelled.
ONCE = {"book": book_of("ann", "1,1", "ann,1250,ann", "bob,0,"), "ann": pays("ann,bob,1250")}
SPELLINGS = [
    ("commas", HEAD + "1,Ann,Bob,12.50\n", []),
    ("semicolons", "payer;payee;amount\nAnn;Bob;12.50\n", []),
    ("tabs", "payer\tpayee\tamount\nAnn\tBob\t12.50\n", []),
    ("a separator that is given", "payer|payee|amount\nAnn|Bob|12.50\n", ["--separator", "|"]),
    ("tabs that are given", "payer\tpay,e,e\tamount\nAnn\tBob\t12.50\n", ["--separator", "tab", "--payee", "pay,e,e"]),
    ("a byte order mark", "\ufeffpayer,payee,amount\nAnn,Bob,12.50\n", []),
    ("CR LF", HEAD.replace("\n", "\r\n") + "1,Ann,Bob,12.50\r\n", []),
    ("no last newline", HEAD + "1,Ann,Bob,12.50", []),
    ("quoted fields", '"payer, or who","payee","amount"\n"Ann","Bob","12.50"\n', ["--payer", "payer, or who"]),
    ("a newline within quotes", 'note,payer,payee,amount\n"two\nlines; and ""more""",Ann,Bob,12.50\n', []),
    ("decimal commas", "payer;payee;amount\nAnn;Bob;12,50\n", ["--decimal", ","]),
    ("decimal commas in quotes", HEAD + '1,Ann,Bob,"12,50"\n', ["--decimal", ","]),
    ("a plus sign", HEAD + "1,Ann,Bob,+12.50\n", []),
    ("spaces around fields", HEAD + "1, Ann ,Bob , 12.50\n", []),
    ("blank lines, and lines of separators", "\n" + HEAD + "\n1,Ann,Bob,12.50\n\n,,,\n", []),
    ("empty fields behind the last column", HEAD + "1,Ann,Bob,12.50,,\n", []),
    ("fields that are wanting behind the last column read", "payer,payee,amount,note\nAnn,Bob,12.50\n", []),
    ("heads that are given, in other letters", "a,b,c\nAnn,Bob,12.50\n", ["--payer", "A", "--payee", "B", "--amount", "C"]),
    ("a head with its unit", "Payer,Payee,Amount (EUR)\nAnn,Bob,12.50\n", []),
    ("German heads", "Zahler;Empfänger;Betrag\nAnn;Bob;12,50\n", ["--decimal", ","]),
    ("Latin letters of one byte", "Zahler;Empfänger;Betrag\nAnn;Bob;12,50\n".encode("cp1252"), ["--decimal", ",", "--encoding", "cp1252"]),
    ("sixteen bits a letter", "payer\tpayee\tamount\nAnn\tBob\t12.50\n".encode("utf-16"), ["--encoding", "utf-16"]),
    ("a debit, and a credit of nothing", PAIR + "Ann,Bob,12.50,0.00\n", []),
    ("a credit, which turns it round", PAIR + "Bob,Ann,,12.50\n", []),
    ("a negative amount that turns it round", HEAD + "1,Bob,Ann,-12.50\n", ["--negative", "turn"]),
    ("a negative amount without its sign", HEAD + "1,Ann,Bob,-12.50\n", ["--negative", "drop"]),
    ("more digits, which are 0", HEAD + "1,Ann,Bob,12.5000\n", ["--decimals", "2"]),
    ("fewer digits", HEAD + "1,Ann,Bob,12.5\n", ["--decimals", "2"]),
    ("one currency", "payer,payee,amount,currency\nAnn,Bob,12.50,EUR\n", []),
]

MADE = [
    ("names of the form", HEAD + "1,Ann  Müller,Łódź & Söhne,5\n2,É. O'Neil,Straße 7,6\n", [], {
        "book": book_of("ann-muller,e-o-neil", "1,1", "ann-muller,5,ann-muller", "lodz-sohne,0,", "e-o-neil,6,e-o-neil", "strasse-7,0,"),
        "ann-muller": pays("ann-muller,lodz-sohne,5"), "e-o-neil": pays("e-o-neil,strasse-7,6")}),
    ("a name that is cut", HEAD + "1,Ann,Stadtwerke Bad Homburg,5\n", [], {
        "book": book_of("ann", "1,1", "ann,5,ann", "stadtwerke-bad-h,0,"), "ann": pays("ann,stadtwerke-bad-h,5")}),
    ("thousands", HEAD + '1,Ann,Bob,"1,234,567.5"\n2,Ann,Bob,1234\n', ["--thousands", ","], {
        "book": book_of("ann", "2,1", "ann,12358015,ann", "bob,0,"), "ann": pays("ann,bob,12345675", "ann,bob,12340")}),
    ("decimals by the most digits", HEAD + "1,Ann,Bob,1.125\n2,Ann,Bob,2\n3,Ann,Bob,0\n", [], {
        "book": book_of("ann", "3,1", "ann,3125,ann", "bob,0,"), "ann": pays("ann,bob,1125", "ann,bob,2000", "ann,bob,0")}),
    ("amounts of 64 bits", HEAD + "1,Ann,Bob,184467440737095516.15\n2,Bob,Ann,000184467440737095516.15\n", [], {
        "book": book_of("ann,bob", "1,1", "ann,18446744073709551615,ann", "bob,0,bob"),
        "ann": pays("ann,bob,18446744073709551615"), "bob": pays("bob,ann,18446744073709551615")}),
    ("the least openings in the order of the export", HEAD + "1,Ann,Bob,10\n2,Bob,Carl,15\n3,Carl,Ann,5\n4,Ann,Ann,9\n", [], {
        "book": book_of("ann,bob,carl", "2,1", "ann,14,ann", "bob,5,bob", "carl,0,carl"),
        "ann": pays("ann,bob,10", "ann,ann,9"), "bob": pays("bob,carl,15"), "carl": pays("carl,ann,5")}),
    ("the newest first", HEAD + "2,Bob,Carl,15\n1,Ann,Bob,10\n", ["--newest", "first"], {
        "book": book_of("ann,bob", "1,1", "ann,10,ann", "bob,5,bob", "carl,0,"), "ann": pays("ann,bob,10"), "bob": pays("bob,carl,15")}),
    ("an account of one's own", FROM + "Ann,Bob,5,Ann Cash\nBob,Ann Cash,3,\n", [], {
        "book": book_of("ann,bob", "1,1", "ann-cash,5,ann", "bob,0,bob"), "ann": pays("ann-cash,bob,5"), "bob": pays("bob,ann-cash,3")}),
    ("a refund that is turned round goes to the account that paid", FROM + "Ann,Shop,5,Cash\nAnn,Shop,-2,Cash\n", ["--negative", "turn"], {
        "book": book_of("ann,shop", "1,1", "cash,5,ann", "shop,0,shop"), "ann": pays("cash,shop,5"), "shop": pays("shop,cash,2")}),
    ("one that is turned round from an account of another name", FROM + "Ann,Bob,5,Cash\nBob,Cash,-2,\n", ["--negative", "turn"], {
        "book": book_of("ann", "2,1", "cash,7,ann", "bob,0,"), "ann": pays("cash,bob,5", "cash,bob,2")}),
]

BESIDE = [
    ("a joint account, and an owner who pays nothing", FROM + "Bob,Shop,5,Joint\n", ["--joint", "joint.csv"], {
        "book": book_of("bob,ann", "1,1", "joint,5,bob ann", "shop,0,"), "bob": pays("joint,shop,5"), "ann": ""}, JOINT, ""),
    ("a joint account that is paid back", FROM + "Ann,Shop,5,Joint\nBob,Joint,-2,Bob\n", ["--joint", "joint.csv", "--negative", "turn"], {
        "book": book_of("ann,bob", "1,1", "joint,7,ann bob", "shop,0,", "bob,0,bob"),
        "ann": pays("joint,shop,5"), "bob": pays("joint,bob,2")}, JOINT, ""),
    ("openings that are given", HEAD + "1,Ann,Bob,12.5\n", ["--openings", "open.csv"], {
        "book": book_of("ann", "1,1", "ann,1000,ann", "bob,725,"), "ann": pays("ann,bob,1250")},
        {"open.csv": "Ann,10\nBob,7.25\n"},
        "openings, as open.csv has them, and 0 of each other account:\n  ann 1000, of 1250 needed\n  bob 725\n"),
    ("openings of accounts that no payment names", FROM + "Ann,Shop,12.5,Joint\n", ["--joint", "joint.csv", "--openings", "open.csv"], {
        "book": book_of("ann,bob", "1,1", "joint,2000,ann bob", "shop,0,", "internet,3999,", "bob,0,bob"),
        "ann": pays("joint,shop,1250"), "bob": ""},
        JOINT | {"open.csv": "joint,20\ninternet,39.99\nbob,0\n"},
        "openings, as open.csv has them, and 0 of each other account:\n  joint 2000\n"
        "  internet 3999: no payment names it, and nobody owns it\n  bob 0: no payment names it, and bob owns it\n"),
    ("openings that are chosen are told", "payer,payee,amount,currency\nAnn,Bob,12.5,EUR\n", [], {
        "book": book_of("ann", "1,1", "ann,125,ann", "bob,0,"), "ann": pays("ann,bob,125")}, {},
        "1 payments, 1 processes, 2 accounts; amounts in units of 0.1 EUR\n"
        "openings, the least that cover the payments in this order, and 0 of each other account:\n  ann 125\n./bezglami kinds"),
    ("a bank's export", '"Buchungstag";"Auftraggeber";"Empfänger";"Verwendungszweck";"Betrag (€)";"Saldo (€)";"Währung"\r\n'
        '"02.01.2026";"Ann Müller";"REWE; Köln";"Einkauf ""Brot""";"-1.012,50";"87,50";"EUR"\r\n'
        '"03.01.2026";"Firma AG";"Ann Müller";"Lohn";"2.000,00";"2.087,50";"EUR"\r\n',
        ["--decimal", ",", "--thousands", ".", "--negative", "drop"], {
        "book": book_of("ann-muller,firma-ag", "1,1", "ann-muller,101250,ann-muller", "rewe-koln,0,", "firma-ag,200000,firma-ag"),
        "ann-muller": pays("ann-muller,rewe-koln,101250"), "firma-ag": pays("firma-ag,ann-muller,200000")}, {}, "units of 0.01 EUR\n"),
    ("a bank's statement with debit and credit",
        "Date,Account,Name,Counterparty,Debit,Credit\n1,Joint,Ann,Shop,20.00,\n2,Joint,Bob,Shop,0.00,5.00\n",
        ["--payer", "name", "--payee", "counterparty", "--joint", "joint.csv"], {
        "book": book_of("ann,shop,bob", "1,1", "joint,2000,ann bob", "shop,0,shop"), "ann": pays("joint,shop,2000"),
        "shop": pays("shop,joint,500"), "bob": ""}, JOINT, ""),
    ("a spreadsheet in German",
        "\ufeffDatum;Zahler;Empfänger;Betrag;Konto;;\r\n1.1.;Ann;Vermieter;1.200,00;Joint;;\r\n2.1.;Bob;Ann;9,5;;;\r\n;;;;;;\r\n",
        ["--decimal", ",", "--thousands", ".", "--joint", "joint.csv"], {
        "book": book_of("ann,bob", "1,1", "joint,120000,ann bob", "vermieter,0,", "bob,950,bob", "ann,0,ann"),
        "ann": pays("joint,vermieter,120000"), "bob": pays("bob,ann,950")}, JOINT, ""),
    ("hledger print -O csv", posted((1, "ann", "assets:joint", "-12.50"), (1, "ann", "expenses:food", "12.50"),
        (2, "bob", "expenses:food", "1"), (2, "bob", "expenses:fees", "0.25"), (2, "bob", "assets:bob", "-1.25")),
        ["--payer", "code", "--joint", "joint.csv"], {
        "book": book_of("ann,bob", "1,1", "assets-joint,1250,ann bob", "expenses-food,0,", "assets-bob,125,bob", "expenses-fees,0,"),
        "ann": pays("assets-joint,expenses-food,1250"), "bob": "pay,assets-bob,expenses-food,100,expenses-fees,25\n"},
        {"joint.csv": "assets:joint,ann bob\n"}, "units of 0.01 EUR\n"),
    ("hledger print -O csv, where each account pays", posted((1, "", "b:cash", "5"), (1, "", "a:cash", "-5")), [], {
        "book": book_of("a-cash", "1,1", "a-cash,5,a-cash", "b-cash,0,"), "a-cash": pays("a-cash,b-cash,5")}, {}, ""),
]

PLAIN = "an amount is digits with at most one decimal mark, and no currency or space: write it so"
NONE = ["", "5 EUR", "€5", "five", ".5", "5-", "٣"]
GERMAN = "payer;payee;amount\nAnn;Bob;"
ROUND = "it is negative: give --negative turn, by which the payee pays, or --negative drop"
LATER = "part the export by date, or give --full take, and later ones are full"
ALIKE = "spell them alike, or less alike"
MOST = 18446744073709551615


def unknown(heads, *kinds, count=0):
    """Heads of which none, or too many, are of these kinds."""
    why = "columns are known as {0}: give the head of one by --{0}, or another --separator"
    return [f'line 1: found "{heads}": {count} {why.format(kind)}' for kind in kinds]


def amount(text, why):
    """An amount of the first payment."""
    return [f'line 2: column amount: found "{text}": {why}']


REFUSED = [
    ("no payer's column", "date,who,payee,amount\n1,Ann,Bob,5\n", [], unknown("date who payee amount", "payer")),
    ("heads that are not there", HEAD + "1,Ann,Bob,5\n", ["--amount", "Sum", "--currency", "unit"],
        unknown("date payer payee amount", "amount", "currency")),
    ("two columns of one head", "payer,payee,amount,Amount\nAnn,Bob,5,6\n", [], unknown("payer payee amount Amount", "amount", count=2)),
    ("a debit alone", "payer,payee,debit\nAnn,Bob,5\n", [], unknown("payer payee debit", "credit")),
    ("two currencies", "payer,payee,amount,currency\nAnn,Bob,5,EUR\nAnn,Bob,5,USD\nAnn,Bob,5,\nAnn,Bob,5,USD\n", [], [
        f'line {line}: column currency: found "{found}": line 2 has "EUR": make an export for each currency'
        for line, found in ((3, "USD"), (4, ""))]),
    ("no payer, and no payee", "\n" + HEAD + "1,,Bob,5\n\n2,Ann, ,5\n", [], [
        'line 3: column payer: found "": write the payer, or take the line out',
        'line 5: column payee: found "": write the payee, or take the line out']),
    ("texts that are no amounts", HEAD + "".join(f"1,Ann,Bob,{text}\n" for text in NONE), [], [
        f'line {line}: column amount: found "{text}": {PLAIN}' for line, text in enumerate(NONE, 2)]),
    ("thousands", GERMAN + "1,234.50\n", [], amount("1,234.50", "give --thousands , if that parts thousands")),
    ("thousands beside decimal commas", GERMAN + "1.234,50\n", [],
        amount("1.234,50", "give --thousands . --decimal , if that parts thousands")),
    ("thousands without decimals", GERMAN + "1,234,567\n", [], amount("1,234,567", "give --thousands , if that parts thousands")),
    ("thousands by a quote", GERMAN + "1'234.5\n", [], amount("1'234.5", "give --thousands ''\"'\"'' if that parts thousands")),
    ("a decimal comma", GERMAN + "12,50\n", [], amount("12,50", "give --decimal , if that is the decimal mark")),
    ("a comma that may be either", GERMAN + "1,250\n", [],
        amount("1,250", "give --decimal , if that is the decimal mark, or give --thousands , if that parts thousands")),
    ("a negative amount", HEAD + "1,Ann,Bob,-5\n", [], amount("-5", ROUND)),
    ("a debit and a credit at once, none, and a negative one", PAIR + "Ann,Bob,5,6\nAnn,Bob,,0\nAnn,Bob,-5,\n", [], [
        'line 2: column debit: found "5": the other column has "6": write an amount in one of them',
        'line 3: column debit: found "": the other column has "0": write an amount in one of them',
        'line 4: column debit: found "-5": it is negative: write it in the other column']),
    ("more digits than decimals", HEAD + "1,Ann,Bob,1.205\n", ["--decimals", "2"],
        amount("1.205", "more than 2 digits are after the decimal mark: give more by --decimals")),
    ("an amount over 64 bits", HEAD + "1,Ann,Bob,184467440737095516.16\n", [],
        amount("184467440737095516.16", f"with 2 decimals it is over {MOST}, the most: correct it, or part it")),
    ("an amount of ten thousand digits", HEAD + f"1,Ann,Bob,{'9' * 10000}\n", [],
        amount("9" * 80, f"with 0 decimals it is over {MOST}, the most: correct it, or part it")),
    ("names that clash", HEAD + "1,Ann Müller,Bob,5\n2,ann-muller,BOB,5\n3,ann-muller,BOB,5\n", [], [
        f'line 3: column payer: found "ann-muller": its name is ann-muller, as that of "Ann Müller": {ALIKE}',
        f'line 3: column payee: found "BOB": its name is bob, as that of "Bob": {ALIKE}']),
    ("cut names that clash", HEAD + "1,Ann,Stadtwerke Bad Homburg,5\n2,Ann,Stadtwerke Bad Honnef,5\n", [], [
        'line 3: column payee: found "Stadtwerke Bad Honnef": its name is stadtwerke-bad-h, as that of '
        f'"Stadtwerke Bad Homburg": {ALIKE}']),
    ("names without a letter first", HEAD + "1,7Up,東京,5\n", [], [
        f'line 2: column {kind}: found "{text}": a name has a letter from a to z first: spell it so'
        for kind, text in (("payer", "7Up"), ("payee", "東京"))]),
    ("seventeen payers", HEAD + "".join(f"1,P{n},Shop,5\n" for n in range(17)), [], [
        'line 18: found "p16": 17 payers and owners, and 16 is the most: part the export, or spell several alike']),
    ("1,025 accounts", HEAD + "".join(f"1,Ann,S{n},5\n" for n in range(1024)), [], [
        'line 1025: found "s1023": 1025 accounts, and 1024 is the most: part the export, or spell several alike']),
    ("16,385 payments of one payer", HEAD + "1,Ann,Bob,5\n" * 16385, ["--full", "take"], [
        'line 2: found "ann": it makes 16385 payments, and 16384 is the most: part the export by date']),
    ("4,097 payments from own accounts", HEAD + "1,Ann,Bob,5\n" * 4097, [], [
        f'line 2: found "ann": it pays 4097 times from its own accounts, and has room for 4096: {LATER}']),
    ("a payer who is named as the book", HEAD + "1,Book,Bob,5\n", [], [
        'line 2: found "book": book.csv is the book: spell this payer otherwise']),
    ("two who pay from one account", FROM + "Ann,Shop,5,Kitty\nBob,Shop,5,Kitty\n", [], [
        'line 3: found "kitty": it is owned by ann, and bob pays from it: give --joint a file with a line "kitty,ann bob"']),
    ("one who pays from another's account", FROM + "Ann,Shop,5,Bob\nBob,Shop,5,\n", [], [
        'line 2: found "bob": it is owned by bob, and ann pays from it: give --joint a file with a line "bob,bob ann"']),
    ("fields too few and too many", HEAD + "1,Ann,Bob\n1,Ann,Bob,1,50\n", [], [
        f'line {line}: found "{found}": {count} fields are below 4 heads: quote a field that has the separator in it'
        for line, found, count in ((2, "1 Ann Bob", 3), (3, "1 Ann Bob 1 50", 5))]),
    ("a quote that doesn't end", HEAD + '1,Ann,Bob,5\n2,"Ann,Bob,5\n3,Ann,Bob,5\n', [], [
        'line 3: found "2,"Ann,Bob,5": unexpected end of data: end each quote, and write one within quotes twice']),
    ("bytes of another encoding", HEAD.encode() + "1,Ann,Müller,5\n".encode("cp1252"), [], [
        'line 2: found "fc": this byte is no utf-8-sig: give the encoding, as cp1252, by --encoding']),
    ("no encoding", HEAD, ["--encoding", "utf-99"], [": it can't be read: unknown encoding: utf-99"]),
    ("a head alone", HEAD, [], ['line 1: found "date payer payee amount": no payment is below it: write one']),
    ("an empty file", "", [], unknown("", "payer", "payee", "amount")),
    ("eleven faults, of which ten are told", HEAD + "1,Ann,Bob,-5\n" * 11, [], [
        f'line {line}: column amount: found "-5": {ROUND}' for line in range(2, 12)]),
    ("a payee's column beside one of transactions, which is left alone", "txnidx,account,payee,amount\n1,a,X,-5\n1,b,x,4\n", [], [
        'line 2: column txnidx: found "1": 1 accounts pay 1: write one that pays 1 to 4, all named, with a sum of 0']),
    ("openings over 64 bits together", HEAD + "1,Ann,Bob,18446744073709551615\n2,Carl,Bob,1\n", [], [
        f": the openings are more than {MOST} together: part the export"]),
    ("a transaction that doesn't add up, one where two pay, and one without an account",
        "txnidx,account,amount\n1,a,-5\n1,b,4\n2,a,-1\n2,c,-1\n2,b,2\n3,,-1\n3,b,1\n", [], [
        f'line {line}: column txnidx: found "{number}": {pay} accounts pay {paid}: write one that pays 1 to 4, all named, with a sum of 0'
        for line, number, pay, paid in ((2, 1, 1, 1), (4, 2, 2, 1), (7, 3, 1, 1))]),
]

SHARED = ("joint.csv", "--joint")
REFUSED_BESIDE = [
    ("a payer who isn't an owner", FROM + "Carl,Shop,5,Joint\n", *SHARED, "joint,ann bob\n", [
        'paid.csv: line 2: found "joint": it is owned by ann and bob, and carl pays from it: '
        'give --joint a file with a line "joint,ann bob carl"']),
    ("a joint account that nobody is told to pay from", "txnidx,account,amount\n1,Joint,-5\n1,Shop,5\n", *SHARED, "joint,ann bob\n", [
        'paid.csv: line 2: found "joint": it is owned by ann and bob, and no column tells who pays: give its head by --payer']),
    ("lines that are of no joint account", HEAD + "1,Ann,Bob,5\n", *SHARED, "joint,ann,bob\n\nkitty,ann bob\nkitty,ann\n", [
        f'joint.csv: line {line}: found "{text}": a line has an account, which has no other, and one field: write it so'
        for line, text in ((1, "joint,ann,bob"), (4, "kitty,ann"))]),
    ("owners that aren't", HEAD + "1,Ann,Bob,5\n", *SHARED, "a,ann ann\nb,\nc,1 2\nd,p q r s t u v w x\n", [
        f'joint.csv: line {line}: column 2: found "{text}": owners are 1 to 8 names with a space between two, each once: write them so'
        for line, text in enumerate(["ann ann", "", "1 2", "p q r s t u v w x"], 1)]),
    ("more payments from a joint account than there is room for", FROM + "Ann,Shop,5,Joint\n" * 1025, *SHARED, "joint,ann bob\n", [
        f'paid.csv: line 2: found "ann": it pays 1025 times from joint, and has room for 1024: {LATER}']),
    ("many owners, who have less room", FROM + "Ann,Shop,5,Joint\n" * 513, *SHARED, "joint,ann b c d e f g h\nother,ann b c d e f g h\n", [
        f'paid.csv: line 2: found "ann": it pays 513 times from joint, and has room for 512: {LATER}']),
    ("openings below 0", HEAD + "1,Ann,Bob,5\n", "open.csv", "--openings", "Carl,5\nann,-1\n", [
        'open.csv: line 2: column 2: found "-1": ann opens below 0: correct the line']),
    ("openings of more accounts than a book has", HEAD + "1,Ann,Bob,5\n", "open.csv", "--openings", "".join(f"a{i},0\n" for i in range(1024)), [
        'open.csv: line 1023: column 2: found "0": a1022 is one account more than 1024, the most: take lines out']),
    ("an opening that is no amount", HEAD + "1,Ann,Bob,5\n", "open.csv", "--openings", "ann,much\n", [
        f'open.csv: line 1: column 2: found "much": {PLAIN}']),
    ("openings over 64 bits", HEAD + "1,Ann,Bob,5\n", "open.csv", "--openings", "ann,18446744073709551615\nbob,1\n", [
        f"open.csv: the openings are more than {MOST} together: part the export"]),
]


def large():
    """200,000 payments of sixteen payers, each with more than there is room for. Eight own an account."""
    for number in range(200000):
        yield f"Person {chr(97 + number % 16)},Shop {number % 900},{number % 97}.{number % 10}5,{'Joint' if number % 50 == 0 else ''}\n"


def largest(folder):
    """They are taken in time, and each of them stands in a file."""
    put(folder, FROM + "".join(large()), {"joint.csv": "joint,person-a person-c person-e person-g person-i person-k person-m person-o\n"})
    began = time.monotonic()
    answer = imports(folder, "paid.csv", "--to", "made", "--joint", "joint.csv", "--full", "take")
    took = time.monotonic() - began
    expect(answer, 0, answer.out, b"")
    is_true(took < MOST_SECONDS, f"it took {took:.0f} seconds")
    written = {path.stem: path.read_text("ascii").count("\n") for path in (folder.path / "made").iterdir()}
    is_true(len(written) == 17 and sum(written.values()) - written["book"] == 200000 + 16, f"it makes {written}")
    takes(folder, answer.out)
    return f"{took:.1f} seconds"


def example(folder, name, *words):
    """An export of the example makes what stands beside it, and what the commands that it tells print of that stands there too."""
    words = ["--joint", "export/joint.csv", "--openings", "export/openings.csv", *words]
    answer = imports(folder, f"export/{name}.csv", "--to", "made", *words)
    expect(answer, 0, answer.out, b"")
    for path in (EXAMPLES / "export" / "made").iterdir():
        same(folder.read(f"made/{path.name}"), path.read_bytes())
    takes(folder, answer.out)
    if PATHS["at_program"].exists():
        for line in answer.out.decode().splitlines()[-3:]:
            command, *files = shlex.split(line)[1:]
            printed(folder.run(command, *files), (EXAMPLES / "export" / f"export.{command}").read_bytes())


def covers(folder):
    """Of exports that are drawn: with the least openings no payment is short or full in the order of the export, and with one unit less in
    any account some payment is short."""
    draw = random.Random(1)
    folder.write("joint.csv", "joint,ann bob carl\n")
    for number in range(10):
        rows = []
        for _ in range(draw.randint(1, 30)):
            payer = draw.choice(["ann", "bob", "carl", "dan"])
            source = draw.choice(["", "joint", f"{payer}-cash"] if payer != "dan" else ["", "dan-cash"])
            rows.append((payer, draw.choice(["ann", "bob", "joint", "ann-cash", "dan-cash", "shop"]), draw.randint(0, 20), source))
        folder.write("paid.csv", FROM + lines(*(",".join(map(str, row)) for row in rows)))
        answer = imports(folder, "paid.csv", "--to", f"made{number}", "--joint", "joint.csv")
        expect(answer, 0, answer.out, b"")
        book = model.read_book(folder.read(f"made{number}/book.csv").decode())
        files = [model.read_file(book, folder.read(f"made{number}/{name}.csv").decode()) for name in book.processes]
        order = [book.processes.index(payer) for payer, *_ in rows]
        is_true({line.answer for line in model.play(book, files, order)[0]} == {"done"}, f"of {rows} not all are done")
        for i, account in enumerate(book.accounts):
            if account.opening:
                accounts = [*book.accounts[:i], account._replace(opening=account.opening - 1), *book.accounts[i + 1 :]]
                answers = {line.answer for line in model.play(book._replace(accounts=accounts), files, order)[0]}
                is_true("short" in answers, f"of {rows} {account.name} opens with more than the least")


def guide(folder):
    """The words of docs/formats.md make what is said there."""
    (folder.path / "examples").symlink_to(EXAMPLES)
    text = (ROOT / "docs" / "formats.md").read_text("utf-8")
    words = next(line for line in text.splitlines() if line.startswith("./bezglami import ")).split()[1:]
    answer = folder.run(*words, program=ROOT / "bezglami")
    expect(answer, 0, answer.out, b"")
    is_true(f"```\n{answer.out.decode()}```\n" in text, f"it says {answer.out!r}")


JOURNAL = """2026-01-02 * (ann) Flat | rent
    assets:joint      -600.00 EUR
    expenses:rent

2026-01-03 (bob) shop
    assets:bob:cash    -12.50 EUR
    expenses:food       10.00 EUR
    expenses:fees
"""


def by_hledger(folder):
    """What hledger itself writes of a journal is taken."""
    if not shutil.which("hledger"):
        folder.missing.add("an export by hledger itself, which isn't there")
        return
    written = ["hledger", "-f", folder.path / folder.write("paid.journal", JOURNAL), "print", "-x", "-O", "csv"]
    export = subprocess.run(written, check=True, capture_output=True).stdout
    makes(folder, export, ["--payer", "code", "--joint", "joint.csv"], {
        "book": book_of("ann,bob", "1,1", "assets-joint,60000,ann bob", "expenses-rent,0,", "assets-bob-cash,1250,bob",
            "expenses-food,0,", "expenses-fees,0,"),
        "ann": pays("assets-joint,expenses-rent,60000"),
        "bob": "pay,assets-bob-cash,expenses-food,1000,expenses-fees,250\n",
    }, {"joint.csv": "assets:joint,ann bob\n"})


def by_script(folder):
    """The script at the root runs it, in the folder where it is called, and passes its status on."""
    folder.write("paid.csv", HEAD + "1,Ann,Bob,5\n")
    words = ["import", "paid.csv", "--to", "a folder"]
    answer = folder.run(*words, program=ROOT / "bezglami")
    expect(answer, 0, answer.out, b"")
    is_true(answer.out.endswith(b"./bezglami orders 'a folder/book.csv' 'a folder/ann.csv'\n"), f"it says {answer.out!r}")
    line = "a folder: it is there, and isn't an empty folder: give another by --to\n"
    expect(folder.run(*words, program=ROOT / "bezglami"), 1, b"", line.encode())


def without(folder):
    """Without an export, a folder, or words that are known, nothing is written. An empty folder is taken; one that can't be made isn't."""
    folder.write("paid.csv", HEAD + "1,Ann,Bob,5\n")
    expect(imports(folder, "none.csv", "--to", "made"), 1, b"", b"none.csv: it can't be read: No such file or directory\n")
    whole = ["paid.csv", "--to", "made"]
    for words in (whole[:1], whole[1:], [*whole, "--deci", "2"], [*whole, "--negative", "up"], [*whole, "--decimals", "20"]):
        is_true(imports(folder, *words).status == 2, f"{words} are taken")
    same_mark = imports(folder, "paid.csv", "--to", "made", "--thousands", ".")
    expect(same_mark, 1, b"", b"--thousands .: the decimal mark is the same: give another by --decimal\n")
    expect(imports(folder, "paid.csv", "--to", "paid.csv/made"), 1, b"", b"paid.csv/made: it can't be written: Not a directory\n")
    is_true(not (folder.path / "made").exists(), "it makes the folder")
    (folder.path / "made").mkdir()
    is_true(imports(folder, "paid.csv", "--to", "made").status == 0, "an empty folder isn't taken")


def cases():
    """The cases."""
    for name, content, words in SPELLINGS:
        yield Case(f"spelled with {name}", makes, content, [word.encode() for word in words], ONCE)
    for name, content, words, wanted in MADE:
        yield Case(name, makes, content, words, wanted)
    for name, content, words, wanted, beside, told in BESIDE:
        yield Case(name, makes, content, words, wanted, beside, told)
    for name, content, words, told in REFUSED:
        told = [f"paid.csv{'' if line[0] == ':' else ': '}{line}" for line in told]
        yield Case(f"refused: {name}", refuses, content, words, told)
    for name, content, file, word, text, told in REFUSED_BESIDE:
        yield Case(f"refused: {name}", refuses, content, [word, file], told, {file: text})
    yield Case("200,000 payments", largest)
    yield Case("the least openings of drawn exports", covers)
    yield Case("the example", example, "payments")
    yield Case("the example in German", example, "zahlungen", "--decimal", ",", "--thousands", ".")
    yield Case("the guide", guide)
    yield Case("what hledger writes", by_hledger)
    yield Case("by the script", by_script)
    yield Case("words and folders", without)
