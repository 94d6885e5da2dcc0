#!/usr/bin/env python3
"""Makes a book and a payment file for each payer from an export of payments: a CSV file with a head, and a line for each payment.

docs/formats.md is its guide, and has the forms and limits of what it makes. Where it refuses anything it writes nothing.
"""

import argparse
import csv
import io
import re
import shlex
import sys
import unicodedata
from collections import Counter, namedtuple
from itertools import groupby
from pathlib import Path

MOST_FAULTS, MOST_PROCESSES, MOST_ACCOUNTS, MOST_OWNERS, MOST_CALLS, MOST_TARGETS, NAME_BYTES = 10, 16, 1024, 8, 16384, 4, 16
OWN_ROOM, REQUEST_ROOM, MOST_ROUNDS, LARGEST = 4096, 1024, 8192, 2**64 - 1
NAME = re.compile(f"[a-z][a-z0-9-]{{0,{NAME_BYTES - 1}}}")
# The usual heads of each column, the likeliest first. A word `--payer` and so on gives another.
HEADS = {
    "payer": "payer, paid by, from, sender, zahler, bezahlt von, gezahlt von, auftraggeber, von",
    "payee": "payee, paid to, to, recipient, beneficiary, empfänger, zahlungsempfänger, begünstigter, bezahlt an, an",
    "amount": "amount, sum, value, betrag, umsatz, summe, wert",
    "from": "account, from account, paid from, konto, von konto",
    "currency": "currency, commodity, währung, waehrung",
    "debit": "debit, paid out, money out, soll, belastung, ausgang, ausgabe",
    "credit": "credit, paid in, money in, haben, gutschrift, eingang, einnahme",
    "transaction": "txnidx",
}
LETTERS = str.maketrans({"æ": "ae", "œ": "oe", "ø": "o", "ł": "l", "đ": "d", "ð": "d", "þ": "th", "ı": "i"})
# What a field spells, and where: its digits before and after the decimal mark.
Amount = namedtuple("Amount", "place text negative whole part")
# The payer makes it, or else whoever owns the source. Targets are pairs of an account and a number of units.
Payment = namedtuple("Payment", "line payer is_told source targets")


class Faults(Exception):
    """What can't be taken, a line for each fault."""
    told = ()

    def add(self, place, found, why):
        """Notes a fault by its place (file, line and column), what was found there, and what to do. The last one ends the work."""
        file, line, column = place
        self.told += (f'{file}: line {line}: {f"column {column}: " if column else ""}found "{" ".join(found.split())[:80]}": {why}',)
        if len(self.told) == MOST_FAULTS:
            raise self

    def end(self, *told):
        """Ends the work if there is a fault, or with these."""
        self.told += told
        if self.told:
            raise self


def name_of(text):
    """A text as a name: small letters without marks, digits, and one `-` for what is between them."""
    plain = unicodedata.normalize("NFKD", text.casefold().translate(LETTERS)).lower()
    plain = re.sub("[^a-z0-9]+", "-", "".join(letter for letter in plain if not unicodedata.combining(letter)))
    return plain.strip("-")[:NAME_BYTES].rstrip("-")


class Export:
    """An export, the files beside it, and the payments that it tells. A row has the texts of a line by the kinds of their columns."""

    def __init__(self, asked, faults):
        self.asked, self.faults = asked, faults
        grouped = rf"[0-9]{{1,3}}(?:{re.escape(asked.thousands)}[0-9]{{3}})+|" if asked.thousands else ""
        self.form = re.compile(rf"([+-]?)({grouped}[0-9]+)(?:{re.escape(asked.decimal)}([0-9]+))?")
        self.joint, self.openings = self.read_joint(), {name: self.amount_of(*pair) for name, pair in self.pairs(asked.openings).items()}
        self.rows = self.read_rows()

    def records(self, path, separator=None):
        """The records that aren't blank, each with the number of its first line. The first tells the separator, where none is given."""
        try:
            text, line = Path(path).read_bytes().decode(self.asked.encoding), 1
            first = re.sub(r'"[^"]*"', "", next(iter(text.lstrip()[:100000].splitlines()), ""))
            reader = csv.reader(io.StringIO(text, newline=""), delimiter=separator or max(",;\t", key=first.count), strict=True)
            for fields in reader:
                if any(map(str.strip, fields)):
                    yield line, [field.strip() for field in fields]
                line = reader.line_num + 1
        except csv.Error as fault:
            self.faults.add((path, line, ""), text.split("\n")[line - 1], f"{fault}: end each quote, and write one within quotes twice")
        except UnicodeDecodeError as fault:
            line, found = fault.object[: fault.start].count(b"\n") + 1, f"{fault.object[fault.start]:02x}"
            self.faults.add((path, line, ""), found, f"this byte is no {self.asked.encoding}: give the encoding, as cp1252, by --encoding")
        except (OSError, LookupError, UnicodeError) as fault:
            self.faults.end(f"{path}: it can't be read: {getattr(fault, 'strerror', fault)}")
        self.faults.end()

    def pairs(self, path):
        """The second fields of a file that has an account and one more field in each line, with their places."""
        found = {}
        for line, fields in self.records(path) if path else []:
            name = name_of(fields[0])
            if len(fields) != 2 or name in found or not NAME.fullmatch(name):
                self.faults.add((path, line, ""), ",".join(fields), "a line has an account, which has no other, and one field: write it so")
            found[name] = (path, line, 2), fields[-1]
        self.faults.end()
        return found

    def read_joint(self):
        """The owners of each joint account."""
        joint = {}
        for account, (place, text) in self.pairs(self.asked.joint).items():
            owners = joint[account] = [name_of(owner) for owner in text.split()]
            if not all(map(NAME.fullmatch, owners)) or not 1 <= len(set(owners)) == len(owners) <= MOST_OWNERS:
                self.faults.add(place, text, f"owners are 1 to {MOST_OWNERS} names with a space between two, each once: write them so")
        return joint

    def amount_of(self, place, text):
        """The amount that a text spells, or else nothing."""
        found = self.form.fullmatch(text)
        if found:
            whole, part = re.sub("[^0-9]", "", found[2]), found[3] or ""
            return Amount(place, text, found[1] == "-" and (whole + part).strip("0") != "", whole, part)
        marks = re.findall("[^0-9]", text.lstrip("+-"))
        why = "an amount is digits with at most one decimal mark, and no currency or space: write it so"
        if re.fullmatch(r"[+-]?[0-9]+([^0-9+-][0-9]+)+", text):
            first, last = shlex.quote(marks[0]), shlex.quote(marks[-1])
            why = f"give --thousands {first}{f' --decimal {last}' * (last not in (first, self.asked.decimal))} if that parts thousands"
            if len(marks) == 1 and first != self.asked.decimal:
                why = f"give --decimal {first} if that is the decimal mark" + f", or {why}" * (text[-4:-3] == marks[0])
        return self.faults.add(place, text, why)

    def units_of(self, amount, decimals):
        """How many of the least units an amount is, below 0 where it is negative. Nothing is rounded."""
        digits = (amount.whole + amount.part[:decimals].ljust(decimals, "0")).lstrip("0") or "0"
        if amount.part[decimals:].strip("0"):
            self.faults.add(amount.place, amount.text, f"more than {decimals} digits are after the decimal mark: give more by --decimals")
        elif len(digits) > 20 or int(digits) > LARGEST:
            self.faults.add(amount.place, amount.text, f"with {decimals} decimals it is over {LARGEST}, the most: correct it, or part it")
        else:
            return -int(digits) if amount.negative else int(digits)
        return 0

    def read_rows(self):
        """The rows of the export, all of one currency."""
        path, rows = self.asked.export, []
        found = self.records(path, {"tab": "\t"}.get(self.asked.separator, self.asked.separator))
        self.line, self.head = next(found, (1, []))
        self.columns = self.find_columns()
        for line, fields in found:
            if len(fields) <= max(self.columns.values()) or any(fields[len(self.head) :]):
                why = f"{len(fields)} fields are below {len(self.head)} heads: quote a field that has the separator in it"
                self.faults.add((path, line, ""), " ".join(fields), why)
            else:
                rows.append({"line": line} | {kind: fields[place] for kind, place in self.columns.items()})
        if not rows:
            self.faults.add((path, self.line, ""), " ".join(self.head), "no payment is below it: write one")
        for row in sorted({row.get("currency"): row for row in reversed(rows)}.values(), key=lambda row: row["line"]):
            if row.get("currency") != rows[0].get("currency"):
                self.fault(row, "currency", f'line {rows[0]["line"]} has "{rows[0]["currency"]}": make an export for each currency')
        self.faults.end()
        return rows[:: -1 if self.asked.newest else 1]

    def fault(self, row, kind, why):
        """Notes a fault of a row's field."""
        self.faults.add((self.asked.export, row["line"], self.head[self.columns[kind]]), row[kind], why)

    def find_columns(self):
        """The number of each column that is read. Lines of one transaction have an account each, and other lines a payer and a payee."""
        asked, columns, heads = vars(self.asked), {}, [text.casefold() for text in self.head]
        for kind, usual in HEADS.items():
            names = usual.split(", ") if asked[kind] is None else [asked[kind].strip().casefold()]
            found = [[i for i, head in enumerate(heads) if name in (head, head.partition(" (")[0])] for name in names]
            columns[kind] = next(filter(None, found), [])
        is_plain = not columns["transaction"] or asked["payee"] and not asked["transaction"]
        columns["transaction" if is_plain else "payee"] = []
        is_pair = asked["debit"] or asked["credit"] or not columns["amount"] and (columns["debit"] or columns["credit"])
        columns |= {"amount": []} if is_pair else {"debit": [], "credit": []}
        needed = [*(["payer", "payee"] if is_plain else ["from"]), *(["debit", "credit"] if is_pair else ["amount"])]
        for kind, places in columns.items():
            if len(places) > 1 or not places and (kind in needed or asked[kind]):
                why = f"{len(places)} columns are known as {kind}: give the head of one by --{kind}, or another --separator"
                self.faults.add((self.asked.export, self.line, ""), " ".join(self.head), why)
        self.faults.end()
        return {kind: places[0] for kind, places in columns.items() if places}

    def amount(self, row):
        """The amount of a row, or nothing. That of a credit is negative."""
        kinds = [kind for kind in ("amount", "debit", "credit") if kind in row and (kind == "amount" or row[kind].strip("0.,"))]
        if len(kinds) != 1:
            return self.fault(row, "debit", f'the other column has "{row["credit"]}": write an amount in one of them')
        amount = self.amount_of((self.asked.export, row["line"], self.head[self.columns[kinds[0]]]), row[kinds[0]])
        if amount and amount.negative and kinds != ["amount"]:
            self.fault(row, kinds[0], "it is negative: write it in the other column")
        elif amount and amount.negative and not (self.asked.negative or "transaction" in row):
            self.fault(row, "amount", "it is negative: give --negative turn, by which the payee pays, or --negative drop")
        return amount and amount._replace(negative=kinds == ["credit"] or amount.negative and self.asked.negative != "drop")

    def name_rows(self):
        """Puts names in place of spellings. Each spelling is looked at where it comes first."""
        names, spellings = {"": ""}, {}
        for row in self.rows:
            for kind in [kind for kind in ("payer", "payee", "from") if kind in row]:
                text, plain = row[kind], " ".join(row[kind].split())
                if text not in names:
                    name = names[text] = name_of(text)
                    if not NAME.fullmatch(name):
                        self.fault(row, kind, "a name has a letter from a to z first: spell it so")
                    elif spellings.setdefault(name, plain) != plain:
                        self.fault(row, kind, f'its name is {name}, as that of "{spellings[name]}": spell them alike, or less alike')
                elif not text and kind != "from" and "transaction" not in row:
                    self.fault(row, kind, f"write the {kind}, or take the line out")
                row[kind] = names[text]
        self.faults.end()

    def payments(self, units):
        """The payments. One of a negative amount is turned round. Rows of one transaction are a payment from the account that loses."""
        if "transaction" not in self.columns:
            for row, amount in zip(self.rows, units):
                source, payee = row.get("from") or row["payer"], row["payee"]
                ends = (payee, [(source, -amount)]) if amount < 0 else (source, [(payee, amount)])
                yield Payment(row["line"], row["payer"], amount >= 0, *ends)
            return
        for _, group in groupby(zip(self.rows, units), key=lambda pair: pair[0]["transaction"]):
            rows, amounts = zip(*group)
            targets = [(row["from"], amount) for row, amount in zip(rows, amounts) if amount >= 0]
            sources = [row["from"] for row, amount in zip(rows, amounts) if amount < 0]
            if len(sources) == 1 and 1 <= len(targets) <= MOST_TARGETS and sum(amounts) == 0 and all(row["from"] for row in rows):
                payer = next((row["payer"] for row in rows if row.get("payer")), "")
                yield Payment(rows[0]["line"], payer, payer != "", sources[0], targets)
            else:
                why = f"{len(sources)} accounts pay {len(targets)}: write one that pays 1 to {MOST_TARGETS}, all named, with a sum of 0"
                self.fault(rows[0], "transaction", why)


class Book:
    """The book of some payments: who makes each of them, who owns each account, both rooms and the openings."""

    def __init__(self, asked, payments, joint, faults):
        self.asked, self.payments, self.faults = asked, payments, faults
        self.makers, self.owners = self.find_makers(joint)
        self.keys = [(maker, p.source if len(self.owners[p.source]) > 1 else "") for p, maker in zip(payments, self.makers)]
        self.processes, self.accounts = self.list_all(joint)
        self.rooms = self.find_rooms(joint)
        self.openings = self.least = self.least_openings()
        self.unnamed = set()

    def fault(self, line, found, why):
        """Notes a fault of a line."""
        self.faults.add((self.asked.export, line, ""), found, why)

    def find_makers(self, joint):
        """Who makes each payment, and who owns each account: whoever pays from it. Only an account of the joint file has several owners."""
        people = [payment.payer for payment in self.payments if payment.is_told] + [owner for owners in joint.values() for owner in owners]
        owners, makers = {name: [name] for name in people} | joint, [""] * len(self.payments)
        for place, payment in sorted(enumerate(self.payments), key=lambda pair: not pair[1].is_told):
            has = owners.setdefault(payment.source, [payment.payer if payment.is_told else payment.source])
            maker = makers[place] = payment.payer if payment.is_told or len(has) > 1 else has[0]
            if maker not in has:
                why = f'{maker} pays from it: give --joint a file with a line "{payment.source},{" ".join([*has, maker])}"'
                why = why if maker else "no column tells who pays: give its head by --payer"
                self.fault(payment.line, payment.source, f"it is owned by {' and '.join(has)}, and {why}")
        self.faults.end()
        return makers, owners

    def list_all(self, joint):
        """The processes and the accounts, with the lines where they come first."""
        processes, accounts, last = {}, {}, self.payments[-1].line
        for payment, maker in zip(self.payments, self.makers):
            processes.setdefault(maker, payment.line)
            for account in [payment.source, *(target for target, _ in payment.targets)]:
                accounts.setdefault(account, payment.line)
        accounts = dict.fromkeys(joint, last) | accounts
        processes |= {owner: last for owners in joint.values() for owner in owners if owner not in processes}
        for found, most, what in ((processes, MOST_PROCESSES, "payers and owners"), (accounts, MOST_ACCOUNTS, "accounts")):
            for name in list(found)[most : most + 1]:
                self.fault(found[name], name, f"{len(found)} {what}, and {most} is the most: part the export, or spell several alike")
        for maker, number in Counter(self.makers).items():
            if number > MOST_CALLS:
                self.fault(processes[maker], maker, f"it makes {number} payments, and {MOST_CALLS} is the most: part the export by date")
        if "book" in processes:
            self.fault(processes["book"], "book", "book.csv is the book: spell this payer otherwise")
        self.faults.end()
        return processes, accounts

    def find_rooms(self, joint):
        """The rooms of own and of joint accounts."""
        seats = sum(len(owners) for owners in joint.values() if len(owners) > 1)
        most, needed = [OWN_ROOM, min(REQUEST_ROOM, MOST_ROUNDS // max(1, seats))], [1, 1]
        for (maker, source), number in Counter(self.keys).items():
            is_joint = bool(source)
            needed[is_joint] = max(needed[is_joint], number)
            if number > most[is_joint] and not self.asked.full:
                why = f"it pays {number} times from {source or 'its own accounts'}, and has room for {most[is_joint]}"
                self.fault(self.processes[maker], maker, f"{why}: part the export by date, or give --full take, and later ones are full")
        self.faults.end()
        return list(map(min, most, needed))

    def least_openings(self):
        """The least openings by which no payment that finds room is short in the order of the export."""
        balances, least, used = Counter(), Counter(), Counter()
        for payment, key in zip(self.payments, self.keys):
            used[key] += 1
            if used[key] <= self.rooms[key[1] != ""]:
                balances[payment.source] -= sum(amount for _, amount in payment.targets)
                least[payment.source] = max(least[payment.source], -balances[payment.source])
                for target, amount in payment.targets:
                    balances[target] += amount
        return least

    def open_with(self, openings):
        """Takes the openings of a file, if there is one, in place of the least. An account there that no payment names is one more."""
        for name, (amount, units) in openings.items():
            if name not in self.accounts:
                self.accounts[name] = self.payments[-1].line
                self.unnamed.add(name)
                if len(self.accounts) == MOST_ACCOUNTS + 1:
                    self.faults.add(amount.place, amount.text, f"{name} is one account more than {MOST_ACCOUNTS}, the most: take lines out")
            if units < 0:
                self.faults.add(amount.place, amount.text, f"{name} opens below 0: correct the line")
        if self.asked.openings:
            self.openings = Counter({name: units for name, (_, units) in openings.items()})
        if sum(self.openings.values()) > LARGEST:
            self.faults.end(f"{self.asked.openings or self.asked.export}: the openings are more than {LARGEST} together: part the export")
        self.faults.end()

    def texts(self):
        """The text of each file."""
        lines = {"book": ["book,2", ",".join(["processes", *self.processes]), f"limits,{self.rooms[0]},{self.rooms[1]}"]}
        lines |= {name: [f"process,{name}"] for name in self.processes}
        for name in self.accounts:
            owners = " ".join(process for process in self.processes if process in self.owners.get(name, []))
            lines["book"].append(f"account,{name},{self.openings[name]},{owners}")
        for payment, maker in zip(self.payments, self.makers):
            pairs = ",".join(f"{target},{amount}" for target, amount in payment.targets)
            lines[maker].append(f"{'pay' if len(payment.targets) > 1 else 'transfer'},{payment.source},{pairs}")
        return {f"{name}.csv": "".join(f"{line}\n" for line in file) for name, file in lines.items()}

    def told(self, unit):
        """What is said of it at the end."""
        yield f"{len(self.payments)} payments, {len(self.processes)} processes, {len(self.accounts)} accounts; amounts in units of {unit}"
        chosen = f"as {self.asked.openings} has them" if self.asked.openings else "the least that cover the payments in this order"
        yield f"openings, {chosen}, and 0 of each other account:"
        for name in self.accounts:
            if self.openings[name] or self.least[name] or name in self.unnamed:
                lacks = f", of {self.least[name]} needed" * (self.openings[name] < self.least[name])
                named = f': no payment names it, and {self.owners.get(name, ["nobody"])[0]} owns it' * (name in self.unnamed)
                yield f"  {name} {self.openings[name]}{lacks}{named}"
        files = shlex.join(str(self.asked.to / f"{name}.csv") for name in ["book", *self.processes])
        yield from (f"./bezglami {command} {files}" for command in ("kinds", "needs", "orders"))

    def write(self):
        """Writes the files, all of them or none."""
        written = []
        try:
            self.asked.to.mkdir(parents=True, exist_ok=True)
            for name, text in self.texts().items():
                written.append(self.asked.to / name)
                written[-1].write_text(text, "ascii")
        except OSError as fault:
            for path in written:
                path.unlink(missing_ok=True)
            self.faults.end(f"{self.asked.to}: it can't be written: {fault.strerror}")


def make(asked, faults):
    """Makes the files, and gives what is said at the end."""
    if asked.thousands == asked.decimal:
        faults.end(f"--thousands {asked.thousands}: the decimal mark is the same: give another by --decimal")
    if asked.to.exists() and not (asked.to.is_dir() and not any(asked.to.iterdir())):
        faults.end(f"{asked.to}: it is there, and isn't an empty folder: give another by --to")
    export = Export(asked, faults)
    amounts = [export.amount(row) for row in export.rows]
    export.name_rows()
    decimals = max(len(amount.part) for amount in [*amounts, *export.openings.values()]) if asked.decimals is None else asked.decimals
    units = [export.units_of(amount, decimals) for amount in amounts]
    openings = {name: (amount, export.units_of(amount, decimals)) for name, amount in export.openings.items()}
    faults.end()
    book = Book(asked, list(export.payments(units)), export.joint, faults)
    book.open_with(openings)
    book.write()
    return book.told(f"{10**-decimals:.{decimals}f} {export.rows[0].get('currency', '')}".strip())


def parse(words):
    """The words of the command line. docs/formats.md tells of each."""
    parser = argparse.ArgumentParser(prog="bezglami import", allow_abbrev=False, description="Makes a book and payment files of an export.")
    parser.add_argument("export", metavar="EXPORT")
    parser.add_argument("--to", required=True, metavar="FOLDER", type=Path)
    for word in [*HEADS, "joint", "openings", "thousands", "encoding"]:
        parser.add_argument(f"--{word}")
    chosen = {"negative": ["turn", "drop"], "full": ["take"], "newest": ["first"], "separator": [*",;|", "tab"], "decimal": [*".,"]}
    for word, choices in chosen.items():
        parser.add_argument(f"--{word}", choices=choices)
    parser.add_argument("--decimals", type=int, choices=range(20), metavar="NUMBER")
    parser.set_defaults(decimal=".", encoding="utf-8-sig")
    return parser.parse_args(words)


def main(words):
    """Makes the files that the words ask for, and gives the status."""
    sys.stdout.reconfigure(errors="backslashreplace")
    try:
        print(*make(parse(words), Faults()), sep="\n")
    except Faults as faults:
        print(*faults.told, sep="\n", file=sys.stderr)
        return 1
    return 0


if __name__ == "__main__":
    sys.exit(main(sys.argv[1:]))
