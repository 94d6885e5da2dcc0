#!/usr/bin/env python3
"""Tries the built programs on the tables of cases in `tables/`, as many at once as there are processors.

    cases.py [TABLE [WORD]]    all tables, one of them, or of that the cases with this word in their names
        --program PATH         the programs that are tried are crates/at_program/out/at_program and crates/at_example/out/at_example,
        --example PATH         where no other is named
        --list                 only prints the names of the cases

A table NAME is the rows of `tables/NAME.txt`, the cases that `tables/NAME.py` makes, or both. `tables/numbers.txt` says how many cases it
has: another number fails. A line for each case, then what couldn't be tried here, and last 'N passed, M failed'.
"""

import argparse
import importlib
import multiprocessing
import os
import sys
import tempfile
from pathlib import Path

sys.dont_write_bytecode = True
from tables import reading, shim, trying  # noqa: E402

TABLES = Path(__file__).resolve().parent / "tables"
CASES = []


def tables():
    """The tables, with how many cases each has to have."""
    numbers = dict(line.split() for line in reading.read_lines("numbers"))
    there = {path.stem for path in TABLES.glob("*.txt")} - {"numbers", "texts"}
    there |= {path.stem for path in TABLES.glob("*.py") if "\ndef cases():" in path.read_text("utf-8")}
    if there != set(numbers):
        sys.exit(f"cases.py: numbers.txt and the folder have different tables: {' '.join(sorted(there ^ set(numbers)))}")
    return {table: int(number) for table, number in numbers.items()}


def cases_of(table):
    """The cases of a table."""
    made = list(reading.cases(table)) if (TABLES / f"{table}.txt").exists() else []
    if (TABLES / f"{table}.py").exists():
        made += importlib.import_module(f"tables.{table}").cases()
    return made


def try_case(number):
    """Tries a case: a word for how it ended, its line, and what it would have needed besides."""
    table, case = CASES[number]
    name = f"{table}: {case.name}"
    with tempfile.TemporaryDirectory() as path:
        folder = trying.Folder(path)
        try:
            note = case.tries(folder, *case.given)
            return "passed", f"ok: {name}" + (f": {note}" if note else ""), folder.missing
        except trying.Untried as want:
            return "untried", f"not tried: {name}", {str(want)}
        except Exception as fault:  # whatever a wrong output leads to in the code that reads it
            told = str(fault) if isinstance(fault, trying.Failed) else repr(fault)
            return "failed", f"FAILED: {name}: {told}", folder.missing


def try_all():
    """Tries all cases, and gives the status."""
    ended = {"passed": 0, "failed": 0, "untried": 0}
    missing = set()
    with multiprocessing.get_context("fork").Pool(os.cpu_count()) as pool:
        for how, line, wants in pool.imap(try_case, range(len(CASES))):
            print(line, flush=True)
            ended[how] += 1
            missing |= wants
    for want in sorted(missing):
        print(f"not tried here: {want}")
    if ended["untried"]:
        print(f"not tried: {ended['untried']} cases")
    return ended


def gather(asked):
    """Puts the cases that are asked for into CASES, and gives how many tables have a wrong number of them."""
    wrong = 0
    for table, number in tables().items():
        if asked.table not in (None, table):
            continue
        made = cases_of(table)
        if len(made) != number:
            print(f"FAILED: {table}: {len(made)} cases, where numbers.txt says {number}")
            wrong += 1
        CASES.extend((table, case) for case in made if not asked.word or asked.word in case.name)
    return wrong


def main():
    """Reads the words, and tries what they ask for."""
    parser = argparse.ArgumentParser(description="Tries the built programs on tables of cases.")
    for name in ("table", "word"):
        parser.add_argument(name, nargs="?")
    for name, program in (("--program", "at_program"), ("--example", "at_example")):
        parser.add_argument(name, default=trying.PATHS[program], dest=program)
    parser.add_argument("--list", action="store_true")
    asked = parser.parse_args()
    wrong = gather(asked)
    if asked.list:
        print(*(f"{table}: {case.name}" for table, case in CASES), sep="\n")
        return 0
    if not CASES:
        sys.exit("cases.py: no such case")
    for program in ("at_program", "at_example"):
        trying.PATHS[program] = Path(getattr(asked, program)).resolve()
    with tempfile.TemporaryDirectory() as path:
        shim.build(path)
        ended = try_all()
    failed = ended["failed"] + wrong
    print(f"{ended['passed']} passed, {failed} failed")
    return 1 if failed or not ended["passed"] else 0


if __name__ == "__main__":
    sys.exit(main())
