#!/usr/bin/env python3
"""Fails where a prelude passes on a name that its crate doesn't use. A crate's preludes, `specs/Prelude` for contracts and definitions and
`proofs/Prelude` for proofs, name once what these take of other crates."""

import re
import sys
from pathlib import Path

CRATES = Path(__file__).resolve().parent.parent / "crates"


def names(text, path):
    """The names that a text takes from a path."""
    found = re.findall(rf"use {re.escape(path)}\.\{{([^}}]*)\}}", text)
    return {name.split(" as ")[0].strip() for names in found for name in names.split(",")}


def texts(crate):
    """The texts of a crate."""
    files = [*crate.glob("src/**/*.rt"), *crate.glob("specs/**/*.antt"), *crate.glob("proofs/**/*.antt")]
    return [file.read_text("utf-8") for file in files]


def unused(prelude):
    """What a prelude passes on to nobody."""
    crate = prelude.parent.parent
    passed = re.findall(r"pub use [^{]*\{([^}]*)\}", prelude.read_text("utf-8"))
    path = f"Rattle.{crate.name}.{prelude.parent.name}.Prelude"
    used = set().union(*(names(text, path) for text in texts(crate)))
    return {name.strip() for names in passed for name in names.split(",")} - used


preludes = sorted(CRATES.glob("*/*/Prelude.antt"))
faults = [f"{it.relative_to(CRATES)}: nothing uses {', '.join(sorted(left))}" for it in preludes if (left := unused(it))]
print("\n".join(faults or [f"preludes: each name of {len(preludes)} is used"]))
sys.exit(bool(faults) or not preludes)
