"""Draws the table of `calls` as an SVG: calls a second, and how long the others' calls take while one thread is stopped.

    python3 plot.py <calls.csv >calls.svg
"""

from __future__ import annotations

import csv
import math
import sys
from typing import NamedTuple

WIDTH, HEIGHT = 790, 600
PANEL_WIDTH, PANEL_HEIGHT = 290, 190
LEFTS, TOPS = (70, 470), (70, 350)
NAMES = {"object": "object", "lock": "pthread_mutex"}
TITLES = {"single": "accounts of one owner", "shared": "one shared account"}

STYLE = """\
:root{color-scheme:light dark;--ink:#1b1f24;--soft:#57606a;--line:#d0d7de;--object:#0969da;--lock:#bc4c00;--page:#fff}
@media (prefers-color-scheme:dark){:root{--ink:#e6edf3;--soft:#9aa4af;--line:#30363d;--object:#58a6ff;--lock:#f0883e;--page:#0d1117}}
svg{background:var(--page);font-family:system-ui,sans-serif}
text{fill:var(--ink);font-size:12px}
.title{font-weight:600;font-size:13px}
.tick{fill:var(--soft)}
.grid{stroke:var(--line)}
.object{stroke:var(--object)}
.lock{stroke:var(--lock);stroke-dasharray:6 3}
.object,.lock{fill:none;stroke-width:2}
.of-object{fill:var(--object)}
.of-lock{fill:var(--lock)}"""


class Axis(NamedTuple):
    """The values at the bottom and the top of a panel, the marks between them with their words, and whether it goes by tens."""

    low: float
    high: float
    marks: list[tuple[float, str]]
    tens: bool

    def part(self, value: float) -> float:
        if self.tens:
            return (math.log10(value) - math.log10(self.low)) / (math.log10(self.high) - math.log10(self.low))
        return (value - self.low) / (self.high - self.low)


def rate_axis(most: float) -> Axis:
    step = next(step for tens in range(12) for step in (10**tens, 2 * 10**tens, 5 * 10**tens) if most <= 5 * step)
    high = step * math.ceil(most / step)
    return Axis(0, high, [(mark, f"{mark / 1e6:g}") for mark in range(0, high + 1, step)], False)


def wait_axis(least: float, most: float) -> Axis:
    low, high = 10 ** math.floor(math.log10(least)), 10 ** math.ceil(math.log10(most))
    words = {1e1: "10 ns", 1e2: "100 ns", 1e3: "1 µs", 1e4: "10 µs", 1e5: "100 µs", 1e6: "1 ms", 1e7: "10 ms", 1e8: "100 ms", 1e9: "1 s"}
    return Axis(low, high, [(mark, word) for mark, word in words.items() if low <= mark <= high], True)


def panel(left: int, top: int, title: str, axis: Axis, rows: list[dict[str, str]], field: str) -> list[str]:
    threads = sorted({int(row["threads"]) for row in rows})
    step = (PANEL_WIDTH - 40) / (len(threads) - 1)
    bottom = top + PANEL_HEIGHT
    drawn = [f"<text class='title' x='{left}' y='{top - 14}'>{title}</text>"]
    for mark, word in axis.marks:
        y = bottom - PANEL_HEIGHT * axis.part(mark)
        drawn.append(f"<path class='grid' d='M{left} {y:.1f}h{PANEL_WIDTH}'/>")
        drawn.append(f"<text class='tick' text-anchor='end' x='{left - 6}' y='{y + 4:.1f}'>{word}</text>")
    for place, count in enumerate(threads):
        drawn.append(f"<text class='tick' text-anchor='middle' x='{left + 20 + step * place:.1f}' y='{bottom + 18}'>{count}</text>")
    for kind, name in NAMES.items():
        points = [
            (left + 20 + step * threads.index(int(row["threads"])), bottom - PANEL_HEIGHT * axis.part(float(row[field])), row)
            for row in rows
            if row["ledger"] == kind
        ]
        drawn.append(f"<path class='{kind}' d='M{'L'.join(f'{x:.1f} {y:.1f}' for x, y, _ in points)}'/>")
        for x, y, row in points:
            told = f"<title>{name}, {row['threads']} threads: {float(row[field]):,.0f}</title>"
            if kind == "object":
                drawn.append(f"<circle class='of-object' cx='{x:.1f}' cy='{y:.1f}' r='4'>{told}</circle>")
            else:
                drawn.append(f"<path class='of-lock' d='M{x:.1f} {y - 5:.1f}l5 5l-5 5l-5 -5z'>{told}</path>")
    return drawn


def key(x: int, y: int) -> list[str]:
    return [
        f"<path class='object' d='M{x} {y}h30'/><circle class='of-object' cx='{x + 15}' cy='{y}' r='4'/>",
        f"<text x='{x + 38}' y='{y + 4}'>the object</text>",
        f"<path class='lock' d='M{x + 130} {y}h30'/><path class='of-lock' d='M{x + 145} {y - 5}l5 5l-5 5l-5 -5z'/>",
        f"<text x='{x + 168}' y='{y + 4}'>the same ledger under a pthread_mutex</text>",
    ]


def draw(rows: list[dict[str, str]]) -> str:
    rates = rate_axis(max(float(row["calls_per_second"]) for row in rows))
    stopped = [row for row in rows if row["stopped_999_ns"] and float(row["stopped_999_ns"]) > 0]
    waits = wait_axis(min(float(row["stopped_999_ns"]) for row in stopped), max(float(row["stopped_999_ns"]) for row in stopped))
    drawn = [
        f"<svg xmlns='http://www.w3.org/2000/svg' viewBox='0 0 {WIDTH} {HEIGHT}' width='{WIDTH}' height='{HEIGHT}' role='img' "
        "aria-label='Calls a second, and the time of a call while one thread is stopped, for 1 to 16 threads'>",
        f"<style>\n{STYLE}\n</style>",
        *key(70, 20),
    ]
    for left, (accounts, title) in zip(LEFTS, TITLES.items()):
        drawn += panel(left, TOPS[0], f"{title}: million calls a second", rates, [r for r in rows if r["accounts"] == accounts], "calls_per_second")
        chosen = [row for row in stopped if row["accounts"] == accounts]
        drawn += panel(left, TOPS[1], "one thread is stopped: 99.9 % took at most", waits, chosen, "stopped_999_ns")
        drawn.append(f"<text class='tick' text-anchor='middle' x='{left + PANEL_WIDTH // 2}' y='{HEIGHT - 16}'>threads</text>")
    return "\n".join([*drawn, "</svg>", ""])


if __name__ == "__main__":
    sys.stdout.write(draw(list(csv.DictReader(sys.stdin))))
