"""`gq plot`: the nodes that a run holds, over the document, by path: as text on a terminal, else as SVG."""
from __future__ import annotations

import os
import sys
from typing import Dict, List, Sequence, Tuple

from gq import svg
from gq.flow import write_out
from gq.run import Job
from gq.trace import Held
from gq.watched import order_of, title_of, watch

SHOWN = 6
SMALLEST = 200  # an area that is less than one part of so many has no name of its own
SHADES = "█▓▒░:·"
PLAIN = "#%+=-."
ROWS = 14


def by_path(held: Held, counts: Dict[Tuple[int, bytes], int]) -> Dict[str, int]:
    """How many nodes are held of each path."""
    found: Dict[str, int] = {}
    for (number, _), count in counts.items():
        path = held.paths[number].decode("utf-8", "replace") or "/"
        found[path] = found.get(path, 0) + count
    return found


def areas(held: Held, shown: int = SHOWN) -> List[svg.Area]:
    """An area for each path of which much is held, the largest at the bottom, and one for all others."""
    columns = [by_path(held, it.counts) for it in held.columns]
    sums: Dict[str, int] = {}
    for column in columns:
        for path, count in column.items():
            sums[path] = sums.get(path, 0) + count
    order = sorted(sums, key=lambda it: (-sums[it], it))
    shown = max(1, min(shown, sum(count * SMALLEST > sum(sums.values()) for count in sums.values())))
    found = [svg.Area(path, [it.get(path, 0) for it in columns]) for path in order[:shown]]
    if order[shown:]:
        rest = [column.held - sum(it.heights[at] for it in found) for at, column in enumerate(held.columns)]
        found.append(svg.Area("all others", rest, True))
    return found


def legend(held: Held, shown: Sequence[svg.Area]) -> List[str]:
    """The words of each area: its name, and how many of its nodes are held at the peak."""
    at_peak = by_path(held, held.peak.counts)
    named = sum(at_peak.get(it.name, 0) for it in shown if not it.is_rest)
    return [f"{it.name}: {held.peak.held - named if it.is_rest else at_peak.get(it.name, 0):,} at the peak" for it in shown]


def picture(held: Held, title: str, query: str) -> bytes:
    """The picture as SVG."""
    shown = areas(held)
    subject = " ".join(query.split())
    subject = subject if len(subject) <= 110 else subject[:109] + "…"
    peak = held.peak
    words = f"peak {peak.held:,}"
    return svg.document(svg.Picture(f"Nodes held over {title}: at most {peak.held:,} of {held.read:,}", subject, "nodes read", held.width,
                                    held.read, shown, (peak.read, peak.held), words, legend(held, shown)))


def cells(held: Held, shown: Sequence[svg.Area], top: int, wide: int, shades: str) -> List[str]:
    """The lines of a picture in text, the highest first: a cell shows the path whose area its middle lies in."""
    found = []
    for row in reversed(range(ROWS)):
        line = ""
        for place in range(wide):
            first = len(held.columns) * place // wide
            last = max(first + 1, len(held.columns) * (place + 1) // wide)
            at = max(range(first, last), key=lambda it: held.columns[it].held)
            line += shade((row + 0.5) * top / ROWS, [it.heights[at] for it in shown], shades)
        found.append(line)
    return found


def shade(height: float, heights: Sequence[int], shades: str) -> str:
    """What a cell at this height shows."""
    for number, it in enumerate(heights):
        height -= it
        if height < 0:
            return shades[number]
    return " "


def in_text(held: Held, title: str, wide: int, shades: str) -> str:
    """The picture in text, at most so wide."""
    shown = areas(held, len(shades) - 1)
    numbers = svg.round_numbers(held.peak.held, 4)
    top = numbers[-1]
    room = max(wide - 14, 20)
    labels = {min(ROWS - 1, ROWS - it * ROWS // top): it for it in numbers[1:]}
    lines = [f"nodes held over {title}: at most {held.peak.held:,} of {held.read:,}, when {held.peak.read:,} were read"]
    for row, line in enumerate(cells(held, shown, top, room, shades)):
        number = f"{labels[row]:,}" if row in labels else ""
        lines.append(f"{number:>11} {line}".rstrip())
    end = f"{held.read:,}"
    lines.append(f"{'0':>11} " + "─" * room if shades == SHADES else f"{'0':>11} " + "-" * room)
    lines.append(" " * 12 + "0" + "nodes read".center(room - len(end) - 1) + end)
    words = legend(held, shown)
    lines += [f"{shades[number]:>11} {words[number]}" for number in reversed(range(len(shown)))]
    return "\n".join(lines) + "\n"


def main(words: list[bytes]) -> int:
    """Obeys the words after `plot`, and gives the exit code."""
    job = Job(order_of("plot", words, 1))
    held, code = watch(job)
    if code:
        return code
    if os.isatty(1):
        code_of = sys.stdout.encoding or "ascii"
        shades = SHADES if code_of.lower().replace("-", "") == "utf8" else PLAIN
        write_out(in_text(held, title_of(job), os.get_terminal_size(1).columns or 80, shades).encode(code_of, "replace"))
    else:
        write_out(picture(held, title_of(job), job.query.decode("utf-8", "replace")))
    return 0
