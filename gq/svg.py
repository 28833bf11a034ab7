"""A picture of areas that stand on one another, as SVG. The areas' coordinates are the numbers themselves, so they can be read back."""
from __future__ import annotations

import re
from typing import Iterator, List, NamedTuple, Sequence, Tuple

WIDE, HIGH, LEFT, TOP, RIGHT, LINE = 860, 320, 84, 78, 36, 20
COLORS = ("#4477aa", "#66ccee", "#228833", "#ccbb44", "#ee6677", "#aa3377")
REST = "#bbbbbb"
NO_CHARACTER = re.compile("[^\t\n\r\u0020-\ud7ff\ue000-\ufffd\U00010000-\U0010ffff]")


class Area(NamedTuple):
    """An area: what it shows, and its height in each column."""

    name: str
    heights: Sequence[int]
    is_rest: bool = False


class Picture(NamedTuple):
    """What is shown: columns of a width, up to `last`; areas from the lowest up; the place of the peak, and words."""

    title: str
    subject: str
    across: str
    width: int
    last: int
    areas: Sequence[Area]
    peak: Tuple[int, int]
    peak_words: str
    legend: Sequence[str]


def escaped(text: str) -> str:
    """Text of a document."""
    text = NO_CHARACTER.sub("\ufffd", text)
    return text.replace("&", "&amp;").replace("<", "&lt;").replace(">", "&gt;").replace('"', "&quot;")


def round_numbers(most: int, count: int) -> List[int]:
    """About COUNT round numbers from 0 on, the last of them at least MOST; their step is 1, 2 or 5, with noughts behind it."""
    power = 1
    while True:
        for step in (power, 2 * power, 5 * power):
            if step * count >= most:
                return list(range(0, most + step, step))
        power *= 10


def outline(lower: Sequence[int], upper: Sequence[int], width: int, last: int) -> str:
    """The outline of an area between two lines of steps: forth on the upper one, back on the lower one."""
    if not upper:
        return ""
    ends = [min((it + 1) * width, last) for it in range(len(upper))]
    words = [f"M0 {upper[0]}"]
    for at in range(len(upper)):
        if at + 1 == len(upper) or upper[at + 1] != upper[at]:
            words.append(f"H{ends[at]}" + (f"V{upper[at + 1]}" if at + 1 < len(upper) else ""))
    words.append(f"V{lower[-1]}")
    for at in reversed(range(len(lower))):
        if at == 0 or lower[at - 1] != lower[at]:
            words.append(f"H{at * width}" + (f"V{lower[at - 1]}" if at else ""))
    return "".join(words) + "Z"


def text(x: float, y: float, words: str, anchor: str = "start", more: str = "") -> str:
    """A line of text."""
    at = f' text-anchor="{anchor}"' if anchor != "start" else ""
    return f'<text x="{x:g}" y="{y:g}"{at}{more}>{escaped(words)}</text>'


def color(areas: Sequence[Area], number: int) -> str:
    """The color of an area."""
    return REST if areas[number].is_rest else COLORS[number % len(COLORS)]


def axes(top: int, last: int, across: str) -> Iterator[str]:
    """Round numbers and fine lines."""
    for number in (it for it in round_numbers(top, 6) if it <= top):
        y = round(TOP + HIGH - HIGH * number / top, 1)
        yield f'<path d="M{LEFT} {y:g}h{WIDE}" stroke="#e4e4e4"/>' + text(LEFT - 8, y + 4, f"{number:,}", "end")
    for number in (it for it in round_numbers(last, 6) if it <= last):
        x = round(LEFT + WIDE * number / last, 1)
        yield f'<path d="M{x:g} {TOP + HIGH}v5" stroke="#444"/>' + text(x, TOP + HIGH + 20, f"{number:,}", "middle")
    yield text(LEFT + WIDE / 2, TOP + HIGH + 40, across, "middle")
    yield text(18, TOP + HIGH / 2, "nodes held", "middle", f' transform="rotate(-90 18 {TOP + HIGH / 2:g})"')


def mark(picture: Picture, top: int) -> str:
    """The peak, with its words on the side that has room."""
    x = round(LEFT + WIDE * picture.peak[0] / picture.last, 1)
    y = round(TOP + HIGH - HIGH * picture.peak[1] / top, 1)
    at_left = x > LEFT + WIDE * 0.6
    words = text(x - 9 if at_left else x + 9, y - 9, picture.peak_words, "end" if at_left else "start", ' font-weight="bold"')
    return f'<circle cx="{x:g}" cy="{y:g}" r="4" fill="none" stroke="#222" stroke-width="1.5"/>{words}'


def drawn(picture: Picture) -> Iterator[str]:
    """The picture, line by line."""
    top = picture.peak[1] + -(-picture.peak[1] // 12) or 1
    count = len(picture.areas)
    high = TOP + HIGH + 64 + LINE * count
    yield f'<svg xmlns="http://www.w3.org/2000/svg" viewBox="0 0 {LEFT + WIDE + RIGHT} {high}" width="{LEFT + WIDE + RIGHT}" height="{high}"'
    yield ' font-family="sans-serif" font-size="12" fill="#222">'
    yield f"<title>{escaped(picture.title)}</title>"
    yield '<rect width="100%" height="100%" fill="#fff"/>'
    yield text(LEFT, 28, picture.title, more=' font-size="17"')
    yield text(LEFT, 48, picture.subject, more=' font-family="monospace"')
    yield from axes(top, picture.last, picture.across)
    yield f'<g shape-rendering="crispEdges" transform="translate({LEFT} {TOP + HIGH}) scale({WIDE / picture.last:.9g} {-HIGH / top:.9g})">'
    lower: Sequence[int] = [0] * len(picture.areas[0].heights) if picture.areas else []
    for number, area in enumerate(picture.areas):
        upper = [one + two for one, two in zip(lower, area.heights)]
        shape = outline(lower, upper, picture.width, picture.last)
        yield f'<path fill="{color(picture.areas, number)}" d="{shape}"><title>{escaped(area.name)}</title></path>'
        lower = upper
    yield "</g>"
    yield f'<path d="M{LEFT} {TOP}V{TOP + HIGH}h{WIDE}" fill="none" stroke="#444"/>'
    yield mark(picture, top)
    for place, number in enumerate(reversed(range(count))):
        y = TOP + HIGH + 70 + LINE * place
        yield f'<rect x="{LEFT}" y="{y - 11}" width="13" height="13" fill="{color(picture.areas, number)}"/>'
        yield text(LEFT + 22, y, picture.legend[number])
    yield "</svg>"


def document(picture: Picture) -> bytes:
    """The picture as a document."""
    return ("\n".join(drawn(picture)) + "\n").encode()
