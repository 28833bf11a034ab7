"""What a run holds, read from the lines of `gcx run --trace` as they come. docs/BUFFER.md tells what the lines mean.

Kept are the open elements, the nodes that the engine holds, the most that was held, and a few hundred columns of a picture, however long
the document is."""
from __future__ import annotations

from typing import Dict, Iterable, List, NamedTuple, Optional, Tuple

COLUMNS = 480
Key = Tuple[int, bytes]
Counts = Dict[Key, int]


class Moment(NamedTuple):
    """A state of the run: nodes held, nodes read, how many are held by path and roles, and the path of the node read last."""

    held: int
    read: int
    counts: Counts
    last: int


class Column(NamedTuple):
    """The fullest state of a run while nodes were read: those behind the FIRST ones, as many as a column is wide."""

    first: int
    held: int
    counts: Counts


class Held:
    """Follows a trace. `lines` takes its lines; what isn't one of them, the program's own message, is in `message`."""

    def __init__(self, columns: int = COLUMNS) -> None:
        self.limit = columns
        self.width = 1
        self.paths: List[bytes] = [b""]
        self.numbers: Dict[Tuple[int, bytes], int] = {}
        self.open: List[int] = []
        self.nodes: Dict[bytes, Key] = {}
        self.counts: Counts = {}
        self.held = 0
        self.read = 0
        self.peak = Moment(0, 0, {}, 0)
        self.columns: List[Column] = []
        self.fullest: Tuple[int, Counts] = (-1, {})
        self.latest: Optional[Tuple[bytes, Key]] = None
        self.rises = False
        self.last = 0
        self.message = b""

    def path(self, around: int, name: bytes) -> int:
        """The number of the path of a child of this name."""
        number = self.numbers.get((around, name))
        if number is None:
            number = self.numbers[around, name] = len(self.paths)
            self.paths.append(self.paths[around] + b"/" + (b"text()" if name == b"#" else name))
        return number

    def lines(self, lines: Iterable[bytes]) -> None:
        """The next lines, without their ends."""
        for line in lines:
            kind = line[:1]
            if kind == b"x":
                self.leave(line[2:])
            elif kind == b"+":
                self.come(line)
            elif kind == b"-":
                self.count()
                self.open.pop()
            elif kind not in (b"w", b"o", b""):
                self.message = line

    def come(self, line: bytes) -> None:
        """A node comes. A text that nothing keeps leaves at once, so it is counted only at the next line."""
        self.count()
        parts = line.split(b" ", 3)
        name = parts[2]
        number = 0 if name == b"/" else self.path(self.open[-1], name)
        if self.read % self.width == 0:
            self.next_column()
        self.read += 1
        self.last = number
        self.latest = (parts[1], (number, parts[3] if len(parts) > 3 else b""))
        if name != b"#":
            self.open.append(number)
            self.count()

    def count(self) -> None:
        """The node that came last is held."""
        if self.latest is not None:
            serial, key = self.latest
            self.latest = None
            self.nodes[serial] = key
            self.counts[key] = self.counts.get(key, 0) + 1
            self.held += 1
            self.rises = True

    def leave(self, serial: bytes) -> None:
        """A node leaves."""
        if self.latest is not None:
            if self.latest[0] == serial:
                self.latest = None
                return
            self.count()
        if self.rises:
            self.look()
        key = self.nodes.pop(serial)
        self.held -= 1
        if self.counts[key] == 1:
            del self.counts[key]
        else:
            self.counts[key] -= 1

    def look(self) -> None:
        """Notes the state where it is the fullest so far."""
        self.rises = False
        if self.held > self.fullest[0]:
            self.fullest = (self.held, dict(self.counts))
            if self.held > self.peak.held:
                self.peak = Moment(self.held, self.read, self.fullest[1], self.last)

    def next_column(self) -> None:
        """A column is full: another one begins with the next state."""
        if self.read:
            self.look()
            self.columns.append(Column(self.read - self.width, *self.fullest))
            if len(self.columns) >= self.limit:
                self.join_columns()
        self.fullest = (-1, {})
        self.rises = True

    def join_columns(self) -> None:
        """Of each two columns the fuller one stays, over the width of both."""
        pairs = zip(self.columns[::2], self.columns[1::2])
        self.columns = [Column(one.first, *max(one[1:], two[1:], key=lambda it: it[0])) for one, two in pairs]
        self.width *= 2

    def end(self) -> None:
        """The trace is over."""
        self.count()
        self.look()
        first = len(self.columns) * self.width
        if first < self.read:
            self.columns.append(Column(first, *self.fullest))
