"""Tables: a query that writes a row for each match, and its answer as lines of cells.

The answer of that query holds text alone, but for empty elements of gq's own: <v></v> after each value, <c></c> between two cells,
<n></n> after a row. So nothing that the document has can be taken for them."""
from __future__ import annotations

from gq.made import Made
from gq.marked import column_edits, condition_edits, row_path
from gq.syntax import Slip

VALUE, CELL, ROW = b"<v></v>", b"<c></c>", b"<n></n>"
MOST = 1 << 20  # bytes of a row from which it is written piece by piece


class PartFault(Exception):
    """A part of a table that can't be taken into a query: which, its text, and the slip in it."""

    def __init__(self, what: str, text: bytes, slip: Slip) -> None:
        super().__init__(what, text, slip)
        self.what, self.text, self.slip = what, text, slip


def part(what: str, text: bytes, read):
    """What READ makes of a part."""
    try:
        return read(text)
    except Slip as slip:
        raise PartFault(shown(what), text, slip) from None


def shown(what: str) -> str:
    """What messages call a part: columns have numbers here."""
    return what.partition("#")[0]


def table_query(row: bytes, where: bytes | None, columns: list[bytes]) -> Made:
    """The query of a table. Raises `PartFault`."""
    made = Made()
    part("row", row, row_path)
    made.add(b"for $gq in ").add_edited("row", row, [])
    if where is not None:
        made.add(b" where ").add_edited("condition", where, part("condition", where, condition_edits))
    made.add(b" return (")
    for number, column in enumerate(columns):
        made.add(b", <c/>, " if number else b"")
        add_column(made, f"column#{number}", column)
    return made.add(b", <n/>)")


def add_column(made: Made, what: str, column: bytes) -> None:
    """The values of a column, each with its mark: all text in an element, or a text itself."""
    edits, path = part(what, column, column_edits)
    if not path.steps:
        made.add(b"$gq//text(), <v/>")
        return
    value = b"$v" if path.steps[-1][1] == b"text()" else b"$v//text()"
    made.add(b"for $v in ").add_edited(what, column, edits).add(b" return (" + value + b", <v/>)")


def decoded(text: bytes) -> bytes:
    """Text without the entities that an answer has."""
    if b"&" not in text:
        return text
    return text.replace(b"&lt;", b"<").replace(b"&gt;", b">").replace(b"&amp;", b"&")


def cut_at_mark(text: bytes) -> tuple[bytes, bytes]:
    """A text without what its end has of a mark or an entity, and that."""
    import re
    cut = re.compile(rb"(?:<(?:[vcn](?:>(?:<(?:/[vcn]?)?)?)?)?|&[a-z]{0,3})\Z").search(text, max(0, len(text) - len(VALUE)))
    return (text[:cut.start()], text[cut.start():]) if cut else (text, b"")


class Rows:
    """Rows as lines, a tab between cells."""

    def __init__(self, separator: bytes) -> None:
        self.separator = separator
        self.held = b""
        self.any = False
        self.within = False  # a row that is written piece by piece
        self.valued = False  # in it: a value is over, and it isn't known what follows

    def feed(self, block: bytes) -> bytes:
        """A block of the answer: all rows that are whole, and of a large one what is there."""
        self.any = True
        text, out = self.held + block, b""
        if self.within:
            end = text.find(ROW) + len(ROW)
            if end < len(ROW):
                return self.piece(text)
            out, text = self.piece(text[:end]), text[end:]
        last = text.rfind(ROW) + len(ROW)
        if last >= len(ROW):
            out += self.whole(text[:last])
            text = text[last:]
        if len(text) > MOST:
            return out + self.piece(text)
        self.held = text
        return out

    def whole(self, text: bytes) -> bytes:
        """Rows that are whole, or a part of one, all at once."""
        text = escaped(text)
        text = text.replace(VALUE + CELL, b"\t").replace(VALUE + ROW, b"\n")
        if b"<" in text:
            text = text.replace(CELL + ROW, CELL + b"\n").replace(ROW, b"\n")
            text = text.replace(VALUE + CELL, b"\t").replace(CELL, b"\t").replace(VALUE, self.separator)
        return decoded(text)

    def piece(self, text: bytes) -> bytes:
        """A piece of one row, or its end."""
        text, self.held = cut_at_mark(text)
        before = self.separator if self.valued and text and not text.startswith((CELL, ROW)) else b""
        self.valued = text.endswith(VALUE) or (self.valued and not text)
        self.within = not text.endswith(ROW)
        return before + self.whole(text[:-len(VALUE)] if text.endswith(VALUE) else text)

    def end(self) -> bytes:
        """A row that a fault cut isn't written; of a large one what was there stays."""
        return b""


class RowCount(Rows):
    """How many rows there are."""

    def __init__(self) -> None:
        super().__init__(b"")
        self.rows = 0

    def feed(self, block: bytes) -> bytes:
        """A block of the answer."""
        self.any = True
        text = self.held + block
        self.rows += text.count(ROW)
        self.held = text[-len(ROW) + 1:]
        return b""

    def end(self) -> bytes:
        """The number."""
        return b"%d\n" % self.rows


def escaped(text: bytes) -> bytes:
    """Text with backslash, tab and newline written in two characters."""
    if b"\\" in text:
        text = text.replace(b"\\", b"\\\\")
    if b"\t" in text:
        text = text.replace(b"\t", b"\\t")
    if b"\n" in text:
        text = text.replace(b"\n", b"\\n")
    return text
