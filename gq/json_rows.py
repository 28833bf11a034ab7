"""Rows of a table as JSON (RFC 8259), an object a line: a column without a match is null, one with several an array."""
from __future__ import annotations

from gq.table import CELL, MOST, ROW, VALUE, cut_at_mark, decoded

ESCAPES = ((b"\\", b"\\\\"), (b'"', b'\\"'), (b"\n", b"\\n"), (b"\t", b"\\t"), (b"\r", b"\\r"))


def quoted(text: bytes) -> bytes:
    """Text as it stands within a string. XML has no other characters below the space."""
    for sign, escape in ESCAPES:
        if sign in text:
            text = text.replace(sign, escape)
    return text


class JsonRows:
    """Takes the answer of a table's query. A row larger than a MiB is written cell by cell, from a file where a cell is."""

    def __init__(self, columns: list[bytes], emit) -> None:
        self.emit = emit
        names = [b'"' + quoted(it) + b'":' for it in columns]
        self.names = names
        row = b"{" + b",".join(it.replace(b"%", b"%%") + b"%b" for it in names) + b"}\n"
        self.any_row, self.single = row, row.replace(b"%b", b'"%b"')
        self.any = False
        self.held = b""
        self.cell = Cell(emit)
        self.number: int | None = None  # of the column in a row that is written piece by piece

    def feed(self, block: bytes) -> bytes:
        """A block of the answer. Rows are written at once: nothing is given back."""
        self.any = True
        text = self.held + block
        if self.number is not None:
            end = text.find(ROW) + len(ROW)
            if end < len(ROW):
                self.piece(text)
                return b""
            self.piece(text[:end])
            text = text[end:]
        last = text.rfind(ROW) + len(ROW)
        if last >= len(ROW):
            self.emit(self.whole(text[:last]))
            text = text[last:]
        self.held = text
        if len(text) > MOST:
            self.piece(text)
        return b""

    def whole(self, text: bytes) -> bytes:
        """Rows that are whole, all at once; most have one value in each cell."""
        text, rows = quoted(text), text.count(ROW)
        middle, last = text.count(VALUE + CELL), text.count(VALUE + ROW)
        if last == rows and middle == rows * (len(self.names) - 1) and text.count(VALUE) == middle + last:
            cells = text.replace(VALUE + ROW, VALUE + CELL).split(VALUE + CELL)
            cells.pop()
            return decoded((self.single * rows) % tuple(cells))
        cells = text.replace(ROW, CELL).split(CELL)
        cells.pop()
        return decoded((self.any_row * rows) % tuple([value(it) for it in cells]))

    def piece(self, text: bytes) -> None:
        """A piece of one row."""
        if self.number is None:
            self.number = 0
            self.emit(b"{" + self.names[0])
        text, self.held = cut_at_mark(quoted(text))
        over = text.endswith(ROW)
        for number, cell in enumerate(text[:-len(ROW)].split(CELL) if over else text.split(CELL)):
            if number:
                self.number += 1
                self.cell.over()
                self.emit(b"," + self.names[self.number])
            self.cell.add(cell)
        if over:
            self.number = None
            self.cell.over()
            self.emit(b"}\n")

    def end(self) -> bytes:
        """A row that a fault cut isn't written."""
        return b""


def value(cell: bytes) -> bytes:
    """The JSON of a cell that is whole."""
    if cell.find(b"<") == len(cell) - len(VALUE):
        return b'"%b"' % cell[:-len(VALUE)]
    values = cell.split(VALUE)
    values.pop()
    if not values:
        return b"null"
    return b'["' + b'","'.join(values) + b'"]'


class Cell:
    """A cell that comes in pieces. It is kept, in a file if it is large, until it is known whether it has several values."""

    def __init__(self, emit) -> None:
        self.emit = emit
        self.parts: list[bytes] = []
        self.size = self.count = 0
        self.ended = False  # a value is over, and no other has begun
        self.file = None

    def add(self, text: bytes) -> None:
        """More of the cell: texts with marks."""
        if not text:
            return
        if self.ended:
            self.keep(b'","')
        self.count += text.count(VALUE)
        self.ended = text.endswith(VALUE)
        text = text[:-len(VALUE)] if self.ended else text
        self.keep(decoded(text.replace(VALUE, b'","')))

    def keep(self, text: bytes) -> None:
        """Keeps what comes."""
        self.parts.append(text)
        self.size += len(text)
        if self.size > MOST:
            if self.file is None:
                import tempfile
                self.file = tempfile.TemporaryFile()
            self.file.write(b"".join(self.parts))
            self.parts, self.size = [], 0

    def over(self) -> None:
        """The cell is whole, and is written."""
        if self.count:
            self.emit(b'"' if self.count == 1 else b'["')
            self.emit_file()
            self.emit(b"".join(self.parts) + (b'"' if self.count == 1 else b'"]'))
        else:
            self.emit(b"null")
        self.__init__(self.emit)  # type: ignore[misc]

    def emit_file(self) -> None:
        """Writes what the file holds."""
        if self.file is None:
            return
        self.file.seek(0)
        while True:
            block = self.file.read(MOST)
            if not block:
                break
            self.emit(block)
        self.file.close()
