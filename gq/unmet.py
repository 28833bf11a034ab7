"""Which columns of a table have no value in any row, from the marks in the answer of its query."""
from __future__ import annotations

import re

MARK = re.compile(rb"<([vcn])>")  # the begin of a mark: after a value, between cells, after a row


class Unmet:
    """Takes the answer in blocks. Kept are the marks of the row that isn't over, one for the values of a cell."""

    def __init__(self, columns: int) -> None:
        self.left = set(range(columns))
        self.any_row = False
        self.held = b""
        self.marks = b""

    def feed(self, block: bytes) -> None:
        """A block; once all columns have a value nothing is looked at."""
        if not self.left:
            return
        text = self.held + block
        cut = text.rfind(b"<", max(0, len(text) - 2))
        self.held = b"" if cut < 0 else text[cut:]
        marks = self.marks + b"".join(MARK.findall(text if cut < 0 else text[:cut]))
        while b"vv" in marks:
            marks = marks.replace(b"vv", b"v")
        *rows, self.marks = marks.split(b"n")
        self.any_row = self.any_row or bool(rows)
        for row in set(rows):
            self.left -= {number for number, cell in enumerate(row.split(b"c")) if cell}
