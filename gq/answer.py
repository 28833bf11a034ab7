"""What becomes of an answer: each class takes it in blocks and gives what is written on standard output."""
from __future__ import annotations

from gq.flow import Closed


class Enough(Closed):
    """The answer has begun, and no more of it is wanted."""


class Plain:
    """The answer as it is; on a terminal a line end follows it."""

    def __init__(self) -> None:
        self.any = False
        self.last = b""

    def feed(self, block: bytes) -> bytes:
        """A block of it."""
        self.any = True
        self.last = block[-1:]
        return block

    def end(self) -> bytes:
        """The line end."""
        return b"\n" if self.any and self.last != b"\n" else b""


class Quiet(Plain):
    """Only whether there is one."""

    def feed(self, block: bytes) -> bytes:
        """There is."""
        self.any = True
        raise Enough

    def end(self) -> bytes:
        """There was none."""
        return b""


class Lines:
    """Each match as a line, whatever its size: of a match no more than a block is kept. A mark stands after each."""

    def __init__(self, mark: bytes, zero: bool) -> None:
        self.mark = b"<" + mark + b"></" + mark + b">"
        self.zero = zero
        self.line_end = b"\0" if zero else b"\n"
        self.held = b""
        self.any = False

    def feed(self, block: bytes) -> bytes:
        """A block of the answer."""
        self.any = True
        text = self.held + block
        at = begin_of_mark(text, self.mark)
        text, self.held = text[:at], text[at:]
        if not self.zero and b"\n" in text:
            text = text.replace(b"\n", b"&#10;")
        return text.replace(self.mark, self.line_end)

    def end(self) -> bytes:
        """A match that a fault cut stays as it is."""
        return self.held


def begin_of_mark(text: bytes, mark: bytes) -> int:
    """The place from which on a text is a beginning of the mark, which may be its end."""
    at = text.find(b"<", max(0, len(text) - len(mark) + 1))
    while at >= 0 and not mark.startswith(text[at:]):
        at = text.find(b"<", at + 1)
    return len(text) if at < 0 else at


class Count:
    """How many marks there are: the answer is nothing else."""

    def __init__(self, mark: bytes) -> None:
        self.each = 2 * len(mark) + 5  # <m></m>
        self.size = 0

    @property
    def any(self) -> bool:
        """Whether there is one."""
        return self.size > 0

    def feed(self, block: bytes) -> bytes:
        """A block of the answer."""
        self.size += len(block)
        return b""

    def end(self) -> bytes:
        """The number."""
        return b"%d\n" % (self.size // self.each)
