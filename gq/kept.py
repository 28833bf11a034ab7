"""Where a place of a document is: line, column, and the text around it."""
from __future__ import annotations

import os

LAST = 1 << 20  # bytes of a stream that are kept
AROUND = 600  # bytes of a line that are shown at most, before the place and after it
FAR = 1 << 16  # bytes after the place in which a cause is looked for
BLOCK = 1 << 20
SMALL = 1 << 12  # blocks below are joined to the next
CONTINUES = bytes(range(0x80, 0xC0))  # the bytes of UTF-8 that begin no character
MARK = b"\xef\xbb\xbf"


def characters(block: bytes) -> int:
    """How many characters begin in it."""
    return len(block) if block.isascii() else len(block.translate(None, CONTINUES))


class Counted:
    """Lines and columns of a text that is counted from its beginning on."""

    def __init__(self) -> None:
        self.size = self.lines = self.column = 0

    def count(self, block: bytes) -> None:
        """The next block."""
        if self.size == 0 and block.startswith(MARK):
            self.column = -1
        last = block.rfind(b"\n")
        if last >= 0:
            self.lines += block.count(b"\n")
            self.column = 0
        self.column += characters(block[last + 1:])
        self.size += len(block)


class Place:
    """A place: line and column from 1, and what stands before it and from it on in the line."""

    def __init__(self, counted: Counted, before: bytes, after: bytes, head: bytes) -> None:
        self.line = counted.lines + 1
        self.column = counted.column + 1
        line = before[before.rfind(b"\n") + 1:]
        self.before = line[-AROUND:].decode("utf-8", "replace").replace("\ufeff", "")
        self.after = after.partition(b"\n")[0].rstrip(b"\r")[:AROUND].decode("utf-8", "replace")
        self.head = head  # what stands before it, over line ends
        self.rest = after  # the same after it


class Kept:
    """The last MiB of a stream. As a step of a pump it passes all on."""

    def __init__(self) -> None:
        self.blocks: list[bytes] = []
        self.size = 0
        self.gone = Counted()

    def feed(self, block: bytes) -> bytes:
        """Keeps a block."""
        if self.blocks and len(self.blocks[-1]) < SMALL:
            self.blocks[-1] += block
        else:
            self.blocks.append(block)
        self.size += len(block)
        while self.size - len(self.blocks[0]) >= LAST:
            first = self.blocks.pop(0)
            self.size -= len(first)
            self.gone.count(first)
        return block

    def end(self) -> bytes:
        """It holds nothing back."""
        return b""

    def place(self, offset: int) -> Place | None:
        """The place of an offset, if that is kept."""
        text = b"".join(self.blocks)
        at = offset - self.gone.size
        if not 0 <= at <= len(text):
            return None
        counted = Counted()
        counted.size, counted.lines, counted.column = self.gone.size, self.gone.lines, self.gone.column
        counted.count(text[:at])
        return Place(counted, text[:at], text[at:at + FAR], text[max(0, at - AROUND):at])


class InFile:
    """A regular file that is read again."""

    def __init__(self, descriptor: int, base: int) -> None:
        self.descriptor, self.base = descriptor, base

    def place(self, offset: int) -> Place | None:
        """The place of an offset."""
        counted, last = Counted(), b""
        while counted.size < offset:
            block = os.pread(self.descriptor, min(BLOCK, offset - counted.size), self.base + counted.size)
            if not block:
                return None
            counted.count(block)
            last = (last + block)[-AROUND:]
        return Place(counted, last, os.pread(self.descriptor, FAR, self.base + offset), last)
