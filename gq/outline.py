"""What a document has, by the trace of a query that keeps nothing: the names of its elements by their paths, and which are open at a fault."""
from __future__ import annotations

import os
import re

from gq import program
from gq.flow import Loop, Reading
from gq.inputs import Document, Feed

FIRST = 64_000_000  # bytes of a document that are looked at
SAMPLE = 4_000_000  # the same for names
MOST = 100_000  # different paths that are told apart
EVENT = re.compile(rb"^(?:\+ \d+ ([^ \n]+)|-)", re.M)
NUMBER = re.compile(rb"^([-+x]) \d+", re.M)
DIGIT_IN_NAME = re.compile(rb"[^ \n0-9][0-9]")
EMPTY = re.compile(rb"\+  [^\n]+\n- \n")


class Reader:
    """Takes the trace in blocks, and reads whole lines."""

    def __init__(self) -> None:
        self.held = b""

    def feed(self, block: bytes) -> None:
        """A block."""
        text = self.held + block
        cut = text.rfind(b"\n") + 1
        self.held = text[cut:]
        self.read(text[:cut])

    def read(self, lines: bytes) -> None:
        """Lines of the trace."""
        raise NotImplementedError


class Node(dict):
    """The elements with one path: maps a name to the node of those below. Attributes are such elements too."""
    has_text = False  # directly in one of them


class Outline(Reader):
    """The names of the elements."""

    def __init__(self) -> None:
        super().__init__()
        self.root = Node()
        self.above: list[Node] = [self.root]
        self.paths = 0

    def read(self, lines: bytes) -> None:
        """Adds what is new. Texts have no line of their own for their end."""
        above = self.above
        for name in EVENT.findall(lines):
            if name == b"/":
                continue
            if name == b"#":
                above[-1].has_text = True
                continue
            if name:
                node = above[-1].get(name)
                if node is None:
                    node = Node()
                    if self.paths < MOST:
                        above[-1][name] = node
                        self.paths += 1
                above.append(node)
            elif len(above) > 1:
                above.pop()


class OpenPath(Reader):
    """The names of the elements that are open. Elements that are over within a block go at once, by their pairs of lines."""

    def __init__(self) -> None:
        super().__init__()
        self.names: list[bytes] = []

    def read(self, lines: bytes) -> None:
        """What opens and closes in these lines, without what does both."""
        if DIGIT_IN_NAME.search(lines):
            lines = NUMBER.sub(rb"\1 ", lines)
        else:
            lines = lines.translate(None, b"0123456789")
        lines = lines.replace(b"x \n", b"").replace(b"+  #\n", b"")
        size = -1
        while size != len(lines):
            size = len(lines)
            lines = EMPTY.sub(b"", lines)
        for line in lines.splitlines():
            if line.startswith(b"+  ") and not line.startswith(b"+  /"):
                self.names.append(line[3:])
            elif line == b"- " and self.names:
                self.names.pop()


def trace(document: Document, subset: bool, reader: Reader, first: int) -> None:
    """Gives the reader the trace of the first bytes of a regular file."""
    loop = Loop()
    feed = Feed(loop, document, subset, first)
    query = program.memory_file(b"()")
    place, error = os.pipe()
    null = os.open(os.devnull, os.O_WRONLY)
    lines = Reading(loop, place, reader.feed)
    child = program.Child([program.gcx(), "run", "--trace", f"/dev/fd/{query}", "-"], feed.stdin, null, error)
    for it in (query, error, null):
        os.close(it)
    feed.begun()
    loop.run(lambda: lines.over)
    feed.stop()
    child.wait()
    if feed.unpacker is not None:
        feed.unpacker.kill()


def open_path(document: Document, subset: bool, offset: int) -> bytes | None:
    """The path of the elements that are open at a fault, if that is told: of a regular file, within its first 64 MB."""
    if not document.regular or offset > FIRST:
        return None
    reader = OpenPath()
    trace(document, subset, reader, FIRST)
    return b"".join(b"/" + it for it in reader.names)


def outline(document: Document, subset: bool) -> Node:
    """The names in the first bytes of a regular file."""
    reader = Outline()
    trace(document, subset, reader, SAMPLE)
    return reader.root
