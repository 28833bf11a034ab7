"""An answer with line ends and indentation, as a stream: a line end stands only between two tags.

An element that begins with a text stays as it is, with all in it, and so does the rest of one from its first text on. What came before
that text stands on lines of its own already, so white space was added in mixed content: this is told."""
from __future__ import annotations

import re

from gq.say import tell

TAG = re.compile(rb"(<[^<>]*>)")
NOTHING, ELEMENTS, AS_IT_IS = range(3)
DEEP = 1300  # elements open in an answer: 1,000 of the document and 200 of constructors, and some more
LINES = [b"\n" + b"  " * depth for depth in range(DEEP)]


class Pretty:
    """Takes an answer in blocks. Kept are an unfinished tag, and of each open element its start tag and what it has so far."""

    def __init__(self) -> None:
        self.any = False
        self.rest = b""
        self.tags: list[bytes] = []
        self.has = [NOTHING]  # the first one is for what stands in no element
        self.last = b""
        self.changed = b""

    def feed(self, block: bytes) -> bytes:
        """What the block adds to the output."""
        self.any = True
        text = self.rest + block
        cut = text.rfind(b"<")
        if cut < 0 or text.find(b">", cut) >= 0:
            cut = len(text)
        self.rest = text[cut:]
        tags, has, parts = self.tags, self.has, []
        for piece in TAG.split(text[:cut]):
            if piece[:1] != b"<":
                if piece:
                    self.text()
            elif piece[1:2] == b"/":
                tags.pop()
                if has.pop() == ELEMENTS:
                    parts.append(LINES[len(tags)])
            else:
                around = has[-1]
                if around == AS_IT_IS:
                    has.append(AS_IT_IS)
                else:
                    if around == ELEMENTS or tags:
                        parts.append(LINES[len(tags)])
                    has[-1] = ELEMENTS
                    has.append(NOTHING)
                tags.append(piece)
            parts.append(piece)
        return self.written(b"".join(parts))

    def written(self, text: bytes) -> bytes:
        """The same text; its last byte is noted."""
        self.last = text[-1:] or self.last
        return text

    def text(self) -> None:
        """A text comes, or a part of one."""
        if self.tags:
            if self.has[-1] == ELEMENTS and not self.changed:
                self.changed = self.tags[-1]
            self.has[-1] = AS_IT_IS
        else:
            self.has[-1] = NOTHING

    def end(self) -> bytes:
        """What stands after the last block; a fault may have cut the answer."""
        if self.changed:
            tell(b"-p added white space in mixed content, first in " + self.changed)
        rest = self.written(self.rest)
        return rest + b"\n" if self.any and self.last != b"\n" else rest
