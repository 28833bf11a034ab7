"""`--subset`: the declarations in a DOCTYPE become spaces, byte for byte, so that all places stay true."""
from __future__ import annotations

import re

from gq.say import tell

MOST = 1 << 20  # bytes of a prolog that are held
MISC = re.compile(rb"(?:\xef\xbb\xbf)?(?:[ \t\r\n]+|<!--.*?-->|<\?.*?\?>)*", re.S)
BEGIN = re.compile(rb"<!DOCTYPE(?:[^\[>\"']|\"[^\"]*\"|'[^']*')*(\[|>)")
TOKEN = re.compile(rb"<!--.*?-->|<\?.*?\?>|\"[^\"]*\"|'[^']*'|\]", re.S)
UNFINISHED = re.compile(rb"<!--|<\?|[\"']")
ATTLIST = re.compile(rb"<!ATTLIST\s+([^\s>]+)((?:[^>\"']|\"[^\"]*\"|'[^']*')*)>")
DEFAULT = re.compile(rb"([^\s>\"'()|]+)\s+(?:CDATA|ID|IDREFS?|ENTIT(?:Y|IES)|NMTOKENS?|(?:NOTATION\s+)?\([^)]*\))\s+(?:#FIXED\s+)?(?:\"[^\"]*\"|'[^']*')")
COMMENT = re.compile(rb"<!--.*?-->", re.S)
SPACES = bytes(it if it in b"\t\r\n" or it > 127 else 32 for it in range(256))


class Subset:
    """What the beginning of a document tells: it is decided, or more has to be read; where declarations stand, or none do."""

    def __init__(self, head: bytes, over: bool) -> None:
        self.start = self.end = 0
        self.decided = True
        at = MISC.match(head).end()  # type: ignore[union-attr]
        rest = head[at:at + 9]
        if not over and (rest == b"" or b"<!DOCTYPE".startswith(rest) or b"<!--".startswith(rest[:4]) or rest.startswith(b"<?")):
            self.decided = rest == b"<!DOCTYPE" and self.find(head, at)
        elif rest == b"<!DOCTYPE":
            self.find(head, at)

    def find(self, head: bytes, at: int) -> bool:
        """Looks for the declarations of the DOCTYPE at a place; whether they are all there."""
        begin = BEGIN.match(head, at)
        if begin is None:
            return False
        if begin[1] == b">":
            return True
        place = begin.end()
        while True:
            token = TOKEN.search(head, place)
            if token is None:
                return False
            open_one = UNFINISHED.search(head, place, token.start())
            if open_one is not None:
                return False
            place = token.end()
            if token.group() == b"]":
                self.start, self.end = begin.start(1), place
                return True


class Blank:
    """A step of a pump that makes the declarations of a DOCTYPE spaces."""

    def __init__(self, name: bytes, tells: bool) -> None:
        self.name = name
        self.tells = tells
        self.held: bytes | None = b""

    def feed(self, block: bytes, over: bool = False) -> bytes:
        """A block; nothing is passed on before it is known where the declarations end."""
        if self.held is None:
            return block
        self.held += block
        subset = Subset(self.held, over)
        if not subset.decided and not over and len(self.held) < MOST:
            return b""
        if self.tells and not subset.decided and len(self.held) >= MOST:
            tell(self.name + b": the DOCTYPE isn't over within 1 MiB, and stays as it is")
        text, self.held = self.held, None
        return self.without(text, subset.start, subset.end)

    def without(self, text: bytes, start: int, end: int) -> bytes:
        """The text with spaces for the declarations."""
        inner = text[start:end]
        given = [it[1] + b" " + found[1] for it in ATTLIST.finditer(COMMENT.sub(b" ", inner)) for found in DEFAULT.finditer(it[2])]
        if given and self.tells:
            more = b", .." if len(given) > 3 else b""
            tell(self.name + b": the DOCTYPE gives attributes default values, which aren't added: " + b", ".join(given[:3]) + more)
        return text[:start] + inner.translate(SPACES) + text[end:]

    def end(self) -> bytes:
        """The document is over."""
        return self.feed(b"", True) if self.held else b""

    @staticmethod
    def applies(head) -> bool:
        """Whether a regular file whose first bytes HEAD gives has declarations, or may have."""
        subset = Subset(head(MOST), False)
        return subset.end > 0 or not subset.decided
