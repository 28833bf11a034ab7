"""Encodings of documents, known by a byte order mark or a declaration, and decoded as a stream."""
from __future__ import annotations

from gq.say import tell

MARKS = ((b"\xff\xfe\x00\x00", "utf-32-le"), (b"\x00\x00\xfe\xff", "utf-32-be"), (b"\xff\xfe", "utf-16-le"), (b"\xfe\xff", "utf-16-be"),
         (b"\xef\xbb\xbf", ""))
BARE = ((b"<\x00?\x00", "utf-16-le"), (b"\x00<\x00?", "utf-16-be"), (b"<\x00\x00\x00", "utf-32-le"), (b"\x00\x00\x00<", "utf-32-be"))
PLAIN = ("utf-8", "utf8", "us-ascii", "ascii")
NOT_FOR_DOCUMENTS = ("idna", "punycode", "unicode-escape", "raw-unicode-escape", "undefined", "utf-7", "unicode_escape", "raw_unicode_escape",
                     "mbcs", "oem", "utf-8-sig", "utf-16", "utf-32", "utf-16-le", "utf-16-be", "utf-32-le", "utf-32-be")
announced: set[str] = set()


def known(head: bytes) -> bool:
    """Whether these first bytes are enough to know the encoding."""
    if len(head) < 4:
        return len(head) > 0 and not any(it.startswith(head) for it, _ in MARKS + BARE) and not b"<?xml".startswith(head)
    return not b"<?xml".startswith(head[:5]) or b"?>" in head


def of(head: bytes) -> str | None:
    """The name of the encoding of a document that begins so; None for UTF-8, and where it isn't known."""
    for mark, name in MARKS + BARE:
        if head.startswith(mark):
            return name or None
    name = declared(head)
    return None if name is None else text_encoding(name)


def declared(head: bytes) -> str | None:
    """The encoding that the XML declaration of a document names."""
    if not head.startswith((b"<?xml", b"\xef\xbb\xbf<?xml")):
        return None
    words = head.partition(b"?>")[0]
    after = words.partition(b"encoding")[2].lstrip()
    value = after[1:].lstrip()
    if after[:1] != b"=" or value[:1] not in (b'"', b"'"):
        return None
    name, end, _ = value[1:].partition(value[:1])
    if not end or not name.replace(b"-", b"").replace(b".", b"").replace(b"_", b"").isalnum():
        return None
    return name.decode("ascii", "replace")


def text_encoding(name: str) -> str | None:
    """The codec of a declared name; None for UTF-8, for what no codec has, and for what this document can't be in."""
    if name.lower() in PLAIN:
        return None
    import codecs
    try:
        codec = codecs.lookup(name)
    except (LookupError, ValueError):
        return None
    if codec.name in PLAIN or codec.name in NOT_FOR_DOCUMENTS or not getattr(codec, "_is_text_encoding", True):
        return None
    return codec.name


def unknown(head: bytes) -> str | None:
    """The declared name of an encoding that has no codec."""
    name = declared(head)
    if name is None or name.lower() in PLAIN:
        return None
    import codecs
    try:
        codecs.lookup(name)
    except (LookupError, ValueError):
        return name
    return None


def announce_unknown(name: bytes, encoding: str) -> None:
    """Says once for each encoding that it isn't known."""
    if encoding not in announced:
        announced.add(encoding)
        tell(name + f": the encoding {encoding}, which it declares, isn't known here: read as UTF-8".encode())


def announce(name: bytes, codec: str) -> None:
    """Says once for each encoding that a document isn't in UTF-8."""
    if codec not in announced:
        announced.add(codec)
        tell(name + f": read as {codec.upper()}".encode())


class Decoder:
    """A step of a pump: another encoding becomes UTF-8. A sequence that isn't of the encoding ends the document, as a fault."""

    def __init__(self, codec: str) -> None:
        import codecs
        self.codec = codec
        self.decoder = codecs.getincrementaldecoder(codec)()
        self.given = 0
        self.fault: tuple[int, str] | None = None
        self.over = False

    def feed(self, block: bytes, final: bool = False) -> bytes:
        """The block in UTF-8."""
        if self.fault is not None:
            return b""
        try:
            text = self.decoder.decode(block, final)
        except UnicodeDecodeError as error:
            text = self.before(error)
            out = text.encode("utf-8", "replace")
            self.fault = (self.given + len(out), f"not {self.codec.upper()} from here on")
            self.over = True
        else:
            out = text.encode("utf-8", "replace")
        self.given += len(out)
        return out

    def before(self, error: UnicodeDecodeError) -> str:
        """What stands before the bytes that can't be decoded."""
        return error.object[:error.start].decode(self.codec, "ignore")

    def end(self) -> bytes:
        """What a cut sequence leaves."""
        return self.feed(b"", True)
