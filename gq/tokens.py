"""Tokens of the query language with their places, which are offsets in bytes, as `gcx` tells them. Read by hand: a start of gq takes
half as long without regular expressions."""
from __future__ import annotations

SPACES = b" \t\r\n"
DIGITS = b"0123456789"
NAME_BEGINS = frozenset(b"ABCDEFGHIJKLMNOPQRSTUVWXYZabcdefghijklmnopqrstuvwxyz_:" + bytes(range(128, 256)))
NAME_GOES_ON = NAME_BEGINS | frozenset(b"-.0123456789")
PAIRS = (b"//", b"::", b"</", b"/>", b"!=", b"<=", b">=")
SIGNS = b"(){},/*=<>"


class Slip(Exception):
    """A text that is no query, with the name that `gcx` gives the fault, and its place."""

    def __init__(self, kind: str, place: int) -> None:
        super().__init__(kind, place)
        self.kind = kind
        self.place = place


class Token:
    """A word of a query: `kind` is var, name, number, string, sign or end; `text` its bytes; it begins at `start`."""
    __slots__ = ("kind", "text", "start")

    def __init__(self, kind: str, text: bytes, start: int) -> None:
        self.kind = kind
        self.text = text
        self.start = start

    @property
    def end(self) -> int:
        """The place after it."""
        return self.start + len(self.text)


def tokens(text: bytes, relative: bool = False) -> list[Token]:
    """The tokens of a query, and at last one of kind end. RELATIVE: `.` and `@` are tokens too."""
    found = []
    at = 0
    while at < len(text):
        if text[at] in SPACES:
            at += 1
        elif text.startswith(b"(:", at):
            at = after_comment(text, at)
        else:
            kind, end = one(text, at, relative)
            found.append(Token(kind, text[at:end], at))
            at = end
    found.append(Token("end", b"", len(text)))
    return found


def one(text: bytes, at: int, relative: bool) -> tuple[str, int]:
    """The kind of the token that begins at a place, and the place after it."""
    sign = text[at:at + 1]
    if sign in (b'"', b"'"):
        return "string", after_string(text, at)
    if begins_name(text, at):
        return "name", after_name(text, at)
    if sign == b"$" and begins_name(text, at + 1):
        return "var", after_name(text, at + 1)
    if sign.isdigit() or (sign == b"-" and text[at + 1:at + 2].isdigit()):
        return "number", after_number(text, at)
    if text[at:at + 2] in PAIRS:
        return "sign", at + 2
    if sign in SIGNS or (relative and sign in b".@"):
        return "sign", at + 1
    raise Slip("Lex", at)


def after_comment(text: bytes, start: int) -> int:
    """The place after the comment that begins at a place. Comments nest."""
    depth, at = 1, start + 2
    while depth:
        begin, end = text.find(b"(:", at), text.find(b":)", at)
        if end < 0:
            raise Slip("Lex", start)
        inner = 0 <= begin < end
        depth += 1 if inner else -1
        at = (begin if inner else end) + 2
    return at


def after_string(text: bytes, start: int) -> int:
    """The same of a string. A doubled delimiter stands for one."""
    quote, at = text[start:start + 1], start + 1
    while True:
        end = text.find(quote, at)
        if end < 0:
            raise Slip("Lex", start)
        if text[end + 1:end + 2] != quote:
            return end + 1
        at = end + 2


def begins_name(text: bytes, at: int) -> bool:
    """Whether a name begins at a place; it doesn't with two colons."""
    return at < len(text) and text[at] in NAME_BEGINS and not text.startswith(b"::", at)


def after_name(text: bytes, start: int) -> int:
    """The place after a name: it ends before two colons."""
    at = start
    while at < len(text) and text[at] in NAME_GOES_ON and not text.startswith(b"::", at):
        at += 1
    return at


def after_number(text: bytes, start: int) -> int:
    """The place after a number."""
    at = after_digits(text, start + 1)
    if text[at:at + 1] == b"." and text[at + 1:at + 2].isdigit():
        at = after_digits(text, at + 1)
    return at


def after_digits(text: bytes, at: int) -> int:
    """The place after digits."""
    while at < len(text) and text[at] in DIGITS:
        at += 1
    return at
