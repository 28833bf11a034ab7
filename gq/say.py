"""Words for the user: lines on standard error, and the error that ends an order."""
from __future__ import annotations

import os


UNSEEN = bytes(it if it in b"\t\n" or 32 <= it != 127 else 63 for it in range(256))  # for what a terminal would obey: a question mark


class Refused(Exception):
    """Ends the order with an exit code, after one line on standard error that begins with `gq: `."""

    def __init__(self, code: int, text: str | bytes) -> None:
        super().__init__(code, text)
        self.code = code
        self.text = text


class Ended(Exception):
    """Ends the order with an exit code; all is told."""

    def __init__(self, code: int) -> None:
        super().__init__(code)
        self.code = code


def as_bytes(text: str | bytes) -> bytes:
    """Words as they go out: UTF-8, and names of files with the bytes that they have."""
    return text if isinstance(text, bytes) else text.encode("utf-8", "surrogateescape")


def say(text: str | bytes) -> None:
    """Writes a line on standard error. A standard error that can't be written is no reason to fail."""
    rest = as_bytes(text).translate(UNSEEN) + b"\n"
    try:
        while rest:
            rest = rest[os.write(2, rest):]
    except OSError:
        pass


def tell(text: str | bytes) -> None:
    """Writes a line that is the program's own: after `gq: `."""
    say(b"gq: " + as_bytes(text))
