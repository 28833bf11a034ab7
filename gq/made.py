"""A query that gq gives to gcx: what it has of the user's words, and where."""
from __future__ import annotations

import os


class Made:
    """A query that gq made, and which parts of it come from which words: (place here, length, what the words are, place there)."""

    def __init__(self) -> None:
        self.text = b""
        self.parts: list[tuple[int, int, str, int]] = []
        self.words: dict[str, bytes] = {}

    def is_made(self) -> bool:
        """Whether there is more in it than the user's query."""
        return self.words.get("query") != self.text

    def add(self, text: bytes) -> Made:
        """Adds words of gq's own."""
        self.text += text
        return self

    def add_from(self, what: str, start: int, end: int) -> Made:
        """Adds a part of the user's words."""
        self.parts.append((len(self.text), end - start, what, start))
        self.text += self.words[what][start:end]
        return self

    def add_edited(self, what: str, words: bytes, edits: list[tuple[int, int, bytes]]) -> Made:
        """Adds the user's words with edits: (place, how many bytes go, what comes for them), by rising place."""
        self.words[what] = words
        at = 0
        for place, gone, text in edits:
            self.add_from(what, at, place).add(text)
            at = place + gone
        return self.add_from(what, at, len(words))

    def origin(self, place: int) -> tuple[str, int] | None:
        """The user's words that a place comes from, and the place there."""
        for start, length, what, there in self.parts:
            if start <= place < start + length or place == start + length == len(self.text):
                return what, there + place - start
        return None


def as_it_is(query: bytes) -> Made:
    """The user's query itself."""
    return Made().add_edited("query", query, [])


def new_mark() -> bytes:
    """A name that no document has: it is one of 10^14, another in each run."""
    letters = b"abcdefghijklmnopqrstuvwxyzABCDEFGHIJKLMNOPQRSTUVWXYZ"
    number = int.from_bytes(os.urandom(8), "big")
    name = b"_"
    for _ in range(8):
        number, letter = divmod(number, len(letters))
        name += letters[letter:letter + 1]
    return name
