"""Messages about faults of queries and documents: `name:line:column: words`, the line with a caret, and a hint."""
from __future__ import annotations

from gq.kept import Counted, Place
from gq.made import Made
from gq.say import as_bytes, say

SHOWN = 110  # characters of a line
QUERY = {
    "Lex": "no word of a query begins here", "Syntax": "this can't stand here", "UnknownVar": "no loop around it binds this variable",
    "DescendantNotLast": "a step follows // here", "TagMismatch": "the end tag has another name than the start tag", "Utf8": "not UTF-8",
    "IntegerWide": "the number is beyond 64 bits, or has more than 18 decimals", "Absolute": "a column begins at the row, without a slash",
    "FromRoot": "a path of a condition begins at the row, without a slash",
    "NodeColumn": "node() can't be a column: * or text() can", "TooLarge": "too much stands in one another",
}
TOO_LARGE = {
    "Text": "more than {} bytes", "Nesting": "more than {} constructs in one another", "Loops": "more than {} loops",
    "Steps": "more than {} steps in conditions", "Conditions": "conditions of more than {} bytes", "Roles": "more than {} roles in its plan",
    "Descendants": "more than {} descendant steps on the way to a node",
}
DOCUMENT = {
    "Syntax": "no XML from here on", "Utf8": "not UTF-8 from here on", "Truncated": "the document ends too soon",
    "Depth": "more than 1,000 elements are open", "NameLong": "a name of more than 1,024 bytes", "TextLong": "a text of more than 16 MiB",
    "TooLong": "more than 1 TiB",
}


def width(text: str) -> int:
    """How many columns of a terminal a text takes."""
    if text.isascii():
        return len(text)
    import unicodedata
    return sum(0 if unicodedata.category(it) in ("Mn", "Me", "Cf") else 2 if unicodedata.east_asian_width(it) in "WF" else 1 for it in text)


def clean(text: str) -> str:
    """A tab as one space, and no character that a terminal would obey."""
    return "".join(" " if it == "\t" else it if it.isprintable() else "\ufffd" for it in text)


def cut(before: str, after: str) -> tuple[str, str]:
    """The part of a line around a place that is shown: what is before it, and the rest."""
    room = max(SHOWN - len(after), SHOWN * 6 // 10)
    if len(before) > room:
        before = "…" + before[len(before) - room + 1:]
    room = SHOWN - len(before)
    return before, after if len(after) <= room else after[:room - 1] + "…"


def show(name: bytes, line: int, column: int, words: str, before: str, after: str, hint: str) -> None:
    """Writes a message, the line with its caret if it isn't empty, and a hint if there is one."""
    before, after = cut(clean(before), clean(after))
    say(name + f":{line}:{column}: {words}".encode())
    if before or after:
        say(f"  {before}{after}")
        say("  " + " " * width(before) + "^")
    if hint:
        say("  " + hint)


def text_fault(name: bytes, text: bytes, offset: int, words: str, hint: str) -> None:
    """A fault in a text that is at hand."""
    counted = Counted()
    counted.count(text[:offset])
    at = Place(counted, text[:offset], text[offset:], b"")
    show(name, at.line, at.column, words, at.before, at.after, hint)


def query(name: bytes, made: Made, kind: str, words: list[str]) -> None:
    """A query that gcx refused. NAME is what messages call the user's query. A place is shown in the user's words; what gq made of them is
    shown where it has none there."""
    from gq import hints
    if kind == "TooLarge":
        limit = f"{int(words[1]):,}" if len(words) > 1 and words[1].isdigit() else ""
        say(name + b": too large: " + TOO_LARGE.get(words[0], words[0]).format(limit).encode())
        show_made(made)
        return
    offset = int(words[0])
    origin = made.origin(offset)
    if origin is None:
        text_fault(name + b" (made by gq)", made.text, offset, QUERY.get(kind, kind), hints.of_query(kind, made.text, offset))
        return
    what, place = origin
    shown = what.partition("#")[0]
    slip(name if what == "query" else shown.encode(), made.words[what], kind, place, shown)


def slip(name: bytes, text: bytes, kind: str, place: int, what: str) -> None:
    """A fault in words of the user: a query, or a part of a table."""
    from gq import hints
    text_fault(name, text, place, QUERY.get(kind, kind), hints.of_query(kind, text, place, what))


def show_made(made: Made) -> None:
    """What gq made of the user's words, where it made something."""
    if made.is_made():
        say(b"  made by gq: " + clean(made.text.decode("utf-8", "replace")).strip()[:4 * SHOWN].encode())


def document(name: bytes, words: str, hint: str, at: Place | None, offset: int) -> None:
    """A fault of a document, at a place if that is known."""
    if at is None:
        say(name + f": {words}, at byte {offset:,}".encode())
        if hint:
            say("  " + hint)
    else:
        show(name, at.line, at.column, words, at.before, at.after, hint)


def refused_document(name: bytes, kind: str, at: Place | None, offset: int) -> None:
    """A document that gcx refused."""
    from gq import cures
    words, hint = cures.of_document(kind, at, offset)
    document(name, words or DOCUMENT.get(kind, kind), hint, at, offset)


def refused(name: str | bytes, words: str) -> None:
    """A message without a place."""
    say(as_bytes(name) + b": " + words.encode())
