"""Functions that the query language hasn't, and what does their work."""
from __future__ import annotations

import re

CALL = re.compile(rb"([-\w]+(?::[-\w]+)?)\s*\(")
HAS = (b"exists", b"not", b"true", b"text", b"node")
WORDS = (b"if", b"where", b"and", b"or", b"return", b"then", b"else", b"in")  # what may stand before a parenthesis besides
TEXTS = "gq -l '/a/b/text()' FILE"
PIPE = {
    b"distinct-values": f"{TEXTS} | sort -u", b"sum": TEXTS + " | awk '{ n += $1 } END { print n }'",
    b"min": f"{TEXTS} | sort -n | head -n 1", b"max": f"{TEXTS} | sort -n | tail -n 1",
    b"avg": TEXTS + " | awk '{ n += $1 } END { print n / NR }'", b"position": "gq -l .. | sed -n 3p takes the third of all",
    b"last": "gq -l .. | tail -n 1 takes the last of all", b"contains": "gq .. | grep looks into texts",
    b"empty": "not(exists($x/a))", b"false": "not(true())", b"doc": "the document is FILE: gq /a/b FILE",
    b"string": "/text() gives the text, and a comparison takes all text by itself", b"number": "a comparison with a number takes numbers",
    b"concat": "<r>{$x/a, $x/b}</r>", b"string-join": "gq -t ROW COLUMN .. -s SEPARATOR joins values",
    b"name": "a path has the name, with its prefix as the document has it: //p:node",
}
ALIKE = {b"data": b"string", b"local-name": b"name", b"node-name": b"name", b"starts-with": b"contains", b"ends-with": b"contains",
         b"matches": b"contains", b"document": b"doc", b"collection": b"doc"}


def called(rest: bytes, past: bytes) -> bytes | None:
    """The function that is called at a place, or before the parenthesis there; None: none is."""
    found = re.search(rb"([-\w]+(?::[-\w]+)?)\s*\Z", past) if rest[:1] == b"(" else CALL.match(rest)
    name = found[1].rpartition(b":")[2] if found else b""
    return name if name and not name[:1].isdigit() and name not in HAS + WORDS else None


def instead(name: bytes, text: bytes, what: str) -> str:
    """What does the work of a function in a text."""
    shown = name.decode("utf-8", "replace")
    if name == b"count":
        return of_count(text, what)
    if what == "column":
        return f"there is no function {shown}: a column is a path from the row"
    cure = PIPE.get(ALIKE.get(name, name), "there are only exists, not and true, in conditions")
    path = re.search(rb"\b" + re.escape(name) + rb"\s*\(\s*(/[-\w.:/*\x80-\xff]+)(?:/text\(\))?\s*\)", text)
    if path:
        cure = cure.replace("/a/b", path[1].decode("utf-8", "replace"))
    return f"there is no function {shown}: {cure}"


def of_count(text: bytes, what: str) -> str:
    """The same of `count`: gq counts what a whole query gives."""
    whole = re.fullmatch(rb"\s*count\s*\(\s*([^()]*(?:\(\))?)\s*\)\s*", text)
    if whole and what == "query":
        return f"gq -c '{whole[1].decode('utf-8', 'replace')}' FILE counts"
    if what == "query":
        return "there is no function count: gq -c QUERY FILE counts the matches of a whole query"
    return "there is no function count: gq -c counts rows, and gq -j writes several values as an array"
