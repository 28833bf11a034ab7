"""Queries in which each match of the user's query is marked, so that the answer can be cut, and parts of tables."""
from __future__ import annotations

from gq.made import Made
from gq.syntax import Grammar, Path, Slip


class Marking(Grammar):
    """Notes the edits that put a mark after each part of the answer: an empty pair of tags."""

    def __init__(self, text: bytes, mark: bytes) -> None:
        super().__init__(text)
        self.text = text
        self.mark = mark
        self.edits: list[tuple[int, int, bytes]] = []

    def met_output(self, path: Path) -> None:
        """Each match of a path is a part."""
        if path.steps:
            self.put(path.start, b" for $gq in ", path.end, b" return ($gq, <" + self.mark + b"/>)")
        else:
            self.met_element(path.start, path.end)

    def met_element(self, start: int, end: int) -> None:
        """A constructor is one."""
        self.put(start, b" (", end, b", <" + self.mark + b"/>)")

    def put(self, start: int, before: bytes, end: int, after: bytes) -> None:
        """Puts words before a part and after it."""
        self.edits += [(start, 0, before), (end, 0, after)]


class Counting(Marking):
    """Writes the mark alone for each part: nothing of the document is copied."""

    drops = False  # a part of the query isn't in what is made, so that gcx wouldn't judge it

    def met_output(self, path: Path) -> None:
        """A variable alone stands for one node."""
        if path.steps:
            self.put(path.start, b" for $gq in ", path.end, b" return <" + self.mark + b"/>")
        else:
            self.put(path.start, b" if (exists(", path.end, b")) then <" + self.mark + b"/> else ()")

    def met_element(self, start: int, end: int) -> None:
        """The constructor goes, with what it would copy."""
        self.drops = True
        self.edits.append((start, end - start, b"<" + self.mark + b"/>"))


def marked(query: bytes, mark: bytes) -> Made:
    """The query with a mark after each match. Raises `Slip` for what is no query."""
    return made_by(Marking(query, mark), query)


def counted(query: bytes, mark: bytes) -> tuple[Made, bool]:
    """The query with a mark for each match, and whether all of the query is in it. Raises `Slip` for what is no query."""
    reader = Counting(query, mark)
    return made_by(reader, query), not reader.drops


def made_by(reader: Marking, query: bytes) -> Made:
    """What a reader's edits make."""
    reader.query()
    return Made().add_edited("query", query, sorted(reader.edits, key=lambda it: it[0]))


class Relative(Grammar):
    """Notes the edits by which paths begin at the variable of the row."""

    def __init__(self, text: bytes) -> None:
        super().__init__(text, True)
        self.text = text
        self.edits = [(it.start, 1, b"") for it in self.list if it.kind == "sign" and it.text == b"@"]

    def met_condition(self, path: Path) -> None:
        """A path of the condition. One that begins at the document would ask the same of each row."""
        if not path.relative and path.variable is None:
            raise Slip("FromRoot", path.start)
        if path.relative:
            dot = self.text[path.start:path.start + 1] == b"."
            self.edits.append((path.start, 1, b"$gq") if dot else (path.start, 0, b"$gq/"))


def condition_edits(text: bytes) -> list[tuple[int, int, bytes]]:
    """What makes names of a condition paths of the row."""
    reader = Relative(text)
    reader.condition()
    reader.ends()
    return sorted(reader.edits, key=lambda it: (it[0], it[1]))


def column_edits(text: bytes) -> tuple[list[tuple[int, int, bytes]], Path]:
    """The same of a column, which is one path, and that path."""
    reader = Relative(text)
    path = reader.path()
    reader.ends()
    if not path.relative:
        raise Slip("Absolute", 0)
    if path.steps and path.steps[-1][1] == b"node()":
        raise Slip("NodeColumn", reader.list[-4].start)
    reader.met_condition(path)
    return sorted(reader.edits, key=lambda it: (it[0], it[1])), path


def row_path(text: bytes) -> Path:
    """The path of the rows of a table."""
    reader = Grammar(text)
    path = reader.path()
    reader.ends()
    if path.variable is not None:
        raise Slip("UnknownVar", 0)
    return path

