"""What a query that matches nothing may have meant: the first step of each path that no element meets, and the nearest name that is there."""
from __future__ import annotations

import os

from gq import program
from gq.flow import Loop, Reading
from gq.inputs import Document, Feed
from gq.outline import FIRST, SAMPLE, Node, outline
from gq.marked import column_edits, row_path
from gq.say import say, tell
from gq.syntax import RELATIONS, Grammar, Path, Slip
from gq.tokens import tokens

MOST_TOLD = 4
Steps = tuple  # of (descendant, test)


class Paths(Grammar):
    """Collects the paths of a query, from the document on."""

    def __init__(self, text: bytes) -> None:
        super().__init__(text)
        self.bound: dict[bytes, Steps] = {}
        self.found: list[Steps] = []
        self.compared: list[tuple[Steps, bytes]] = []

    def met_clause(self, variable: bytes, path: Path) -> None:
        """A loop binds its variable."""
        self.bound[variable] = self.note(path)

    def note(self, path: Path) -> Steps:
        """The steps of a path from the document on."""
        steps = self.bound.get(path.variable or b"", ()) + tuple(path.steps)
        if steps not in self.found:
            self.found.append(steps)
        return steps

    def met_output(self, path: Path) -> None:
        """A path of the answer."""
        self.note(path)

    met_inner = met_condition = met_output

    def met_compared(self, path: Path) -> None:
        """A side of a comparison, with how its own text is asked for."""
        own = path.steps[-1][1] + b"/text()" if path.steps else b"text()"
        self.compared.append((self.note(path), own))


def names_step(step: tuple[bool, bytes]) -> bool:
    """Whether a step asks for elements of a name."""
    return step[1] != b"*" and not step[1].endswith(b"()")


def below(nodes: list[dict], step: tuple[bool, bytes]) -> list[dict]:
    """The nodes of an outline that a step reaches."""
    deep, test = step
    found: list[dict] = []
    waiting = list(nodes)
    while waiting:
        node = waiting.pop()
        for name, child in node.items():
            if (test == name or not names_step(step)) and child not in found:
                found.append(child)
            if deep:
                waiting.append(child)
    return found


def names_at(nodes: list[dict], deep: bool) -> list[bytes]:
    """The names that a step from these nodes can meet."""
    found: list[bytes] = []
    waiting = list(nodes)
    while waiting:
        node = waiting.pop()
        found += [it for it in node if it not in found]
        if deep:
            waiting += node.values()
    return found


def distance(one: str, other: str) -> int:
    """How many letters differ: put in, left out, changed, or two exchanged."""
    rows = [list(range(len(other) + 1))]
    for i, a in enumerate(one, 1):
        row = [i]
        for j, b in enumerate(other, 1):
            cost = min(rows[-1][j] + 1, row[-1] + 1, rows[-1][j - 1] + (a != b))
            if i > 1 and j > 1 and a == other[j - 2] and one[i - 2] == b:
                cost = min(cost, rows[-2][j - 2] + 1)
            row.append(cost)
        rows.append(row)
    return rows[-1][-1]


def nearest(name: bytes, names: list[bytes]) -> bytes | None:
    """The name that is most like this one, if one is."""
    wanted = name.decode("utf-8", "replace").lower()
    best, found = len(wanted) // 3 + 1.5, None
    for it in names[:1000]:
        other = it.decode("utf-8", "replace").lower()
        far = 0.5 if other.rpartition(":")[2] == wanted.rpartition(":")[2] else float(distance(wanted[:64], other[:64]))
        if far < best:
            best, found = far, it
    return found


def met(document: Document, subset: bool, steps: Steps) -> bool:
    """Whether a node of the first 64 MB is reached by these steps."""
    clauses = []
    for number, (deep, test) in enumerate(steps):
        base = b"$x%d" % (number - 1) if number else b""
        clauses.append(b"$x%d in " % number + base + (b"//" if deep else b"/") + test)
    query = program.memory_file(b"for " + b", ".join(clauses) + b" return <y/>")
    loop, seen = Loop(), []
    feed = Feed(loop, document, subset, FIRST)
    source, out = program.pipe()
    null = os.open(os.devnull, os.O_WRONLY)
    answer = Reading(loop, source, seen.append)
    child = program.Child([program.gcx(), "run", f"/dev/fd/{query}", "-"], feed.stdin, out, null)
    for it in (query, out, null):
        os.close(it)
    feed.begun()
    loop.run(lambda: answer.over or bool(seen))
    answer.stop()
    feed.stop()
    child.kill()
    if feed.unpacker is not None:
        feed.unpacker.kill()
    return bool(seen)


def first_unmet(document: Document, subset: bool, root: dict, steps: Steps, whole: bool) -> tuple[int, list[dict]] | None:
    """The number of the first step that nothing meets, and the nodes of the outline before it."""
    nodes = [root]
    for number, step in enumerate(steps):
        if not names_step(step) and step[1] != b"*":
            return None
        after = below(nodes, step)
        if not after and (whole or not met(document, subset, steps[:number + 1])):
            return number, nodes
        nodes = after
    return None


def written(steps: Steps) -> bytes:
    """Steps as a query has them."""
    return b"".join((b"//" if deep else b"/") + test for deep, test in steps)


def tell_nothing(document: Document | None, subset: bool, query: bytes, where: bytes = b"") -> None:
    """Says that nothing matches, and of a regular file what was likely meant. WHERE is the condition of a table."""
    tell("nothing matches")
    reader = Paths(query)
    try:
        reader.query()
    except Slip:
        return
    root = tell_unmet(document, subset, reader.found, texts(where))
    for steps, own in dict.fromkeys(reader.compared) if root is not None else ():
        tell_values_within(root, steps, own)


def tell_values_within(root: Node, steps: Steps, own: bytes) -> None:
    """Says it where the value of an element that is compared has that of others in it beside a text of its own, which is asked for by OWN."""
    nodes: list = [root]
    for step in steps:
        nodes = below(nodes, step)
    within = sorted({name for it in nodes if it.has_text for name in it})
    if within and names_step(steps[-1]):
        others = b", ".join(within[:MOST_TOLD]) + (b" and others" if len(within) > MOST_TOLD else b"")
        say(b"  the value of <" + steps[-1][1] + b"> has that of " + others + b" in it: " + own + b" is its own text")


def tell_columns(document: Document | None, subset: bool, row: bytes, columns: list[bytes]) -> None:
    """Says which columns of a table no row has, and of a regular file what was likely meant."""
    base = tuple(row_path(row).steps)
    for column in columns[:MOST_TOLD]:
        tell(b"no row has " + column)
        tell_unmet(document, subset, [base + tuple(column_edits(column)[1].steps)], set())
    if len(columns) > MOST_TOLD:
        tell(f"nor {len(columns) - MOST_TOLD} other columns")


def tell_unmet(document: Document | None, subset: bool, paths: list[Steps], maybe_texts: set[bytes]) -> Node | None:
    """Tells of a regular file the first step of each path that no element meets; its names, if they were read."""
    if document is None or not document.regular:
        return None
    root = outline(document, subset)
    whole = not document.packed() and document.size() <= SAMPLE
    told: list[bytes] = []
    for steps in paths:
        unmet = first_unmet(document, subset, root, steps, whole)
        if unmet is None or len(told) == MOST_TOLD:
            continue
        number, nodes = unmet
        line = told_line(steps[:number + 1], names_at(nodes, steps[number][0]), maybe_texts)
        if line not in told:
            told.append(line)
            say(line)
    return root


def texts(where: bytes) -> set[bytes]:
    """The names that stand after a relation in a condition, where somebody may have left the quotes out."""
    words = tokens(where, True)
    return {name.text for sign, name, after in zip(words, words[1:], words[2:])
            if sign.text in RELATIONS and name.kind == "name" and after.text in (b"", b")", b"and", b"or")}


def told_line(steps: Steps, names: list[bytes], maybe_texts: set[bytes]) -> bytes:
    """What is said of a path of which the last step isn't met."""
    test = steps[-1][1]
    line = b"  no element is " + written(steps) if names_step(steps[-1]) else b"  nothing is below " + written(steps[:-1])
    if test in maybe_texts:
        return line + b": a text stands in quotes, \"" + test + b"\""
    name = nearest(test, names) if names_step(steps[-1]) else None
    if name is None and test == b"text":
        return line + b": did you mean text()?"
    if name is not None:
        return line + b": did you mean <" + name + b">?"
    if names and len(names) <= 6:
        return line + b": there are " + b", ".join(b"<" + it + b">" for it in sorted(names))
    return line
