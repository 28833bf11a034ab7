"""The grammar of the query language.

In a part of a table (a condition, a column) a path may begin at the row: by a name, `@name` or `.`. `gcx` judges each query; what is
refused here is what can't be built into a larger one."""
from __future__ import annotations

import sys

from gq.tokens import Slip, Token, tokens

RELATIONS = (b"=", b"!=", b"<", b"<=", b">", b">=")
MOST_OPEN = 500  # expressions and conditions in one another, of which a query that gcx takes has 401 at most


class Path:
    """A path that the grammar met: from START to END; its variable or None; its steps, each (descendant, test)."""
    __slots__ = ("start", "end", "variable", "steps", "relative")

    def __init__(self, start: int) -> None:
        self.start = start
        self.end = start
        self.variable: bytes | None = None
        self.steps: list[tuple[bool, bytes]] = []
        self.relative = False


class Grammar:
    """Reads tokens by the grammar. What comes is told to the methods below `Met`, which a reader with a purpose overrides."""

    def __init__(self, text: bytes, relative: bool = False) -> None:
        self.list = tokens(text, relative)
        self.at = 0
        self.relative = relative
        self.open = 0
        sys.setrecursionlimit(8 * MOST_OPEN)

    # Met: a path or a constructor that is part of the answer itself, a clause of a loop, a path of a condition.
    def met_output(self, path: Path) -> None:
        """A path whose matches are copied into the answer, outside all constructors."""

    def met_element(self, start: int, end: int) -> None:
        """A constructor that stands in the answer outside all others."""

    def met_inner(self, path: Path) -> None:
        """A path whose matches are copied into a constructor."""

    def met_clause(self, variable: bytes, path: Path) -> None:
        """A clause of a loop."""

    def met_condition(self, path: Path) -> None:
        """A path in a condition."""

    def met_compared(self, path: Path) -> None:
        """One that is a side of a comparison."""
        self.met_condition(path)

    # Tokens.
    @property
    def now(self) -> Token:
        """The token that is read next."""
        return self.list[self.at]

    def next_is(self, text: bytes, ahead: int = 0) -> bool:
        """Whether the token this far ahead is this sign or name."""
        token = self.list[min(self.at + ahead, len(self.list) - 1)]
        return token.kind in ("sign", "name") and token.text == text

    def take(self, text: bytes) -> Token:
        """Reads this sign or name."""
        if not self.next_is(text):
            raise self.slip()
        return self.step()

    def step(self) -> Token:
        """Reads a token."""
        token = self.now
        self.at += token.kind != "end"
        return token

    def slip(self) -> Slip:
        """The token that is next has no place here."""
        return Slip("Syntax", self.now.start)

    def enter(self) -> None:
        """A construct begins."""
        self.open += 1
        if self.open > MOST_OPEN:
            raise Slip("TooLarge", self.now.start)

    def leave(self) -> None:
        """A construct is over."""
        self.open -= 1

    # Expressions.
    def query(self) -> None:
        """A whole query."""
        self.expressions(True)
        self.ends()

    def ends(self) -> None:
        """Nothing stands behind."""
        if self.now.kind != "end":
            raise self.slip()

    def expressions(self, output: bool) -> None:
        """Expressions with commas between. OUTPUT: no constructor is round them."""
        self.expression(output)
        while self.next_is(b","):
            self.step()
            self.expression(output)

    def expression(self, output: bool) -> None:
        """One expression."""
        self.enter()
        if self.next_is(b"for") and self.list[self.at + 1].kind == "var":
            self.loop(output)
        elif self.next_is(b"if") and self.next_is(b"(", 1):
            self.branch(output)
        elif self.next_is(b"<"):
            start = self.now.start
            end = self.element()
            if output:
                self.met_element(start, end)
        elif self.next_is(b"("):
            self.step()
            if not self.next_is(b")"):
                self.expressions(output)
            self.take(b")")
        else:
            (self.met_output if output else self.met_inner)(self.path())
        self.leave()

    def loop(self, output: bool) -> None:
        """`for .. return ..`."""
        self.step()
        while True:
            if self.now.kind != "var":
                raise self.slip()
            variable = self.step().text
            self.take(b"in")
            path = self.path()
            if not path.steps:
                raise self.slip()
            self.met_clause(variable, path)
            if not self.next_is(b","):
                break
            self.step()
        if self.next_is(b"where"):
            self.step()
            self.condition()
        self.take(b"return")
        self.expression(output)

    def branch(self, output: bool) -> None:
        """`if (..) then .. else ..`."""
        self.step()
        self.take(b"(")
        self.condition()
        self.take(b")")
        self.take(b"then")
        self.expression(output)
        self.take(b"else")
        self.expression(output)

    def element(self) -> int:
        """A constructor; the place after it."""
        self.enter()
        self.take(b"<")
        name = self.name()
        if self.next_is(b"/>"):
            self.leave()
            return self.step().end
        self.take(b">")
        while not self.next_is(b"</"):
            if self.next_is(b"<"):
                self.element()
            else:
                self.take(b"{")
                self.expressions(False)
                self.take(b"}")
        self.step()
        if self.now.kind == "name" and self.now.text != name:
            raise Slip("TagMismatch", self.now.start)
        self.name()
        self.leave()
        return self.take(b">").end

    def name(self) -> bytes:
        """A name."""
        if self.now.kind != "name":
            raise self.slip()
        return self.step().text

    # Paths.
    def path(self) -> Path:
        """A path: from the document, a variable, or where they are relative from the row."""
        path = Path(self.now.start)
        if self.now.kind == "var":
            path.variable = self.step().text
        elif self.relative and self.next_is(b"."):
            self.step()
            path.relative = True
        elif self.relative and not self.next_is(b"/") and not self.next_is(b"//"):
            path.relative = True
            path.steps.append(self.axis_and_test(False))
        elif not self.next_is(b"/") and not self.next_is(b"//"):
            raise self.slip()
        while self.next_is(b"/") or self.next_is(b"//"):
            deep = self.step().text == b"//"
            path.steps.append(self.axis_and_test(deep))
        path.end = self.list[self.at - 1].end
        return path

    def axis_and_test(self, deep: bool) -> tuple[bool, bytes]:
        """A step after its slash."""
        if not deep and self.next_is(b"::", 1) and (self.next_is(b"child") or self.next_is(b"descendant")):
            deep = self.step().text == b"descendant"
            self.step()
            return deep, self.test(False)
        return deep, self.test(self.relative)

    def test(self, attribute: bool) -> bytes:
        """The test of a step. ATTRIBUTE: `@` may stand before the name."""
        if attribute and self.next_is(b"@"):
            self.step()
            return self.name()
        if self.next_is(b"*"):
            return self.step().text
        if (self.next_is(b"text") or self.next_is(b"node")) and self.next_is(b"(", 1):
            name = self.step().text
            self.step()
            self.take(b")")
            return name + b"()"
        return self.name()

    # Conditions.
    def condition(self) -> None:
        """Conditions joined by `or` and `and`."""
        self.enter()
        self.atom()
        while self.next_is(b"and") or self.next_is(b"or"):
            self.step()
            self.atom()
        self.leave()

    def atom(self) -> None:
        """One condition."""
        if self.next_is(b"("):
            self.step()
            self.condition()
            self.take(b")")
        elif self.next_is(b"not") and self.next_is(b"(", 1):
            self.step()
            self.step()
            self.condition()
            self.take(b")")
        elif self.next_is(b"true") and self.next_is(b"(", 1):
            self.step()
            self.step()
            self.take(b")")
        elif self.next_is(b"exists") and self.next_is(b"(", 1):
            self.step()
            self.step()
            self.met_condition(self.path())
            self.take(b")")
        else:
            self.comparison()

    def comparison(self) -> None:
        """Two sides with a relation between; one of them at least is a path."""
        literal = self.side()
        if not (self.now.kind == "sign" and self.now.text in RELATIONS):
            raise self.slip()
        self.step()
        if literal and self.now.kind in ("number", "string"):
            raise self.slip()
        self.side()

    def side(self) -> bool:
        """A side of a comparison; whether it is a literal."""
        if self.now.kind in ("number", "string"):
            self.step()
            return True
        self.met_compared(self.path())
        return False
