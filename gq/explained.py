"""Reads the text of `gcx explain`, whose form docs/BUFFER.md fixes: the variables, the roles and the body of a plan."""
from __future__ import annotations

import re
from typing import Dict, List, NamedTuple, Set, Tuple, Union


class Variable(NamedTuple):
    """A variable: the one that its loop starts from, its step, its path from the document, and whether its loop's turns come once."""

    source: int
    step: str
    path: str
    is_straight: bool

    @property
    def goes_down(self) -> bool:
        """Whether its step is a descendant step, so that one of its nodes may lie in another."""
        return self.step.startswith("descendant::")


class Role(NamedTuple):
    """A reason to keep nodes: own, first or whole; its variable; the steps from there; and the path of the nodes."""

    kind: str
    variable: int
    tail: str
    path: str


class Write(NamedTuple):
    text: str


class Copy(NamedTuple):
    variable: int


class Loop(NamedTuple):
    variable: int
    body: "Body"


class Branch(NamedTuple):
    """A branch: its condition as a query has it, and the variables that it asks."""

    condition: str
    asked: Tuple[int, ...]
    then: "Body"
    other: "Body"


class Off(NamedTuple):
    """A statement that takes a role back."""

    base: int
    role: int


Item = Union[Write, Copy, Loop, Branch, Off]
Body = List[Item]
STEPS = r"(?:child|descendant)::[^\s/(),=<>!]+(?:\(\))?(?:/(?:child|descendant)::[^\s/(),=<>!]+(?:\(\))?)*"
SIDE = rf'\d+/{STEPS}|-?\d+(?:\.\d+)?|"(?:[^"]|"")*"'
PART = re.compile(rf"exists\((?P<exists>\d+)/(?P<steps>{STEPS})\)|\((?P<left>{SIDE}) (?P<relation>=|!=|<=|<|>=|>) (?P<right>{SIDE})\)"
                  r"|(?P<join>not|all|any)\(|true\(\)|(?P<more>, )|(?P<end>\))")


class Plan(NamedTuple):
    """A plan. Variable 0 is the document node, whose path is empty; `uses` has what each role is for: loop, copy, exists or compare."""

    variables: Dict[int, Variable]
    roles: Dict[int, Role]
    uses: Dict[int, str]
    body: Body

    def line(self, variable: int) -> List[int]:
        """A variable and those that its loops start from, up to the document."""
        found = [variable]
        while found[-1]:
            found.append(self.variables[found[-1]].source)
        return found


def path_of(steps: str) -> str:
    """Steps of a plan as a query has them: `child::a/descendant::b` is `/a//b`."""
    parts = [] if steps == "." else steps.split("/")
    return "".join("/" + it[7:] if it.startswith("child::") else "//" + it[12:] for it in parts)


def shown(variable: int) -> str:
    """What a path begins with in a query."""
    return f"${variable}" if variable else ""


def lines_of(text: str) -> List[str]:
    """The lines of a plan; a line end in a string of a condition doesn't end the condition's line."""
    found: List[str] = []
    is_open = False
    for line in text.split("\n")[:-1]:
        if is_open:
            found[-1] += "\n" + line
        else:
            found.append(line)
        is_open = found[-1].lstrip(" ").startswith("if ") and found[-1].count('"') % 2 == 1
    return found


class Reader:
    """Reads the body of a plan. Roles are numbered as the body is read, so what stands next tells what each role is for."""

    def __init__(self, lines: List[str], roles: Dict[int, Role]) -> None:
        self.lines = lines
        self.place = 0
        self.roles = roles
        self.next = 1
        self.uses: Dict[int, str] = {0: "loop"}

    def take(self, kind: str, variable: int, tail: str, use: str) -> bool:
        """Whether the next role is this one, which is then taken."""
        role = self.roles.get(self.next)
        if role is None or (role.kind, role.variable, role.tail) != (kind, variable, tail):
            return False
        self.uses[self.next] = use
        self.next += 1
        return True

    def condition(self, text: str, asked: Set[int]) -> str:
        """A condition as a query has it. Adds the variables that it asks."""
        parts: List[str] = []
        joins: List[str] = []
        at = 0
        while at < len(text):
            found = PART.match(text, at)
            if not found:
                return text
            at = found.end()
            if found["exists"]:
                self.take("first", int(found["exists"]), found["steps"], "exists")
                asked.add(int(found["exists"]))
                parts.append(f"exists({shown(int(found['exists']))}{path_of(found['steps'])})")
            elif found["left"]:
                left = self.side(found["left"], asked)
                parts.append(f"{left} {found['relation']} {self.side(found['right'], asked)}")
            elif found["join"]:
                joins.append(found["join"])
                parts.append("not(" if found["join"] == "not" else "(")
            elif found["more"]:
                parts.append(" and " if joins[-1] == "all" else " or ")
            else:
                parts.append(found["end"] or "true()")
                joins = joins[:-1] if found["end"] else joins
        return "".join(parts)

    def side(self, text: str, asked: Set[int]) -> str:
        """A side of a comparison. A number alone is a variable only where the next role is there for it."""
        number, _, steps = text.partition("/")
        if text.startswith('"') or not number.isdigit() or not self.take("whole", int(number), steps or ".", "compare") and not steps:
            return text
        asked.add(int(number))
        return shown(int(number)) + path_of(steps or ".")

    def loop(self, words: List[str], depth: int) -> Loop:
        """A loop, whose first role is that of its own nodes."""
        variable = int(words[0])
        self.next = next(it for it, role in self.roles.items() if role.kind == "own" and role.variable == variable)
        self.take("own", variable, ".", "loop")
        return Loop(variable, self.body(depth + 1))

    def branch(self, condition: str, depth: int) -> Branch:
        asked: Set[int] = set()
        text = self.condition(condition, asked)
        then = self.body(depth + 1)
        self.place += 1
        return Branch(text, tuple(sorted(asked)), then, self.body(depth + 1))

    def copy(self, variable: int) -> Copy:
        self.take("whole", variable, ".", "copy")
        return Copy(variable)

    def body(self, depth: int) -> Body:
        """The items at this depth, up to a line that isn't so deep, or to `else`."""
        found: Body = []
        while self.place < len(self.lines):
            line = self.lines[self.place]
            if not line.startswith(" " * depth) or line[depth:] == "else":
                break
            self.place += 1
            kind, _, rest = line[depth:].partition(" ")
            if kind == "for":
                found.append(self.loop(rest.split(" "), depth))
            elif kind == "if":
                found.append(self.branch(rest, depth))
            elif kind == "off":
                found.append(Off(*map(int, rest.split(" ")[:2])))
            else:
                found.append(Write(rest) if kind == "write" else self.copy(int(rest)))
        return found


def read(text: str) -> Plan:
    """The plan that a text of `gcx explain` tells."""
    lines = lines_of(text)
    head = lines.index("plan")
    variables = {0: Variable(0, ".", "", True)}
    roles: Dict[int, Role] = {}
    for words in (it.split(" ") for it in lines[:head]):
        number = int(words[1])
        if words[0] == "role":
            tail = words[4] if len(words) > 4 else "."
            roles[number] = Role(words[2], int(words[3]), tail, variables[int(words[3])].path + path_of(tail))
        elif number:
            source = int(words[3])
            variables[number] = Variable(source, words[4], variables[source].path + path_of(words[4]), words[5] == "straight")
    reader = Reader(lines[head + 1:], roles)
    body = reader.body(0)
    return Plan(variables, roles, reader.uses, body)
