"""What roles keep, until when and why, in words."""
from __future__ import annotations

from typing import Dict, List, NamedTuple, Tuple

from gq.explained import Plan
from gq.waits import CONDITION, JOIN, LOOP, NESTED, Until, Walk, may_grow

FOR = {"copy": "to copy it", "compare": "to compare it", "exists": "to know that it is there", "loop": "for the turns of its loop"}


class Reason(NamedTuple):
    """A reason to keep nodes, of one role or of several that are alike: what, what for, until when and why, and whether it may grow."""

    roles: Tuple[int, ...]
    what: str
    uses: Tuple[str, ...]
    until: str
    grows: bool

    def lines(self) -> List[str]:
        """It in words."""
        names = ", ".join(map(str, self.roles))
        keep = f"role {names} keeps" if len(self.roles) == 1 else f"roles {names} keep"
        return [f"{keep} {self.what}, {' and '.join(self.uses)},", "  until " + self.until]


def end_of(plan: Plan, variable: int, why: str = "") -> str:
    """The end of the node of a variable."""
    it = plan.variables[variable]
    if variable == 0 or it.source == 0 and not it.goes_down:
        return "the document ends"
    return f"the outermost {it.path} around it ends" if why == NESTED else f"its {it.path} ends"


def what_is_kept(plan: Plan, number: int) -> str:
    """The nodes that a role keeps."""
    role = plan.roles[number]
    if role.kind == "first":
        return f"the first {role.path}" + (f" of each {plan.variables[role.variable].path}" if role.variable else "")
    return f"each {role.path}, with all below it" if role.kind == "whole" else f"each {role.path}"


def until_when(plan: Plan, number: int, until: Until) -> str:
    """Until when it is kept."""
    role = plan.roles[number]
    if until.variable is None or until.variable == role.variable and role.tail == "." and until.why != NESTED:
        return "its own end"
    words = end_of(plan, until.variable, until.why)
    return words + ", or the condition is known before" if until.why == CONDITION else words


def because(plan: Plan, walk: Walk, number: int) -> str:
    """Why it is kept so long, where a loop is the reason; else empty: the query's own words tell it."""
    until, variable = walk.until[number], plan.roles[number].variable
    if until.variable is None or until.variable == variable:
        return ""
    if until.why == LOOP and until.variable in walk.before.get(variable, {}):
        return ": its loop begins when the one before is over"
    if until.why == JOIN:
        return ": each turn goes over other nodes" if plan.variables[variable].is_straight else ": each turn of the loop around needs it"
    return ""


def is_kept(plan: Plan, walk: Walk, number: int) -> bool:
    """Whether a role keeps more than the open nodes: that of a loop's own nodes does where it is held beyond their end."""
    role, until = plan.roles[number], walk.until[number]
    is_beyond = until.variable is not None and (until.variable != role.variable or until.why == NESTED)
    return number != 0 and (role.kind != "own" or is_beyond)


def telling(plan: Plan, walk: Walk) -> List[int]:
    """The roles that keep something, without those of a loop's own nodes where another keeps these or nodes in them as long."""
    found = [it for it in sorted(plan.roles) if is_kept(plan, walk, it)]

    def is_told(number: int) -> bool:
        role, end = plan.roles[number], walk.until[number].variable
        return role.kind != "own" or not any(
            walk.until[it].variable == end and (plan.roles[it].path + "/").startswith(role.path + "/")
            for it in found if it > number or plan.roles[it].kind != "own")

    return [it for it in found if is_told(it)]


def reasons(plan: Plan, walk: Walk) -> List[Reason]:
    """The reasons to keep nodes; roles that keep the same as long are one."""
    found: Dict[Tuple[str, str], Reason] = {}
    for number in telling(plan, walk):
        what, until = what_is_kept(plan, number), until_when(plan, number, walk.until[number]) + because(plan, walk, number)
        use = FOR[plan.uses.get(number, "loop")]
        it = found.get((what, until), Reason((), what, (), until, False))
        uses = it.uses if use in it.uses else (*it.uses, use)
        found[what, until] = Reason((*it.roles, number), what, uses, until, it.grows or may_grow(plan, number, walk.until[number]))
    return list(found.values())
