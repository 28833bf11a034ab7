"""`gq plan`: what a query keeps, until when, and what may grow with the document, in words. No document is read."""
from __future__ import annotations

from typing import Iterable, Iterator, List, Set, Tuple

from gq.explained import Body, Branch, Copy, Loop, Off, Plan, Write
from gq.flow import write_out
from gq.reasons import end_of, is_kept, reasons, telling
from gq.run import Job
from gq.waits import CONDITION, COPY, JOIN, LOOP, NESTED, Walk, is_top, may_grow
from gq.watched import order_of, plan_of

TIPS = {
    LOOP: "one loop that writes what all parts need keeps one turn only, and writes in another order",
    JOIN: "a join keeps the nodes of both its sides",
    CONDITION: "a condition on the node of the innermost loop keeps one turn only",
    COPY: "copy small elements: a copied one is kept whole until it ends",
}


def used(body: Body) -> Set[int]:
    """The variables that are copied and asked in a body."""
    found: Set[int] = set()
    for item in body:
        if isinstance(item, Copy):
            found.add(item.variable)
        elif isinstance(item, Branch):
            found |= {*item.asked, *used(item.then), *used(item.other)}
        elif isinstance(item, Loop):
            found |= used(item.body)
    return found


def merged(plan: Plan, loop: Loop) -> Tuple[int, Body]:
    """The variable and the body of the innermost of loops in one another that are one path."""
    inner = [it for it in loop.body if not isinstance(it, Off)]
    if len(inner) == 1 and isinstance(inner[0], Loop) and loop.variable not in used(inner):
        if plan.variables[inner[0].variable].source == loop.variable:
            return merged(plan, inner[0])
    return loop.variable, loop.body


def steps(plan: Plan, body: Body, depth: int) -> Iterator[str]:
    """What a run does, line by line."""
    lead = "  " * depth
    source = None
    for item in body:
        if isinstance(item, Loop):
            if source is not None:
                yield f"{lead}then, after that loop is over, when {end_of(plan, source)}:"
            source = plan.variables[item.variable].source
            variable, inner = merged(plan, item)
            yield f"{lead}for each {plan.variables[variable].path} as ${variable}"
            yield from steps(plan, inner, depth + 1)
        elif isinstance(item, Branch):
            for condition, side in ((item.condition, item.then), (f"not({item.condition})", item.other)):
                if side:
                    yield f"{lead}if {condition}"
                    yield from steps(plan, side, depth + 1)
        elif isinstance(item, Copy):
            yield f"{lead}copy ${item.variable}"
        elif isinstance(item, Write):
            yield f"{lead}write {item.text}"


def units(plan: Plan, walk: Walk) -> List[str]:
    """The paths of which one node at a time bounds what is kept; none of these nodes lies in another."""
    found = {plan.roles[it].variable if until.variable is None else until.variable
             for it, until in walk.until.items() if is_kept(plan, walk, it)}
    outer = [it for it in sorted(found) if not is_top(plan, it) and not found & set(plan.line(it)[1:])]
    return list(dict.fromkeys(plan.variables[it].path for it in outer))


def shared(paths: Iterable[str]) -> str:
    """The path of the nearest element around all these nodes, where it is below the root; else empty."""
    parts = [it.split("/") for it in paths]
    same = 0
    while same < min(map(len, parts)) - 1 and len({it[same] for it in parts}) == 1:
        same += 1
    around = parts[0][:same]
    return "/".join(around) if same > 2 and "" not in around[1:] else ""


def cause(plan: Plan, walk: Walk, number: int) -> str:
    """Why what a role keeps may grow, and so which tip helps."""
    role, until = plan.roles[number], walk.until[number]
    use = plan.uses.get(number)
    if until.why == JOIN or not plan.variables[role.variable].is_straight:
        return JOIN
    if until.why in (COPY, NESTED) or use == "copy" and until.variable == role.variable:
        return COPY
    return CONDITION if until.why == CONDITION or use in ("exists", "compare") else LOOP


def verdict(plan: Plan, walk: Walk) -> Iterator[str]:
    """Whether more is kept of a longer document."""
    growing = [it for it in telling(plan, walk) if may_grow(plan, it, walk.until[it])]
    paths = list(dict.fromkeys(plan.roles[it].path for it in growing))
    if paths:
        yield "may grow with the document: " + ", ".join(paths)
        for why in dict.fromkeys(cause(plan, walk, it) for it in growing):
            around = shared(plan.variables[plan.roles[it].variable].path for it in growing) if why == JOIN else ""
            yield "  " + TIPS[why] + (f": begin both loops at one {around}, and they are kept until that ends" if around else "")
        return
    paths = units(plan, walk)
    if paths:
        of_each = " of each" if len(paths) > 1 else ""
        yield f"flat as long as each {' and each '.join(paths)} is small: at most one{of_each} is kept at a time"
    else:
        yield "flat: nothing is kept but the open elements"


def words(plan: Plan) -> str:
    """All that is told of a plan."""
    walk = Walk(plan)
    lines = [*steps(plan, plan.body, 0), ""]
    for it in reasons(plan, walk):
        first, second = it.lines()
        lines += [first, second + ("   <-- may grow" if it.grows else "")]
    lines += [""] if lines[-1] else []
    return "\n".join([*lines, *verdict(plan, walk)]) + "\n"


def main(words_of_it: list[bytes]) -> int:
    """Obeys the words after `plan`, and gives the exit code."""
    plan = plan_of(Job(order_of("plan", words_of_it, 0)))
    if plan is None:
        return 3
    write_out(words(plan).encode())
    return 0
