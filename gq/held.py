"""`gq held`: the most that a run holds over a document: when, of which paths, and why."""
from __future__ import annotations

from typing import Dict, List, Set, Tuple

from gq.explained import Plan
from gq.flow import write_out
from gq.reasons import Reason, reasons
from gq.run import Job
from gq.trace import Held
from gq.waits import Walk
from gq.watched import order_of, plan_of, watch

LINES = 20


def by_path(held: Held) -> Dict[int, Tuple[int, Set[int]]]:
    """How many nodes of each path are held at the peak, and the roles that they were given."""
    found: Dict[int, Tuple[int, Set[int]]] = {}
    for (path, given), count in held.peak.counts.items():
        before, roles = found.get(path, (0, set()))
        found[path] = (before + count, roles | {int(it) for it in given.split()})
    return found


def why(given: Set[int], all_reasons: List[Reason]) -> List[Reason]:
    """Of these reasons those that a node of these roles has."""
    return [it for it in all_reasons if given & set(it.roles)]


def words(held: Held, plan: Plan) -> str:
    """All that is told of a run."""
    peak, found, told = held.peak, by_path(held), reasons(plan, Walk(plan))
    order = sorted(found, key=lambda it: (-found[it][0], it))
    names = {it: held.paths[it].decode("utf-8", "replace") or "/" for it in order + [peak.last]}
    wide = min(60, max(len(names[it]) for it in order[:LINES]))
    lines = [f"peak {peak.held:,} of {held.read:,} nodes, when {peak.read:,} were read, the last of them {names[peak.last]}", "",
             f"{'held':>11}  {'path':{wide}}  why"]
    shown: List[Reason] = []
    for it in order[:LINES]:
        count, given = found[it]
        here = why(given, told)
        shown += [one for one in here if one not in shown]
        names_of_roles = ", ".join(f"role {one.roles[0]}" for one in here) or "open, or around what is kept"
        lines.append(f"{count:>11,}  {names[it]:{wide}}  {names_of_roles}")
    if order[LINES:]:
        lines.append(f"{sum(found[it][0] for it in order[LINES:]):>11,}  {len(order) - LINES:,} other paths")
    lines += [""] if shown else []
    for one in sorted(shown):
        lines += one.lines()
    return "\n".join(lines) + "\n"


def main(words_of_it: list[bytes]) -> int:
    """Obeys the words after `held`, and gives the exit code."""
    job = Job(order_of("held", words_of_it, 1))
    plan = plan_of(job)
    if plan is None:
        return 3
    held, code = watch(job)
    if code == 0:
        write_out(words(held, plan).encode())
    return code
