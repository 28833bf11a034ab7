"""What has to be closed before a run can be at each place of a plan, and so until when each role keeps its nodes.

A run is at a place at latest when certain nodes are closed: a loop is over when the node is closed that it starts from, a copy when the
copied node is, a condition is known when all are that it asks. What a place waits for is a table from variables, whose nodes these are,
to why; the walk carries it along, and a turn waits for what the turns before it did. Nothing is left out, so what is said to be let
go early is; but a condition that comes true early is taken for a late one.
"""
from __future__ import annotations

from typing import Dict, NamedTuple, Optional

from gq.explained import Body, Branch, Copy, Loop, Off, Plan

Waits = Dict[int, str]
LOOP, JOIN, CONDITION, COPY, NESTED = "loop", "join", "condition", "copy", "nested"


class Until(NamedTuple):
    """Until when a role keeps its nodes: the end of the node of a variable of its base's line, and why; None is at once."""

    variable: Optional[int]
    why: str


class Walk:
    """A walk over a plan; it notes until when each role is held, and what each loop waits for before its first turn."""

    def __init__(self, plan: Plan) -> None:
        self.plan = plan
        self.turns: Dict[int, Waits] = {}
        self.until: Dict[int, Until] = {}
        self.before: Dict[int, Waits] = {}
        self.added(plan.body, 0)
        self.over(plan.body, {})

    def added(self, body: Body, around: int) -> Waits:
        """What the end of a body waits for beside what its beginning does; the body is that of the loop of `around`."""
        found: Waits = {}
        for item in body:
            if isinstance(item, Copy):
                found = {item.variable: COPY, **found}
            elif isinstance(item, Branch):
                sides = {**self.added(item.other, around), **self.added(item.then, around)}
                found = {**sides, **{it: CONDITION for it in item.asked}, **found}
            elif isinstance(item, Loop):
                self.turns[item.variable] = self.added(item.body, item.variable)
                found = {**self.after(item, around), **found}
        return found

    def after(self, loop: Loop, around: int) -> Waits:
        """What the end of a loop waits for beside what its beginning does."""
        source = self.plan.variables[loop.variable].source
        inner = {it: why for it, why in self.turns[loop.variable].items() if it != loop.variable}
        return {source: LOOP if source == around else JOIN, **inner}

    def over(self, body: Body, waits: Waits, around: int = 0) -> None:
        """Walks over a body whose beginning waits for `waits`."""
        for item in body:
            if isinstance(item, Loop):
                self.before[item.variable] = waits
                self.over(item.body, {**self.back(item), **waits}, item.variable)
                waits = {**self.after(item, around), **waits}
            elif isinstance(item, Off):
                self.until[item.role] = self.outermost(item.base, waits)
            else:
                waits = {**self.added([item], around), **waits}

    def back(self, loop: Loop) -> Waits:
        """What a turn waits for since those before it did. A node that lies in no other of its loop is closed when the next one comes."""
        goes_down = self.plan.variables[loop.variable].goes_down
        turn = self.turns[loop.variable]
        return {it: NESTED if it == loop.variable else why for it, why in turn.items() if it != loop.variable or goes_down}

    def outermost(self, base: int, waits: Waits) -> Until:
        """Of what a statement waits for, the node that is closed last; those of other lines are closed by the end of the document."""
        line = self.plan.line(base)
        found = Until(None, "")
        for variable in line:
            if variable in waits:
                found = Until(variable, waits[variable])
        return found if set(waits) <= set(line) else Until(0, JOIN)


def is_top(plan: Plan, variable: int) -> bool:
    """Whether a variable's nodes are as large as the document: the document node, or elements of which the root is one."""
    it = plan.variables[variable]
    down = ("descendant::*", "descendant::node()")
    return variable == 0 or it.source == 0 and (it.step.startswith("child::") or it.step in down)


def may_grow(plan: Plan, number: int, until: Until) -> bool:
    """Whether a role may keep more of a longer document: where it is held to the end of it, and isn't that of one node."""
    role = plan.roles[number]
    it = plan.variables[role.variable]
    is_one = role.kind != "whole" and (role.variable == 0 or it.source == 0 and not it.goes_down)
    return until.variable is not None and is_top(plan, until.variable) and not is_one
