"""Runs of `gcx` that only look: the plan of a query, and what a run over a document holds."""
from __future__ import annotations

import os
import sys

from gq import program
from gq.explained import Plan, read
from gq.flow import Loop, Reading
from gq.inputs import Feed
from gq.run import Job, Run
from gq.say import Refused, tell
from gq.trace import Held
from gq.words import Order, wrong

DEEP = 10_000  # calls in one another: a plan has up to 500 loops
LARGE = 100_000_000  # bytes of a document that are no sample any more


class Said(Reading):
    """All that a program writes."""

    def __init__(self, loop: Loop, place: int) -> None:
        self.blocks: list[bytes] = []
        super().__init__(loop, place, self.blocks.append)


class Lines(Reading):
    """The lines of a trace as they come. `text` is what the program says besides."""

    def __init__(self, loop: Loop, place: int, held: Held) -> None:
        self.held = held
        self.rest = b""
        super().__init__(loop, place, self.more)

    def more(self, block: bytes) -> None:
        """The next block; its last line may not be whole yet."""
        lines = (self.rest + block).split(b"\n")
        self.rest = lines.pop()
        self.held.lines(lines)

    @property
    def text(self) -> bytes:
        """The program's own message."""
        return self.held.message


class Watched(Run):
    """A run whose answer goes nowhere, and whose trace is followed."""

    def __init__(self, job: Job, word: bytes | None) -> None:
        super().__init__(job, word)
        self.sink = None
        self.held = Held()

    def start(self) -> None:
        """Starts gcx over the document, with its trace."""
        self.feed = Feed(self.loop, self.document, self.job.order.subset)
        query = program.memory_file(self.job.made.text)
        place, error = program.pipe()
        null = os.open(os.devnull, os.O_WRONLY)
        self.said = Lines(self.loop, place, self.held)
        self.child = program.Child([program.gcx(), "run", "--trace", f"/dev/fd/{query}", "-"], self.feed.stdin, null, error)
        for it in (query, error, null):
            os.close(it)
        self.feed.begun()


def order_of(command: str, words: list[bytes], most: int) -> Order:
    """The query and at most so many documents of `gq plan`, `gq held` and `gq plot`; -f FILE, --subset and -- are options."""
    order, names, rest = Order(), [], list(words)
    while rest:
        word = rest.pop(0)
        if word == b"--":
            names, rest = names + rest, []
        elif word == b"--subset" and most:
            order.subset = True
        elif word[:2] == b"-f" and order.query_file is None and (word[2:] or rest):
            order.query_file = word[2:] or rest.pop(0)
        elif word.startswith(b"-") and word != b"-":
            raise wrong(f"{command} has no option ".encode() + word)
        else:
            names.append(word)
    if order.query_file is None:
        if not names:
            raise wrong(f"{command} needs a query")
        order.query = names.pop(0)
    if len(names) > most:
        raise wrong(f"{command} takes " + ("one document" if most else "no document"))
    order.files = names
    return order


def plan_of(job: Job) -> Plan | None:
    """The plan of a query; None: it is refused, and the fault is told."""
    loop = Loop()
    query = program.memory_file(job.made.text)
    out_place, out = program.pipe()
    said_place, error = os.pipe()
    answer, said = Said(loop, out_place), Said(loop, said_place)
    null = os.open(os.devnull, os.O_RDONLY)
    child = program.Child([program.gcx(), "explain", f"/dev/fd/{query}"], null, out, error)
    for it in (query, out, error, null):
        os.close(it)
    loop.run(lambda: answer.over and said.over)
    if child.wait() == 0:
        sys.setrecursionlimit(DEEP)
        return read(b"".join(answer.blocks).decode("utf-8", "replace"))
    words = b"".join(said.blocks).decode("utf-8", "replace").split()
    if words[:2] != ["gcx:", "query"]:
        raise Refused(child.code or 5, " ".join(words[1:]))
    from gq import faults
    faults.query(job.name, job.made, words[2], words[3:])
    return None


def watch(job: Job) -> tuple[Held, int]:
    """What a run over the document holds, and its exit code; a fault is told."""
    run = Watched(job, (job.order.files or [None])[0])
    try:
        if run.document.regular and run.document.size() > LARGE:
            tell(run.document.name + b": this is for samples: some three million nodes are followed in ten seconds")
        code = run.go()
        run.held.end()
        return run.held, code
    finally:
        run.close()


def title_of(job: Job) -> str:
    """The name of the document, without its folder."""
    word = (job.order.files or [b"-"])[0]
    if word.startswith((b"/dev/fd/", b"/proc/")):
        return "a stream"
    return "standard input" if word == b"-" else os.path.basename(word).decode("utf-8", "replace")
