"""The bytes between documents, programs and standard output: one loop over all descriptors, so nothing waits for what waits for it."""
from __future__ import annotations

import os
import select

BLOCK = 1 << 18
KEPT_LINE = 1 << 14  # of what a program says on standard error


class Closed(Exception):
    """The reader of standard output has gone."""


class Full(Exception):
    """Standard output can't be written, for the system's reason."""


def write_out(block: bytes) -> None:
    """Writes on standard output."""
    rest = memoryview(block)
    while rest:
        try:
            rest = rest[os.write(1, rest):]
        except BlockingIOError:
            select.select([], [1], [])
        except BrokenPipeError:
            raise Closed from None
        except OSError as error:
            raise Full(error.strerror) from None


class Loop:
    """Waits for many descriptors, and calls what belongs to the one that is ready."""

    def __init__(self) -> None:
        self.poll = select.poll()
        self.acts: dict = {}

    def watch(self, place: int, events: int, act) -> None:
        """ACT is called when the descriptor is ready; the descriptor is closed by `close`."""
        self.poll.register(place, events)
        self.acts[place] = act

    def change(self, place: int, events: int) -> None:
        """Waits for other events."""
        self.poll.modify(place, events)

    def forget(self, place: int) -> None:
        """Waits for it no longer."""
        if self.acts.pop(place, None) is not None:
            self.poll.unregister(place)

    def close(self, place: int) -> None:
        """Forgets a descriptor and closes it; standard input stays."""
        self.forget(place)
        if place != 0:
            os.close(place)

    def close_all(self) -> None:
        """Closes all descriptors."""
        for place in list(self.acts):
            self.close(place)

    def run(self, over) -> None:
        """Goes on until OVER says so."""
        while not over():
            for place, events in self.poll.poll():
                act = self.acts.get(place)
                if act is not None:
                    act(events)


class Reading:
    """Reads a descriptor to its end, block by block."""

    def __init__(self, loop: Loop, place: int, take) -> None:
        self.loop, self.place, self.take = loop, place, take
        self.over = False
        loop.watch(place, select.POLLIN, self.ready)

    def ready(self, _events: int = 0) -> None:
        """Something can be read, or the end is there."""
        block = os.read(self.place, BLOCK)
        if block:
            self.take(block)
        else:
            self.stop()

    def stop(self) -> None:
        """Reads no more."""
        if not self.over:
            self.over = True
            self.loop.close(self.place)


class Said(Reading):
    """What a program says on standard error; of a long text the end."""

    def __init__(self, loop: Loop, place: int) -> None:
        self.text = b""
        super().__init__(loop, place, self.add)

    def add(self, block: bytes) -> None:
        """More of it."""
        self.text = (self.text + block)[-KEPT_LINE:]

    def rest(self) -> bytes:
        """All of it, after the program has ended."""
        while not self.over:
            self.ready()
        return self.text.strip()


class Pump:
    """Copies a descriptor to another through STEPS, each with `feed(block)` and `end()`. Both ends are closed when it is over."""

    def __init__(self, loop: Loop, source: int, target: int, steps: list) -> None:
        self.loop, self.source, self.target, self.steps = loop, source, target, steps
        self.pending = memoryview(b"")
        self.ended = False  # the source
        self.over = False
        self.broken = False  # the target's reader went before the end
        self.error: OSError | None = None
        loop.watch(source, select.POLLIN, self.read)
        self.aim(target)

    def aim(self, target: int) -> None:
        """Copies to this descriptor, which no longer blocks."""
        self.target = target
        os.set_blocking(target, False)
        self.loop.watch(target, 0, self.write)

    def read(self, _events: int = 0) -> None:
        """The source has a block, or is at its end."""
        try:
            block = os.read(self.source, BLOCK)
        except OSError as error:
            self.error, block = error, b""
        if block:
            self.pending = memoryview(self.through(block, 0))
            self.ended = any(getattr(it, "over", False) for it in self.steps)
        else:
            self.finish_reading()
        self.write()

    def through(self, block: bytes, first: int) -> bytes:
        """A block through the steps from FIRST on."""
        at = first
        while at < len(self.steps) and block:  # a step may add others after it
            block = self.steps[at].feed(block)
            at += 1
        return block

    def finish_reading(self) -> None:
        """What the steps still hold follows."""
        self.ended = True
        rest = b""
        at = 0
        while at < len(self.steps):
            last = self.steps[at].end()
            at += 1
            rest += self.through(last, at)
        self.pending = memoryview(rest)

    def write(self, events: int = 0) -> None:
        """The target takes something, or nobody reads it any more."""
        try:
            if events & select.POLLERR:
                raise BrokenPipeError
            while self.pending:
                self.pending = self.pending[os.write(self.target, self.pending):]
        except BlockingIOError:
            self.loop.forget(self.source)
            self.loop.change(self.target, select.POLLOUT)
            return
        except BrokenPipeError:
            self.broken = True
            self.stop()
            return
        if self.ended:
            self.stop()
        elif self.source not in self.loop.acts:
            self.loop.watch(self.source, select.POLLIN, self.read)
            self.loop.change(self.target, 0)

    def stop(self) -> None:
        """Copies no more."""
        if not self.over:
            self.over = True
            self.loop.close(self.source)
            self.loop.close(self.target)
