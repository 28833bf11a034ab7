"""Progress on a terminal: how far the document was read, how fast, and the memory of the program that reads it, as the system tells."""
from __future__ import annotations

import os
import threading
import time

from gq import program

FIRST, EACH = 0.3, 0.25  # seconds to the first line, and between two


class Shown:
    """A line on standard error, drawn by a thread of its own. `clear` takes it away for good: an answer comes on the same terminal."""

    def __init__(self, name: bytes, pid: int, place: tuple[int, int] | None, size: int | None) -> None:
        self.name = os.path.basename(name).decode("utf-8", "replace")
        self.pid, self.place, self.size = pid, place, size
        self.begun = time.monotonic()
        self.over = threading.Event()
        self.lock = threading.RLock()  # a signal may come while it is held
        self.width = 0
        self.thread = threading.Thread(target=self.draw, daemon=True)

    def draw(self) -> None:
        """Draws until it is over."""
        wait = FIRST
        while not self.over.wait(wait):
            wait = EACH
            line = self.line()
            with self.lock:
                if line and not self.over.is_set():
                    self.put(line)

    def put(self, line: str) -> None:
        """Writes a line over the one that stands there."""
        try:
            room = os.get_terminal_size(2).columns - 1
            line = line[:room] if room > 0 else line
            os.write(2, ("\r" + line.ljust(self.width)).encode("utf-8", "replace"))
            self.width = len(line)
        except OSError:
            pass

    def line(self) -> str:
        """What it shows; empty where the program has ended."""
        read, held = bytes_read(self.pid, self.place), memory(self.pid)
        if read is None or held is None:
            return ""
        seconds = max(time.monotonic() - self.begun, 0.001)
        part = f"{min(100 * read // self.size, 100)} % of {self.size / 1e6:,.1f} MB" if self.size else f"{read / 1e6:,.1f} MB"
        return f"{self.name}: {part}, {read / 1e6 / seconds:,.0f} MB/s, memory {held / 1e6:,.1f} MB"

    def clear(self) -> None:
        """Takes it away, and draws no more."""
        self.over.set()
        with self.lock:
            if self.width:
                self.put("")
                os.write(2, b"\r")
                self.width = 0

    def __enter__(self) -> Shown:
        self.is_drawn = os.isatty(2)
        if self.is_drawn:
            program.at_end.append(self.clear)
            self.thread.start()
        return self

    def __exit__(self, *_: object) -> None:
        if self.is_drawn:
            program.at_end.remove(self.clear)
            self.clear()
            self.thread.join()


def bytes_read(pid: int, place: tuple[int, int] | None) -> int | None:
    """How much was read: the offset of a process's descriptor, or all that the program read."""
    name, key = (f"/proc/{pid}/io", "rchar") if place is None else (f"/proc/{place[0]}/fdinfo/{place[1]}", "pos")
    try:
        with open(name, encoding="ascii") as file:
            fields = dict(line.split(":", 1) for line in file if ":" in line)
        return int(fields[key])
    except (OSError, KeyError, ValueError):
        return None


def memory(pid: int) -> int | None:
    """The bytes of memory that a process holds."""
    try:
        with open(f"/proc/{pid}/statm", encoding="ascii") as file:
            return int(file.read().split()[1]) * os.sysconf("SC_PAGE_SIZE")
    except (OSError, IndexError, ValueError):
        return None


def watch(name: bytes, pid: int, place: tuple[int, int] | None, size: int | None) -> Shown:
    """A context manager that draws on standard error while the child PID runs, if that is a terminal.

    PLACE is the process and descriptor whose offset (/proc/PID/fdinfo/FD) tells how far the document was read; None: it isn't known.
    SIZE is the length of the file in bytes; None: it isn't known. What it drew is taken away at the end, and by `program.at_end`."""
    return Shown(name, pid, place, size)
