"""Programs that gq starts: where `gcx` is, its children, signals, and how gq itself ends."""
from __future__ import annotations

import os

try:
    import _signal as signal  # without the enumerations of `signal`, whose import takes longer than all else
except ImportError:
    import signal  # type: ignore[no-redef]

from gq.say import Refused

ENDING = (signal.SIGINT, signal.SIGTERM, signal.SIGHUP, signal.SIGQUIT)
living: set[int] = set()  # the children that aren't waited for yet
ended: dict[int, int] = {}  # the codes of those that `end_all` waited for
at_end: list = []  # called before a signal ends gq: a line of progress is taken away
beside: list[str] = []  # the folder that the launcher stands in


class Child:
    """A program that runs. Descriptors of gq aren't open in it, but for the three and those made for children."""

    def __init__(self, words: list, stdin: int = 0, stdout: int = 1, stderr: int = 2) -> None:
        actions = [(os.POSIX_SPAWN_DUP2, it, place) for place, it in enumerate((stdin, stdout, stderr)) if it != place]
        mask = signal.pthread_sigmask(signal.SIG_BLOCK, ENDING)
        try:
            self.pid = os.posix_spawn(words[0], [os.path.basename(words[0]), *words[1:]], os.environ, file_actions=actions,
                                      setsigmask=mask, setsigdef=[signal.SIGPIPE, signal.SIGXFSZ])
            living.add(self.pid)
        except OSError as error:
            raise Refused(5, os.fsencode(words[0]) + f": {error.strerror}".encode()) from None
        finally:
            signal.pthread_sigmask(signal.SIG_SETMASK, mask)
        self.code: int | None = None

    def wait(self) -> int:
        """Its exit code, or a signal's number below 0. It has ended then."""
        if self.code is None:
            self.code = ended.pop(self.pid, None)
        if self.code is None:
            self.code = reap(self.pid)
        return self.code

    def kill(self) -> None:
        """Ends it at once, whatever it does."""
        if self.code is None and self.pid in living:
            os.kill(self.pid, signal.SIGKILL)
        self.wait()


def on_path(name: str) -> str | None:
    """The program of a name on PATH."""
    for folder in os.get_exec_path():
        place = os.path.join(folder, name)
        if os.path.isfile(place) and os.access(place, os.X_OK):
            return place
    return None


def gcx() -> str:
    """The proved program: beside the launcher, else on PATH."""
    for folder in beside:
        place = os.path.join(folder, "gcx")
        if os.path.isfile(place) and os.access(place, os.X_OK):
            return place
    place = on_path("gcx")
    if place is None:
        raise Refused(5, "gcx is neither beside gq nor on PATH: ./install puts both into one folder, and PATH=FOLDER:$PATH adds the folder of gcx")
    return place


def memory_file(content: bytes) -> int:
    """A file in memory, which children see as /dev/fd/N. To be closed."""
    place = os.memfd_create("query", 0)
    while content:
        content = content[os.write(place, content):]
    return place


def pipe() -> tuple[int, int]:
    """A pipe that holds a quarter of a MiB where the system lets it."""
    import fcntl
    ends = os.pipe()
    try:
        fcntl.fcntl(ends[1], 1031, 1 << 18)  # F_SETPIPE_SZ, which fcntl names from 3.10 on
    except OSError:
        pass
    return ends


def prepare() -> None:
    """What is done first: the three descriptors are open, and a signal that ends gq ends its children."""
    while True:
        place = os.open(os.devnull, os.O_RDWR)
        if place > 2:
            os.close(place)
            break
        os.set_inheritable(place, True)
    signal.signal(signal.SIGCHLD, signal.SIG_DFL)  # else no exit code is told
    for number in ENDING:
        if signal.getsignal(number) != signal.SIG_IGN:
            signal.signal(number, stopped)


def kill_all() -> None:
    """Ends all children at once."""
    for pid in list(living):
        try:
            os.kill(pid, signal.SIGKILL)
        except OSError:
            pass


def end_all() -> None:
    """Ends all children, and waits for them: gq goes on."""
    kill_all()
    for pid in list(living):
        ended[pid] = reap(pid)


def reap(pid: int) -> int:
    """Waits for a child; its exit code, or a signal's number below 0."""
    status = os.waitpid(pid, 0)[1]
    living.discard(pid)
    return os.waitstatus_to_exitcode(status)


def stopped(number: int, _frame: object) -> None:
    """A signal came: no child outlives gq, which ends by the same signal."""
    kill_all()
    for act in at_end:
        act()
    end_by(number)


def end_by(number: int) -> None:
    """Ends gq by a signal, as one that never caught it."""
    if number != signal.SIGKILL:
        signal.signal(number, signal.SIG_DFL)
    signal.pthread_sigmask(signal.SIG_UNBLOCK, [number])
    os.kill(os.getpid(), number)
