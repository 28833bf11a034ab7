"""An order over documents: `gcx` is started for each, its answer is passed on, and what it says is told."""
from __future__ import annotations

import os
import select

from gq import program
from gq.answer import Count, Enough, Lines, Plain, Quiet
from gq.flow import Full, Loop, Reading, Said, write_out
from gq.inputs import Document, Feed
from gq.made import Made, as_it_is, new_mark
from gq.say import Ended, Refused, say, tell
from gq.words import Order

LAST_CODES = (2, 3, 6, 7)  # no other file goes better


class Job:
    """A query that is ready to run, and what becomes of its answers."""

    def __init__(self, order: Order) -> None:
        self.order = order
        self.terminal = os.isatty(1)
        self.name = b"query" if order.query_file is None else order.query_file
        self.query = b"" if order.row is not None else read_query(order)
        self.mark = new_mark()
        self.made = self.make()
        self.unmet = self.watched_columns()  # None: nobody asks

    def make(self) -> Made:
        """The query that gcx runs."""
        order = self.order
        if order.row is not None:
            from gq.table import PartFault, table_query
            try:
                return table_query(order.row, order.where, order.columns)
            except PartFault as fault:
                from gq import faults
                faults.slip(fault.what.encode(), fault.text, fault.slip.kind, fault.slip.place, fault.what)
                raise Ended(3) from None
        if not (order.lines or order.zero or order.count):
            return as_it_is(self.query)
        from gq import marked
        from gq.tokens import Slip
        try:
            if not order.count:
                return marked.marked(self.query, self.mark)
            self.mark = b"m"
            made, whole = marked.counted(self.query, self.mark)
            return made if whole or explains(as_it_is(self.query)) else as_it_is(self.query)
        except Slip:
            return self.unmarked()

    def unmarked(self) -> Made:
        """The user's query, which gcx refuses as well, so that it tells the fault."""
        made = as_it_is(self.query)
        if explains(made):
            raise Refused(3, "this query can't be cut into lines")
        return made

    def tells(self) -> bool:
        """Whether silence is told: somebody looks at the answer, or asked for more words."""
        return (self.terminal or self.order.verbose) and not self.order.quiet

    def watched_columns(self):
        """What notes which columns have no value, where that is told."""
        order = self.order
        if order.row is None or order.count or not self.tells():
            return None
        from gq.unmet import Unmet
        return Unmet(len(order.columns))

    def sink(self, emit):
        """What takes an answer; None: it goes to standard output by itself. EMIT writes."""
        order = self.order
        if order.quiet:
            return Quiet()
        if order.row is not None:
            return self.table_sink(emit)
        if order.count:
            return Count(self.mark)
        if order.lines or order.zero:
            return Lines(self.mark, order.zero)
        if order.pretty:
            from gq.pretty import Pretty
            return Pretty()
        return Plain() if self.terminal else None

    def table_sink(self, emit):
        """What takes the answer of a table."""
        if self.order.count:
            from gq.table import RowCount
            return RowCount()
        if self.order.json:
            from gq.json_rows import JsonRows
            return JsonRows(self.order.columns, emit)
        from gq.table import Rows
        return Rows(b";" if self.order.separator is None else self.order.separator)


def read_query(order: Order) -> bytes:
    """The text of the query."""
    if order.query_file is None:
        return order.query or b""
    name = order.query_file
    try:
        place = 0 if name == b"-" else os.open(name, os.O_RDONLY)
        with os.fdopen(os.dup(place), "rb") as file:
            text = file.read((1 << 20) + 2)
    except OSError as error:
        raise Refused(5, name + b": " + (error.strerror or "").encode()) from None
    return text


def explains(made: Made) -> bool:
    """Whether gcx takes the query."""
    place = program.memory_file(made.text)
    null = os.open(os.devnull, os.O_RDWR)
    child = program.Child([program.gcx(), "explain", f"/dev/fd/{place}"], null, null, null)
    os.close(place)
    os.close(null)
    return child.wait() == 0


class Run:
    """One run over one document."""

    def __init__(self, job: Job, word: bytes | None) -> None:
        self.job = job
        self.sink = job.sink(self.write)
        self.last = b"\n"  # the last byte that was written
        self.document = Document(word)
        self.loop = Loop()
        self.said: Said | None = None
        self.answer: Reading | None = None
        self.shown = None  # the line of progress

    def start(self) -> None:
        """Starts gcx over the document."""
        self.feed = Feed(self.loop, self.document, self.job.order.subset)
        query = program.memory_file(self.job.made.text)
        place, error = os.pipe()
        self.said = Said(self.loop, place)
        out = 1
        if self.sink is not None:
            source, out = program.pipe()
            self.answer = Reading(self.loop, source, self.take)
        self.child = program.Child([program.gcx(), "run", f"/dev/fd/{query}", "-"], self.feed.stdin, out, error)
        for it in [query, error] + ([out] if out != 1 else []):
            os.close(it)
        self.feed.begun()

    def take(self, block: bytes) -> None:
        """A block of the answer. On a terminal it takes the place of the line of progress."""
        if self.job.unmet is not None:
            self.job.unmet.feed(block)
        self.write(self.sink.feed(block))

    def write(self, block: bytes) -> None:
        """Writes a part of what is shown of it."""
        if block:
            if self.shown is not None and self.job.terminal:
                self.shown.clear()
            self.last = block[-1:]
            write_out(block)

    def wait(self) -> None:
        """Until gcx has nothing more to say."""
        if not self.job.order.verbose:
            self.loop.run(self.over)
            return
        from gq import progress
        size = self.document.size() if self.document.regular else None
        with progress.watch(self.document.name, self.child.pid, self.feed.read_at(self.child.pid), size) as self.shown:
            self.loop.run(self.over)

    def over(self) -> bool:
        """Whether gcx has nothing more to say."""
        return self.said.over and (self.answer is None or self.answer.over)

    def go(self) -> int:
        """Runs to the end, and gives the exit code."""
        try:
            self.start()
            self.wait()
            if self.sink is not None:
                self.write(self.sink.end())
        except Enough:
            self.stop()
            return 0
        except Exception:
            self.stop()
            raise
        self.feed.stop()
        code = self.child.wait()
        return self.told(code)

    def stop(self) -> None:
        """Ends all children, and reads nothing more."""
        program.end_all()
        self.loop.close_all()

    def told(self, code: int) -> int:
        """Tells what gcx said, and gives the exit code."""
        if code != 0 and self.job.terminal and self.last != b"\n":
            write_out(b"\n")
        words = self.said.text.decode("utf-8", "replace").strip()
        part = words.split()
        trouble = self.feed.trouble(code, part[1:3] == ["document", "Truncated"])
        if trouble is not None:
            return trouble
        if code < 0:
            program.end_by(-code)
        if code == 6:
            self.write_fault()
        elif part[:2] == ["gcx:", "query"] and len(part) > 3:
            from gq import faults
            faults.query(self.job.name, self.job.made, part[2], part[3:])
        elif part[:2] == ["gcx:", "document"] and len(part) == 4:
            from gq import faults
            offset = int(part[3])
            faults.refused_document(self.document.name, part[2], self.feed.place(offset), offset)
            self.tell_open(offset)
        elif code == 5:
            tell(self.document.name + b": " + self.document.why_not_read().encode())
        elif words:
            tell(self.document.name + b": " + words.encode().replace(b"gcx: ", b"", 1))
        return code

    def tell_open(self, offset: int) -> None:
        """Tells which elements are open at a fault, where that can be found out."""
        from gq.outline import open_path
        path = open_path(self.document, self.job.order.subset, offset) if offset else None
        if path:
            say(b"  open there: " + path)
        elif path == b"":
            say("  no element is open there")

    def write_fault(self) -> None:
        """gcx couldn't write: a reader that has gone ends gq without a word, as it ends others."""
        poll = select.poll()
        poll.register(1, 0)
        if any(events & select.POLLERR for _, events in poll.poll(0)):
            program.end_by(program.signal.SIGPIPE)
        tell(f"standard output: {why_not_written()}")

    def close(self) -> None:
        """Gives all back."""
        self.document.close()


def why_not_written() -> str:
    """The system's reason why standard output takes nothing, as far as it can be asked."""
    try:
        os.write(1, b"")
        room = os.fstatvfs(1)
    except OSError as error:
        return error.strerror or "write fault"
    return "No space left on device" if room.f_bavail == 0 and room.f_blocks else "write fault"


def every_file(order: Order) -> int:
    """Obeys an order over all its files; the first code that isn't 0."""
    program.gcx()  # before the first file
    for word in order.files:
        if word != b"-" and os.path.isdir(word):
            raise Refused(5, word + b": Is a directory")
    job = Job(order)
    if not order.files and os.isatty(0) and os.isatty(2):
        missing = "no -- with a FILE after it" if order.row is not None and not order.dashes else "no FILE"
        tell(f"{missing}: the document is read from this terminal")
    worst, empty = 0, []
    for word in order.files or [None]:
        code, some = one_file(job, word)
        if order.quiet and some:
            return 0
        if code == 0 and not some:
            empty.append(word)
        worst = worst or code
        if code in LAST_CODES:
            break
    if order.quiet:
        return worst or 1
    if job.tells() and worst == 0:
        tell_silence(job, empty, len(order.files or [None]))
    return worst


def tell_silence(job: Job, empty: list[bytes | None], count: int) -> None:
    """Tells it where the answer is empty for all documents, or a column of a table is."""
    order = job.order
    nothing = len(empty) == count
    if not nothing and (job.unmet is None or not job.unmet.left or not job.unmet.any_row):
        return
    from gq import nearest
    try:
        document = Document((order.files or [None])[0])
    except Refused:
        document = None
    if nothing:
        nearest.tell_nothing(document, order.subset, job.query if order.row is None else job.made.text, order.where or b"")
    else:
        nearest.tell_columns(document, order.subset, order.row or b"", [order.columns[it] for it in sorted(job.unmet.left)])


def one_file(job: Job, word: bytes | None) -> tuple[int, bool]:
    """The exit code of one document, and whether there was an answer."""
    run = None
    try:
        run = Run(job, word)
        return run.go(), run.sink is None or run.sink.any
    except Refused as refused:
        tell(refused.text)
        if refused.code == 5 and job.order.files[:1] == [word] and job.order.query and os.path.isfile(job.order.query):
            say(b"  " + job.order.query + b" is a file: the query comes first, then the files")
        return refused.code, False
    except Full as full:
        tell(f"standard output: {full}")
        return 6, True
    finally:
        if run is not None:
            run.close()
