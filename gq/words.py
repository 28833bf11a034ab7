"""The command line: what was ordered, and who does it."""
from __future__ import annotations

import os
import sys

from gq import program
from gq.flow import Closed, Full
from gq.say import Ended, Refused, tell


class Order:
    """What the words of a command line ask for."""

    def __init__(self) -> None:
        self.query: bytes | None = None
        self.query_file: bytes | None = None  # -f
        self.lines = self.zero = self.count = self.quiet = self.json = self.pretty = self.verbose = self.subset = False
        self.row: bytes | None = None  # -t
        self.where: bytes | None = None
        self.separator: bytes | None = None
        self.columns: list[bytes] = []
        self.files: list[bytes] = []
        self.dashes = False  # -- stands among the words


FLAGS = {b"l": "lines", b"0": "zero", b"c": "count", b"q": "quiet", b"j": "json", b"p": "pretty", b"v": "verbose"}
SUFFIXES = (b".xml", b".gz", b".bz2", b".xz", b".zst", b".html", b".xhtml", b".rss", b".atom", b".rdf", b".svg", b".kml", b".gpx", b".osm", b".xsd",
            b".xsl", b".pom", b".plist")
VALUES = {b"f": "query_file", b"t": "row", b"w": "where", b"s": "separator"}


def wrong(text: str | bytes) -> Refused:
    """The words are no command line."""
    return Refused(2, (text if isinstance(text, bytes) else text.encode()) + b" (gq --help)")


def read(words: list[bytes]) -> Order:
    """The order that these words are."""
    order = Order()
    names: list[bytes] = []
    rest = list(words)
    files = None
    while rest:
        word = rest.pop(0)
        if word == b"--":
            files, rest = rest, []
        elif word == b"--subset":
            order.subset = True
        elif word.startswith(b"--"):
            raise wrong(b"there is no option " + word)
        elif word.startswith(b"-") and word != b"-":
            read_flags(order, word, rest)
        else:
            names.append(word)
    order.dashes = files is not None
    place(order, names, files or [])
    check(order)
    return order


def read_flags(order: Order, word: bytes, rest: list[bytes]) -> None:
    """Options of one letter, several in one word: `-lv`. What one takes is the rest of its word, or the next word."""
    for at in range(1, len(word)):
        letter = word[at:at + 1]
        if letter in FLAGS:
            setattr(order, FLAGS[letter], True)
        elif letter in VALUES:
            value = word[at + 1:]
            if not value and not rest:
                raise wrong(b"-" + letter + b" needs a word after it")
            if getattr(order, VALUES[letter]) is not None:
                raise wrong(b"-" + letter + b" stands twice" + (b": join the conditions by and" if letter == b"w" else b""))
            setattr(order, VALUES[letter], value or rest.pop(0))
            return
        else:
            raise wrong(b"there is no option -" + letter)


def place(order: Order, names: list[bytes], files: list[bytes]) -> None:
    """Which of the names are the query, columns and files."""
    if order.row is not None:
        order.columns, order.files = names, files
        if not names:
            raise wrong("-t needs columns: gq -t ROW COLUMN .. -- [FILE ..]")
        file = None if order.dashes else file_of(names)
        if file is not None:
            raise wrong(b"-- is missing between the columns and the files: write -- before " + file + b", or after it if it is a column")
    else:
        names += files
        if order.query_file is None:
            if not names:
                raise wrong("there is no query")
            order.query = names.pop(0)
        order.files = names


def file_of(columns: list[bytes]) -> bytes | None:
    """Of columns after which no -- stands the one that is meant as a file: its name is like that of one, or the last is one."""
    last = columns[-1]
    if os.path.exists(last) and (b"/" in last or not os.path.isdir(last)):
        return last
    return next((it for it in columns if it.lower().endswith(SUFFIXES)), None)


def check(order: Order) -> None:
    """Options that can't stand together, or stand for nothing."""
    ways = [letter for letter, on in (("-l", order.lines or order.zero), ("-q", order.quiet), ("-p", order.pretty),
                                      ("-t", order.row is not None)) if on]
    if order.row is not None and order.lines:
        raise wrong("a table has a line for each row already: leave -l out")
    if order.pretty and (order.count or order.quiet):
        raise wrong("-p goes with neither -c nor -q")
    if len(ways) > 1 and ways != ["-q", "-t"]:
        raise wrong(f"{ways[0]} and {ways[1]} don't go together")
    if order.row is None:
        for letter, on in (("-j", order.json), ("-w", order.where is not None), ("-s", order.separator is not None)):
            if on:
                raise wrong(f"{letter} is for tables: gq -t ROW COLUMN .. -- [FILE ..]")
    if order.query_file == b"-" and (not order.files or b"-" in order.files):
        raise wrong("-f - reads the query from standard input, so the document is a FILE")
    if order.row is not None:
        check_table(order)


def check_table(order: Order) -> None:
    """The same of a table."""
    if order.zero:
        raise wrong("-0 and -t don't go together")
    if order.query_file is not None:
        raise wrong("-f and -t don't go together")
    if order.json and len(set(order.columns)) < len(order.columns):
        raise wrong("-j needs each column once")
    if order.json and order.separator is not None:
        raise wrong("-j and -s don't go together")


def obey(words: list[bytes]) -> int:
    """Does what the words ask for, and gives the exit code."""
    first = words[0] if words else b""
    if first in (b"--help", b"-h", b"help", b"--version", b"-V"):
        from gq import usage
        return usage.show(first)
    if first == b"plan":
        from gq import plan
        return plan.main(words[1:])
    if first == b"held":
        from gq import held
        return held.main(words[1:])
    if first == b"plot":
        from gq import plot
        return plot.main(words[1:])
    from gq import run
    return run.every_file(read(words))


def main(words: list[str], folder: str | None = None) -> int:
    """Runs gq. FOLDER is that of the launcher, beside which `gcx` is looked for first."""
    program.prepare()
    if folder is not None:
        program.beside.append(folder)
    try:
        return obey([os.fsencode(it) for it in words])
    except Refused as refused:
        tell(refused.text)
        return refused.code
    except Ended as ended:
        return ended.code
    except Closed:
        program.kill_all()
        program.end_by(program.signal.SIGPIPE)
    except Full as full:
        tell(f"standard output: {full}")
    except MemoryError:
        program.kill_all()
        tell("out of memory")
        return 7
    except Exception as error:  # a fault of gq itself
        program.kill_all()
        tell(f"gq broke down: {type(error).__name__}: {error}")
        return 70
    return 6
