"""Documents: files, pipes and standard input; compressed, in other encodings, with declarations in a DOCTYPE."""
from __future__ import annotations

import os

from gq import program
from gq.flow import Loop, Pump, Said
from gq.kept import InFile, Kept, Place
from gq.say import Refused, tell

MAGIC = ((b"\x1f\x8b", "gzip"), (b"BZh", "bzip2"), (b"\xfd7zXZ\x00", "xz"), (b"\x28\xb5\x2f\xfd", "zstd"))
LONGEST_MAGIC = 6
HEAD = 4096  # bytes from which the encoding is known


def packed_by(head: bytes) -> str | None:
    """The program that unpacks what begins so."""
    for magic, name in MAGIC:
        if head.startswith(magic):
            return name
    return None


def reason(name: bytes, error: OSError) -> Refused:
    """The document can't be read."""
    return Refused(5, name + b": " + (error.strerror or "can't be read").encode())


class Document:
    """A document that is open: its name for messages, its descriptor, and for a regular file where it begins."""

    def __init__(self, word: bytes | None) -> None:
        stdin = word in (None, b"-")
        self.name: bytes = b"<stdin>" if word is None or stdin else word
        self.base = 0
        try:
            self.descriptor = 0 if stdin else os.open(word or b"", os.O_RDONLY)
            mode = os.fstat(self.descriptor).st_mode
        except OSError as error:
            raise reason(self.name, error) from None
        kind = mode & 0o170000
        self.regular = kind == 0o100000
        if kind == 0o040000:
            self.close()
            raise Refused(5, self.name + b": Is a directory")
        if self.regular and stdin:
            self.base = os.lseek(0, 0, os.SEEK_CUR)

    def head(self, size: int = HEAD) -> bytes:
        """The first bytes of a regular file."""
        try:
            return os.pread(self.descriptor, size, self.base)
        except OSError as error:
            raise reason(self.name, error) from None

    def again(self) -> int:
        """The descriptor of a regular file, from the document's beginning."""
        os.lseek(self.descriptor, self.base, os.SEEK_SET)
        return self.descriptor

    def size(self) -> int:
        """The bytes of a regular file."""
        return os.fstat(self.descriptor).st_size - self.base

    def why_not_read(self) -> str:
        """The system's reason why no more can be read, as far as it can be asked."""
        if self.regular:
            try:
                os.pread(self.descriptor, 1, os.lseek(self.descriptor, 0, os.SEEK_CUR))
            except OSError as error:
                return error.strerror or "can't be read"
        return "read fault"

    def packed(self) -> bool:
        """Whether a regular file is compressed."""
        return packed_by(self.head(LONGEST_MAGIC)) is not None

    def close(self) -> None:
        """Closes it; standard input stays."""
        if self.descriptor > 0:
            os.close(self.descriptor)
            self.descriptor = -1


class Head:
    """A step of a pump: holds the first bytes until it is known what they begin, then tells DECIDE, and passes on what that gives."""

    def __init__(self, decide, packed: bool) -> None:
        self.decide, self.packed = decide, packed
        self.held: bytes | None = b""

    def feed(self, block: bytes) -> bytes:
        """The next block."""
        if self.held is None:
            return block
        self.held += block
        return self.end() if self.known(self.held) else b""

    def known(self, head: bytes) -> bool:
        """Whether these first bytes are enough."""
        from gq import encodings
        if self.packed and any(magic.startswith(head) for magic, _ in MAGIC):
            return False
        return encodings.known(head) or len(head) >= HEAD

    def end(self) -> bytes:
        """The first bytes are all."""
        if self.held is None:
            return b""
        head, self.held = self.held, None
        return self.decide(head)


class Limit:
    """A step of a pump: the document ends after so many bytes."""

    def __init__(self, size: int) -> None:
        self.left = size
        self.over = False

    def feed(self, block: bytes) -> bytes:
        """The part of a block that is within."""
        block = block[:self.left]
        self.left -= len(block)
        self.over = self.left == 0
        return block

    def end(self) -> bytes:
        """It holds nothing back."""
        return b""


class Feed:
    """How a document comes to `gcx`: directly where that can be, else through a program that unpacks it, and through steps."""

    def __init__(self, loop: Loop, document: Document, subset: bool, first: int | None = None) -> None:
        self.loop, self.document, self.subset = loop, document, subset
        self.first = first  # only so many bytes, and nothing is told: the document was read before
        self.kept: Kept | None = None
        self.unpacker: program.Child | None = None
        self.said: Said | None = None
        self.pumps: list[Pump] = []
        self.steps: list = []
        self.stdin = -1  # of gcx
        self.target = -1
        self.unpacks = ""
        if document.regular:
            self.open_regular(document.head())
        else:
            self.stdin, self.target = program.pipe()
            self.steps = [Head(self.decide, True)]
            self.pumps.append(Pump(loop, os.dup(document.descriptor), self.target, self.steps))

    def open_regular(self, head: bytes) -> None:
        """A file that begins so."""
        self.unpacks = packed_by(head) or ""
        if self.unpacks:
            place = self.find_unpacker()
            self.stdin, self.target = program.pipe()
            self.unpack(place, self.document.again())
            return
        self.steps = self.changes(head)
        if self.steps:
            self.stdin, self.target = program.pipe()
            self.pumps.append(Pump(self.loop, os.dup(self.document.again()), self.target, self.steps))
        else:
            self.stdin = self.document.again()

    def changes(self, head: bytes) -> list:
        """The steps that a document which begins so needs. A regular file that needs none is read by gcx itself."""
        from gq import encodings
        steps: list = []
        codec = encodings.of(head)
        if codec:
            if self.first is None:
                encodings.announce(self.document.name, codec)
            self.kept = self.kept or Kept()
            steps.append(encodings.Decoder(codec))
        elif self.first is None and (encoding := encodings.unknown(head)):
            encodings.announce_unknown(self.document.name, encoding)
        if self.subset:
            from gq.doctype import Blank
            if codec or not self.document.regular or self.unpacks or Blank.applies(self.document.head):
                steps.append(Blank(self.document.name, self.first is None))
        if self.first is not None and (self.unpacks or self.document.size() > self.first):
            steps.append(Limit(self.first))
        return steps + ([self.kept] if self.kept else [])

    def find_unpacker(self) -> str:
        """The program that unpacks."""
        place = program.on_path(self.unpacks)
        if place is None:
            raise Refused(5, self.document.name + f": needs {self.unpacks}, which isn't installed".encode())
        return place

    def unpack(self, place: str, stdin: int) -> None:
        """Starts it, and copies what it gives."""
        source, out = program.pipe()
        said, error = os.pipe()
        self.unpacker = program.Child([place, "-dc"], stdin, out, error)
        os.close(out)
        os.close(error)
        self.said = Said(self.loop, said)
        self.steps = [Head(self.decide_unpacked, False)]
        self.pumps.append(Pump(self.loop, source, self.target, self.steps))

    def decide(self, head: bytes) -> bytes:
        """The first bytes of a stream: what follows goes to a program that unpacks, or through steps."""
        self.unpacks = packed_by(head) or ""
        if not self.unpacks:
            return self.decide_unpacked(head)
        place = self.find_unpacker()
        pump = self.pumps[0]
        self.loop.forget(self.target)
        stdin, target = os.pipe()
        self.unpack(place, stdin)
        os.close(stdin)
        pump.aim(target)
        return head

    def decide_unpacked(self, head: bytes) -> bytes:
        """The same of one that isn't packed."""
        self.kept = Kept()
        self.steps += self.changes(head)
        return head

    def begun(self) -> None:
        """`gcx` has its standard input now; this process needs it no longer."""
        if self.target >= 0:
            os.close(self.stdin)

    def read_at(self, reader: int) -> tuple[int, int] | None:
        """The process and its descriptor whose offset tells how far a regular file was read. READER is gcx."""
        if not self.document.regular:
            return None
        if self.unpacker is not None:
            return self.unpacker.pid, 0
        return (os.getpid(), self.pumps[0].source) if self.pumps else (reader, 0)

    def stop(self) -> None:
        """Nothing more is read."""
        for pump in self.pumps:
            pump.stop()

    def place(self, offset: int) -> Place | None:
        """The place of an offset in what gcx read."""
        if self.kept is not None:
            return self.kept.place(offset)
        if not self.document.regular:
            return None
        return InFile(self.document.descriptor, self.document.base).place(offset)

    def trouble(self, code: int, truncated: bool) -> int | None:
        """After gcx ended with a code: what went wrong before it, told, with its exit code; None: nothing did."""
        for step in self.steps:
            fault = getattr(step, "fault", None)
            if fault is not None:
                tell_step(self, fault)
                return 4
        for pump in self.pumps:
            if pump.error is not None:
                tell(self.document.name + b": " + (pump.error.strerror or "can't be read").encode())
                return 5
        if self.unpacker is None or self.said is None:
            return None
        early = self.pumps[-1].broken or (code != 0 and not truncated)
        if early:
            self.unpacker.kill()
            return None
        status = self.unpacker.wait()
        words = (self.said.rest().splitlines() or [b""])[0]
        if status == 2 and self.unpacks == "gzip":
            tell(self.document.name + b": " + words)
            return None
        if status != 0:
            name = self.unpacks.encode()
            words = words if words.startswith(name) else name + b": " + (words or f"ended with {status}".encode())
            tell(self.document.name + b": " + words)
            return 5
        return None


def tell_step(feed: Feed, fault: tuple[int, str]) -> None:
    """A fault that a step met, at an offset of what it gave."""
    from gq import faults
    faults.document(feed.document.name, fault[1], "", feed.place(fault[0]), fault[0])
