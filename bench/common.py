"""What the scripts of bench/ have in common: files of the repository, the program, documents, and what a command takes."""
import contextlib
import glob
import os
import re
import shutil
import subprocess
import tempfile
import time
from typing import NamedTuple

HERE = os.path.dirname(os.path.abspath(__file__))
TOP = os.path.dirname(HERE)
PROGRAM = f"{TOP}/crates/gcx/out/gcx"
PIECE = 1 << 16
CRATES = "/usr/share/cargo/registry"
TRIALS = ("gen", "selfrun")  # commands that README leaves to the man page


def text_of(path):
    """The text of a file of the repository."""
    with open(os.path.join(TOP, path), encoding="utf-8") as it:
        return it.read()


def write(path, pieces):
    """Writes pieces of bytes into a file, and gives its size."""
    with open(path, "wb") as out:
        for piece in pieces:
            out.write(piece)
    return os.path.getsize(path)


def program_of(words):
    """The program that the first word names; without one, that which the gate and `rt run` leave."""
    program = os.path.abspath(words[0] if words else PROGRAM)
    if not os.access(program, os.X_OK):
        raise SystemExit(f"no program {program}: give its path")
    return program


def items(seed, count):
    """The document of `gcx gen`, in pieces: so many items, each with a price and a note."""
    yield b"<items>"
    for first in range(0, count, 10_000):
        rows = range(first, min(first + 10_000, count))
        yield b"".join(b"<item><price>%d</price><note>%07d</note></item>" % ((seed + 37 * i) % 100, i) for i in rows)
    yield b"</items>"


def made_items(count):
    """The document of `generate 5 COUNT`, in pieces."""
    return items(5, count)


def records(count):
    """Records with attributes and mixed content; one in three has a mail."""
    yield b"<records>"
    for first in range(0, count, 5_000):
        yield b"".join(record(i) for i in range(first, min(first + 5_000, count)))
    yield b"</records>"


def record(i):
    mail = b"<mail>r%d@example.org</mail>" % i if i % 3 == 0 else b""
    return (
        b'<record id="%d" age="%d"><name>Name %d</name>%s<about>Some words about the <em>record</em> of number %d, which is'
        b" written down in a sentence, and in <em>another</em> one that says no more &amp; no less.</about></record>"
    ) % (i, (7 * i) % 90, i, mail, i)


# The name of each query, its document with the bytes of an item, its text, and as a path.
QUERIES = [
    ("price", made_items, 52, "<r>{for $i in /items/item return if ($i/price >= 50) then $i/note else ()}</r>", "/items/item[price >= 50]/note"),
    ("items", made_items, 52, "/items/item", "/items/item"),
    ("notes", made_items, 52, "//note", "//note"),
    ("mail", records, 229, "for $p in /records/record return if (exists($p/mail)) then $p/name else ()", "/records/record[mail]/name"),
    ("age", records, 229, "for $p in /records/record return if ($p/age >= 60) then $p/name else ()", "/records/record[@age >= 60]/name"),
]


def compiled(work, name, *options):
    """The program of a C file of this folder, made where it isn't there yet."""
    made = f"{work}/{name}"
    if not os.path.exists(made):
        subprocess.run(["cc", "-O2", "-o", made, f"{HERE}/{name}.c", *options], check=True)
    return made


def with_crate(work, name, crate):
    """The program of a Rust file of this folder over a crate of Debian's, made where it isn't there yet; None where it can't be made."""
    if not shutil.which("cargo") or not glob.glob(f"{CRATES}/{crate}-*"):
        return None
    folder = f"{work}/{name}_in_rust"
    os.makedirs(f"{folder}/.cargo", exist_ok=True)
    package = f'[package]\nname = "{name}"\nversion = "0.0.0"\nedition = "2021"\n'
    target = f'[[bin]]\nname = "{name}"\npath = "{HERE}/{name}.rs"\n'
    write(f"{folder}/Cargo.toml", [f'{package}{target}[dependencies]\n{crate} = "*"\n'.encode()])
    source = f'[source.crates-io]\nreplace-with = "debian"\n[source.debian]\ndirectory = "{CRATES}"\n'
    write(f"{folder}/.cargo/config.toml", [source.encode()])
    done = subprocess.run(["cargo", "build", "--offline", "--release", "--quiet"], cwd=folder, check=False)
    return None if done.returncode else f"{folder}/target/release/{name}"


class Took(NamedTuple):
    """What a run took: processor seconds, peak resident bytes, seconds, those until the first byte of output; and the bytes of
    output, the exit code, and what stood on standard error."""

    processor: float
    peak: int
    seconds: float
    first: float
    size: int
    code: int
    said: str


def timed(command, work):
    """Runs a command, by measured.c, whose own memory is small."""
    measured = compiled(work, "measured")
    with open(f"{work}/said", "w+", encoding="utf-8", errors="replace") as said:
        start, first, size = time.monotonic(), None, 0
        child = subprocess.Popen([measured, f"{work}/usage", *command], stdout=subprocess.PIPE, stderr=said)
        while piece := os.read(child.stdout.fileno(), PIECE):
            first = first or time.monotonic() - start
            size += len(piece)
        child.stdout.close()
        code = child.wait()
        seconds = time.monotonic() - start
        said.seek(0)
        with open(f"{work}/usage", encoding="utf-8") as it:
            processor, peak = it.read().split()
        return Took(float(processor), int(peak), seconds, first or 0.0, size, code, said.read().strip())


def best(command, work, times=3):
    """The run of several that took the least time of the processor; each must end with 0."""
    runs = [timed(command, work) for _ in range(times)]
    for took in runs:
        if took.code:
            raise SystemExit(f"{command} ended with {took.code}: {took.said}")
    return min(runs)


def instructions(command, work, *options, stdin=None):
    """The instructions that a command takes, by callgrind, and what it wrote; it must end with 0."""
    calls = f"{work}/calls"
    words = ["valgrind", "--tool=callgrind", f"--callgrind-out-file={calls}", *options, *command]
    done = subprocess.run(words, stdin=stdin, stdout=subprocess.PIPE, stderr=subprocess.PIPE, check=False)
    if done.returncode:
        raise SystemExit(f"{command} ended with {done.returncode} below valgrind: {done.stderr.decode(errors='replace')[-2000:]}")
    with open(calls, encoding="utf-8") as it:
        count = next(int(line.split()[1]) for line in it if line.startswith(("summary:", "totals:")))
    return count, done.stdout


@contextlib.contextmanager
def folder_of(words):
    """The folder that the first word names, made where it isn't there; without one, one that is removed afterwards."""
    with tempfile.TemporaryDirectory() as other:
        folder = os.path.abspath(words[0] if words else other)
        os.makedirs(folder, exist_ok=True)
        yield folder


def with_below(lines, names):
    """These crates and all below them, each behind those that it names, as `crates.txt` has their lines."""
    found = []
    for name in names:
        if name in lines:
            found += [it for it in [*with_below(lines, lines[name].split()), name] if it not in found]
    return found


def copy_of(work, *names):
    """A copy of these crates, and of all below them, in work/copy, with its crates.txt, the lowest first; gives its path."""
    lines = dict(re.findall(r"^(\w+):(.*)$", text_of("crates.txt"), re.M))
    wanted = with_below(lines, names)
    copy = f"{work}/copy"
    shutil.rmtree(copy, ignore_errors=True)
    for name in wanted:
        for part in ("src", "specs", "proofs"):
            if os.path.isdir(f"{TOP}/crates/{name}/{part}"):
                shutil.copytree(f"{TOP}/crates/{name}/{part}", f"{copy}/crates/{name}/{part}")
    write(f"{copy}/crates.txt", [f"{name}:{lines[name]}\n".encode() for name in wanted])
    return copy


def made(folder, *words):
    """Runs rt with these words in the folder of a crate; it must end with 0."""
    done = subprocess.run(["rt", *words], cwd=folder, stdout=subprocess.PIPE, stderr=subprocess.STDOUT, text=True, check=False)
    if done.returncode:
        raise SystemExit(f"rt {words[0]} of {folder} failed:\n" + "\n".join(done.stdout.splitlines()[-20:]))


def proved(folder, *words):
    """Proves the program of a crate of a copy, the libraries of the copy before it, and runs it once; gives its path."""
    crates, name = os.path.split(folder)
    with open(f"{os.path.dirname(crates)}/crates.txt", encoding="utf-8") as it:
        libraries = [line.partition(":")[0] for line in it]
    for library in libraries:
        if library != name:
            made(f"{crates}/{library}", "lib")
    made(folder, "run", "--", *words)
    return f"{folder}/out/{name}"
