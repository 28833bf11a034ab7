"""What the tests share: the programs, documents, runs on pipes and on a terminal."""
from __future__ import annotations

import os
import pathlib
import pty
import select
import shutil
import signal
import subprocess
import sys
import tempfile
import time
import unittest

TOP = pathlib.Path(__file__).resolve().parent.parent.parent
BIB = (TOP / "crates" / "gcx" / "data" / "bib.xml").read_bytes()
LAUNCHER = [sys.executable, "-I", "-S", str(TOP / "gq" / "launcher")]


def program() -> str | None:
    """The gcx that is tested with."""
    built = TOP / "crates" / "gcx" / "out" / "gcx"
    return os.environ.get("GCX") or (str(built) if os.access(built, os.X_OK) else shutil.which("gcx"))


GCX = program()
# Tests end gq by signals, also where what started them ignores these, as nohup and a job in the background do.
signal.signal(signal.SIGHUP, signal.SIG_DFL)
signal.signal(signal.SIGINT, signal.default_int_handler)


class Case(unittest.TestCase):
    """A test with a folder of its own that holds bib.xml, and gcx on PATH."""

    def setUp(self) -> None:
        if GCX is None:
            self.skipTest("there is no gcx")
        self.folder = tempfile.mkdtemp()
        self.addCleanup(shutil.rmtree, self.folder)
        self.bin = os.path.join(self.folder, "bin")
        os.mkdir(self.bin)
        os.symlink(os.path.abspath(GCX or ""), os.path.join(self.bin, "gcx"))
        self.write("bib.xml", BIB)

    def write(self, name, content: bytes | str):
        """A file of the folder; its path."""
        path = os.path.join(os.fsencode(self.folder), os.fsencode(name))
        with open(path, "wb") as file:
            file.write(content.encode() if isinstance(content, str) else content)
        return os.fsdecode(path)

    def fake(self, text: str) -> None:
        """Another gcx: a script of Python, after whose start `started` is there."""
        path = os.path.join(self.bin, "gcx")
        os.unlink(path)
        self.write("bin/gcx", f"#!{sys.executable} -IS\nimport os, sys, signal, time\nopen({self.folder!r} + '/started', 'w').write(str(os.getpid()))\n{text}\n")
        os.chmod(path, 0o755)

    def environment(self) -> dict:
        """What the programs see."""
        return {**os.environ, "PATH": self.bin + ":" + os.environ["PATH"], "GQ": " ".join(LAUNCHER)}

    def start(self, *words, **more) -> subprocess.Popen:
        """gq with these words."""
        given = {"stdin": subprocess.PIPE, "stdout": subprocess.PIPE, "stderr": subprocess.PIPE, **more}
        return subprocess.Popen([*LAUNCHER, *words], cwd=self.folder, env=self.environment(), **given)

    def gq(self, *words, stdin: bytes = b"", code: int = 0) -> tuple[bytes, str]:
        """What gq writes, and says on standard error; it ends with CODE."""
        child = self.start(*words)
        out, err = child.communicate(stdin, timeout=120)
        self.assertNotIn(b"Traceback", err)
        self.assertEqual(child.returncode, code, (words, out[:300], err))
        return out, err.decode("utf-8", "surrogateescape")

    def answers(self, wanted: str | bytes, *words, stdin: bytes = b"") -> None:
        """gq writes this, and says nothing."""
        out, err = self.gq(*words, stdin=stdin)
        self.assertEqual(out, wanted.encode() if isinstance(wanted, str) else wanted)
        self.assertEqual(err, "")

    def shell(self, script: str) -> tuple[int, bytes, str]:
        """A script of bash, in which $GQ is gq: its code and what it writes."""
        done = subprocess.run(["bash", "-c", script], cwd=self.folder, env=self.environment(), capture_output=True, timeout=120)
        self.assertNotIn(b"Traceback", done.stderr)
        return done.returncode, done.stdout, done.stderr.decode("utf-8", "surrogateescape")

    def on_terminal(self, *words, stdin: bytes | None = None) -> tuple[int, str]:
        """The code, and what a terminal shows of both streams."""
        main, side = pty.openpty()
        child = self.start(*words, stdout=side, stderr=side, stdin=subprocess.PIPE)
        os.close(side)
        if stdin is not None:
            child.stdin.write(stdin)
        child.stdin.close()
        shown = b""
        while True:
            try:
                block = os.read(main, 65536)
            except OSError:
                break
            if not block:
                break
            shown += block
        os.close(main)
        code = child.wait(timeout=60)
        child.stderr and child.stderr.close()
        self.assertNotIn(b"Traceback", shown)
        return code, shown.decode("utf-8", "replace").replace("\r\n", "\n")

    def gone(self, pid: int) -> None:
        """A process has ended, or does so soon."""
        for _ in range(200):
            try:
                with open(f"/proc/{pid}/stat", encoding="utf-8", errors="replace") as file:
                    if file.read().rpartition(")")[2].split()[0] in "ZX":
                        return
            except OSError:
                return
            time.sleep(0.05)
        self.fail(f"process {pid} outlives gq")

    def started(self) -> int:
        """The process of the fake gcx, once it runs."""
        path = os.path.join(self.folder, "started")
        for _ in range(400):
            if os.path.exists(path) and os.path.getsize(path):
                with open(path, encoding="utf-8") as file:
                    return int(file.read())
            time.sleep(0.05)
        self.fail("gcx wasn't started")
        return 0

    def read_some(self, child: subprocess.Popen, size: int) -> bytes:
        """The first bytes that a child writes."""
        out = b""
        while len(out) < size and select.select([child.stdout], [], [], 60)[0]:
            block = os.read(child.stdout.fileno(), size - len(out))
            if not block:
                break
            out += block
        return out
