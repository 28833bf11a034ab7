"""Pretty print and progress."""
from __future__ import annotations

import os
import pty
import subprocess
import time
import unittest

from gq import progress
from gq.pretty import Pretty
from gq.tests.common import Case


def printed(answer: bytes, size: int) -> bytes:
    """An answer in blocks of this size, pretty printed."""
    it = Pretty()
    out = b"".join(it.feed(answer[at:at + size]) for at in range(0, len(answer), size))
    return out + it.end()


class Prints(Case):
    """Line ends and indentation."""

    CASES = [
        (b"<a><b>1</b><c></c></a><a></a>", b"<a>\n  <b>1</b>\n  <c></c>\n</a>\n<a></a>\n"),
        (b"<p>Hello <b><i>x</i><u></u></b></p><q><r><s></s></r></q>",
         b"<p>Hello <b><i>x</i><u></u></b></p>\n<q>\n  <r>\n    <s></s>\n  </r>\n</q>\n"),
        (b"Stevens&amp;Co\n", b"Stevens&amp;Co\n"), (b"", b""), (b"one<a></a><b></b>two", b"one<a></a>\n<b></b>two\n"),
    ]

    def test_in_blocks_of_any_size(self) -> None:
        for answer, wanted in self.CASES:
            for size in (1, 2, 3, 7, 1000):
                self.assertEqual(printed(answer, size), wanted)

    def test_documents(self) -> None:
        self.answers("<note>A &lt; B &amp; C</note>\n", "-p", "/bib/note", "bib.xml")
        self.answers("<r>\n  <title>TCP/IP</title>\n  <title>Data on the Web</title>\n</r>\n", "-p", "<r>{/bib/book/title}</r>", "bib.xml")

    def test_mixed_content_is_told(self) -> None:
        document = b"<r><item id='1'>Tea <b>is</b> <i>hot</i></item><item>No <b>tea</b></item></r>"
        out, err = self.gq("-p", "/r/item", stdin=document)
        self.assertEqual(out, b"<item>\n  <id>1</id>Tea <b>is</b><i>hot</i></item>\n<item>No <b>tea</b></item>\n")
        self.assertEqual(err, "gq: -p added white space in mixed content, first in <item>\n")
        self.answers("<item>No <b>tea</b></item>\n", "-p", "for $i in /r/item where not(exists($i/id)) return $i", stdin=document)

    def test_nothing_but_white_space_is_added(self) -> None:
        out, _ = self.gq("-p", "/bib", "bib.xml")
        self.assertEqual(b"".join(it.strip() for it in out.splitlines()), self.gq("/bib", "bib.xml")[0])

    def test_a_fault_in_the_midst(self) -> None:
        out, err = self.gq("-p", "/a", stdin=b"<a><b/><c>x</d>", code=4)
        self.assertEqual(out, b"<a>\n  <b></b>\n  <c>\n")
        self.assertIn("<stdin>:1:14: ", err)


class Shows(Case):
    """Progress."""

    def drawn(self, act) -> str:
        """What a terminal shows that is standard error meanwhile."""
        main, side = pty.openpty()
        before = os.dup(2)
        os.dup2(side, 2)
        try:
            act()
        finally:
            os.dup2(before, 2)
            os.close(before)
            os.close(side)
        return self.all_shown(main)

    def all_shown(self, main: int) -> str:
        """All that a terminal shows whose other side is closed."""
        shown = b""
        try:
            while block := os.read(main, 65536):
                shown += block
        except OSError:
            pass
        os.close(main)
        return shown.decode()

    def test_the_part_of_a_file(self) -> None:
        path = self.write("big.xml", b"x" * 5_000_000)
        place = os.open(path, os.O_RDONLY)
        os.lseek(place, 2_500_000, os.SEEK_SET)

        def act() -> None:
            child = subprocess.Popen(["sleep", "0.8"])
            with progress.watch(os.fsencode(path), child.pid, (os.getpid(), place), 5_000_000):
                child.wait()

        shown = self.drawn(act)
        os.close(place)
        self.assertRegex(shown, r"\A\rbig.xml: 50 % of 5.0 MB, \d+ MB/s, memory [\d.]+ MB")
        self.assertRegex(shown, r"\r +\r\Z")

    def test_nothing_is_drawn_where_no_terminal_is(self) -> None:
        child = self.start("-v", "//note")
        child.stdin.write(b"<a><note>1</note>")
        child.stdin.flush()
        time.sleep(0.7)
        self.assertEqual(child.communicate(b"</a>", timeout=60), (b"<note>1</note>", b""))

    def test_a_stream_on_a_terminal(self) -> None:
        main, side = pty.openpty()
        child = self.start("-v", "-c", "//note", stdout=subprocess.PIPE, stderr=side)
        os.close(side)
        child.stdin.write(b"<a>" + b"<note>1</note>" * 100_000)
        child.stdin.flush()
        time.sleep(0.9)
        child.stdin.write(b"</a>")
        child.stdin.close()
        self.assertEqual(child.stdout.read(), b"100000\n")
        self.assertEqual(child.wait(), 0)
        child.stdout.close()
        shown = self.all_shown(main)
        self.assertRegex(shown, r"\A\r<stdin>: \d\.\d MB, \d+ MB/s, memory [\d.]+ MB")
        self.assertRegex(shown, r"\r +\r\Z")

    def test_an_answer_on_the_same_terminal(self) -> None:
        code, shown = self.on_terminal("-v", "//title", "bib.xml")
        self.assertEqual((code, shown), (0, "<title>TCP/IP</title><title>Data on the Web</title>\n"))


if __name__ == "__main__":
    unittest.main()
