"""How gq ends: closed readers, full disks, signals, programs that behave badly; and what it keeps in memory."""
from __future__ import annotations

import os
import signal
import threading
import unittest

from gq.tests.common import Case

FOREVER = "signal.signal(signal.SIGPIPE, signal.SIG_IGN)\nwhile True:\n  try: os.write(1, b'<a></a>' * 1000)\n  except OSError: time.sleep(0.01)\n"


class Output(Case):
    """Standard output that takes no more."""

    def setUp(self) -> None:
        super().setUp()
        self.write("large.xml", "<r>" + "<a>0123456789</a>" * 100_000 + "</r>")

    def test_full_disk(self) -> None:
        for words in ("/r/a", "-l /r/a", "-t /r/a . --", "-jt /r/a . --", "-c /r/a", "/r"):
            with self.subTest(words=words):
                done = self.shell(f"$GQ {words} large.xml large.xml >/dev/full")
                self.assertEqual(done, (6, b"", "gq: standard output: No space left on device\n"))
        self.assertEqual(self.shell("$GQ --help >/dev/full")[0], 6)

    def test_file_size_limit(self) -> None:
        code, _, err = self.shell("ulimit -f 10; $GQ -l /r/a large.xml >out; code=$?; wc -c <out >&2; exit $code")
        self.assertEqual((code, err), (6, "gq: standard output: File too large\n10240\n"))

    def test_closed_reader(self) -> None:
        for words in ("/r/a", "-l /r/a", "-t /r/a . --", "-0 /r/a"):
            with self.subTest(words=words):
                code, out, err = self.shell(f"$GQ {words} large.xml large.xml | head -c 5; exit ${{PIPESTATUS[0]}}")
                self.assertEqual((code, len(out), err), (128 + signal.SIGPIPE, 5, ""))

    def test_message_after_a_line_that_is_not_over(self) -> None:
        self.write("bad.xml", "<a><b>1</b><b>2</a>")
        bad = "bad.xml:1:18: another end tag"
        for words, lines in (("/a/b", ["<b>1</b><b>"]), ("-l /a/b", ["<b>1</b>", "<b>"]), ("-l /a/b/text()", ["1"]), ("-p /a/b", ["<b>1</b>", "<b>"]),
                             ("-t /a/b . --", ["1"]), ("-jt /a/b . --", ['{".":"1"}']), ("-l //none", [])):
            with self.subTest(words=words):
                code, shown = self.on_terminal(*words.split(), "bad.xml")
                self.assertEqual((code, shown.splitlines()[:len(lines)]), (4, lines))
                self.assertTrue(shown.splitlines()[len(lines)].startswith(bad), shown)
        self.assertEqual(self.gq("-l", "/a/b", "bad.xml", code=4)[0], b"<b>1</b>\n<b>")

    def test_closed_standard_output(self) -> None:
        for words in ("/r/a", "-l /r/a"):
            self.assertEqual(self.shell(f"$GQ {words} large.xml >&-")[2], "")
        self.assertEqual(self.shell("cmp large.xml <(printf '<r>'; printf '<a>0123456789</a>%.0s' {1..100000}; printf '</r>')"), (0, b"", ""))
        self.assertEqual(self.shell("$GQ -c /r/a <&-")[0], 4)

    def test_reader_that_does_not_wait(self) -> None:
        source, place = os.pipe()
        os.set_blocking(place, False)
        child = self.start("-l", "/r/a", "large.xml", stdout=place)
        os.close(place)
        with os.fdopen(source, "rb") as file:
            size = sum(iter(lambda: len(file.read(1000)), 0))
        self.assertEqual((child.wait(), size), (0, 1_800_000))
        child.communicate()

    def test_not_a_byte_passes_through(self) -> None:
        self.fake("print(os.fstat(1).st_ino, os.fstat(0).st_ino, sorted(map(int, os.listdir('/proc/self/fd'))))")
        done = self.shell("$GQ /a bib.xml >out; cat out; stat -c %i out bib.xml")
        answer, place, document = done[1].decode().split("\n")[:3]
        self.assertEqual(answer.split()[:2], [place, document])
        self.assertLessEqual(len(answer.split("[")[1].split(",")), 5)

    def test_gcx_that_ignores_pipe(self) -> None:
        self.fake(FOREVER)
        done = self.shell("$GQ -c /a bib.xml & sleep 1; kill $!; wait $! 2>/dev/null; $GQ -0 /a bib.xml | head -c 5; exit ${PIPESTATUS[0]}")
        self.assertEqual((done[0], len(done[1])), (128 + signal.SIGPIPE, 5))
        self.gone(self.started())


class Signals(Case):
    """No child outlives gq, and what was written stays."""

    def ends(self, number: int, words: list[str], document: bytes, wanted: bytes) -> None:
        """gq over a document that doesn't end, ended by a signal after its first answer."""
        child = self.start(*words)
        child.stdin.write(document)
        child.stdin.flush()
        self.assertEqual(self.read_some(child, len(wanted)), wanted)
        with open(f"/proc/{child.pid}/task/{child.pid}/children", encoding="ascii") as file:
            children = [int(it) for it in file.read().split()]
        self.assertTrue(children)
        os.kill(child.pid, number)
        self.assertEqual(child.wait(timeout=60), -number)
        for pid in children:
            self.gone(pid)
        self.assertEqual(child.communicate(), (b"", b""))

    def test_term_and_ctrl_c(self) -> None:
        document = b"<a><b>1</b>" + b" " * 70_000
        self.ends(signal.SIGTERM, ["-l", "/a/b"], document, b"<b>1</b>\n")
        self.ends(signal.SIGINT, ["/a/b"], document, b"<b>1</b>")
        self.ends(signal.SIGHUP, ["-t", "/a/b", "."], document, b"1\n")

    def test_with_an_unpacker(self) -> None:
        import zlib
        packer = zlib.compressobj(wbits=31)
        document = packer.compress(b"<a><b>1</b>" + os.urandom(400_000).hex().encode()) + packer.flush(zlib.Z_SYNC_FLUSH)
        self.ends(signal.SIGTERM, ["-l", "/a/b"], document, b"<b>1</b>\n")

    def test_gcx_that_ignores_signals(self) -> None:
        self.fake("signal.signal(signal.SIGTERM, signal.SIG_IGN)\n" + FOREVER)
        child = self.start("/a", "bib.xml")
        self.read_some(child, 7)
        os.kill(child.pid, signal.SIGTERM)
        self.assertEqual(child.wait(timeout=60), -signal.SIGTERM)
        self.gone(self.started())
        child.communicate()

    def test_ctrl_c_of_a_group(self) -> None:
        child = self.start("-l", "/a/b", start_new_session=True)
        child.stdin.write(b"<a><b>1</b>")
        child.stdin.flush()
        self.assertEqual(self.read_some(child, 9), b"<b>1</b>\n")
        os.killpg(child.pid, signal.SIGINT)
        self.assertEqual(child.wait(timeout=60), -signal.SIGINT)
        self.assertEqual(child.communicate(), (b"", b""))

    def test_ignored_signals_stay_so(self) -> None:
        done = self.shell("trap '' HUP; (printf '<a><b/>'; sleep 0.5; printf '</a>') | $GQ /a/b & sleep 0.3; kill -HUP $!; wait $!")
        self.assertEqual(done, (0, b"<b></b>", ""))
        self.assertEqual(self.shell("trap '' CHLD PIPE; $GQ -c //author bib.xml; $GQ '/a[' bib.xml 2>/dev/null; echo $?"), (0, b"3\n3\n", ""))

    def test_gcx_that_is_killed(self) -> None:
        self.fake("os.kill(os.getpid(), 9)")
        child = self.start("/a", "bib.xml")
        self.assertEqual(child.communicate(), (b"", b""))
        self.assertEqual(child.returncode, -9)

    def test_gcx_that_hangs_on_after_its_words(self) -> None:
        self.fake("os.close(2); os.read(0, 1 << 20); os._exit(0)")
        self.assertEqual(self.gq("/a", stdin=b"<a/>"), (b"", ""))


class Memory(Case):
    """Memory doesn't grow with a match."""

    def peak(self, words: list[str], blocks: int) -> tuple[int, int]:
        """The peak of gq in kB over one match of this many times 100 kB, and the bytes that it wrote."""
        child = self.start(*words)
        block = b"<c>0123456789\n</c>" * 5_500

        def give() -> None:
            child.stdin.write(b"<a><b>")
            for _ in range(blocks):
                child.stdin.write(block)
            child.stdin.write(b"</b></a>")
            child.stdin.close()

        thread = threading.Thread(target=give)
        thread.start()
        size = 0
        with open(f"/proc/{child.pid}/status", "rb", buffering=0) as status:
            peak = b""
            for piece in iter(lambda: child.stdout.read(1 << 20), b""):
                size += len(piece)
                status.seek(0)
                peak = status.read() or peak
        thread.join()
        child.stdout.close()
        self.assertEqual((child.wait(), child.stderr.read()), (0, b""))
        child.stderr.close()
        line = [it for it in peak.decode().splitlines() if it.startswith("VmHWM")]
        return (int(line[0].split()[1]) if line else 0), size

    def test_one_match(self) -> None:
        for words, each in ((["-l", "/a/b"], 22), (["-0", "/a/b"], 18), (["-t", "/a", "b"], 12), (["-jt", "/a", "b"], 12)):
            with self.subTest(words=words):
                peak, size = self.peak(words, 100)
                self.assertGreater(size, 100 * 5_500 * each)
                self.assertLess(peak, 40_000)


if __name__ == "__main__":
    unittest.main()
