"""What `gq held` and `gq plot` tell, against the trace that gcx writes, counted here in another way."""
from __future__ import annotations

import gzip
import os
import random
import re
import signal
import subprocess
import time
import unittest

from gq.plot import PLAIN, in_text
from gq.svg import round_numbers
from gq.tests.common import GCX, Case
from gq.tests.test_plan import items, shop
from gq.trace import Held

COMMA = "/items/item/price, /items/item/note"
QUERIES = [COMMA, "/items/item", "//note", "/items", "for $a in /items/item, $b in /items/item where $a/price = $b/price return <x/>", "<x/>"]


def counted(trace: bytes) -> dict[int, int]:
    """The most nodes that are held while so many are read, counted line by line."""
    found: dict[int, int] = {}
    alive: set[bytes] = set()
    read = 0
    lines = trace.splitlines() + [b"end"]
    for line, after in zip(lines, lines[1:]):
        kind, _, rest = line.partition(b" ")
        if kind == b"+":
            alive.add(rest.split()[0])
            read += 1
        elif kind == b"x":
            alive.remove(rest)
        if not after.startswith(b"x "):
            found[read] = max(found.get(read, 0), len(alive))
    return found


class Pictures(Case):
    """Peaks, reasons and pictures."""

    def setUp(self) -> None:
        super().setUp()
        self.write("items.xml", items(300))

    def trace(self, query: str, document: str = "items.xml") -> bytes:
        """The trace of a run."""
        self.write("q", query)
        return subprocess.run([GCX or "", "run", "--trace", "q", document], cwd=self.folder, capture_output=True, check=True).stderr

    def peak(self, query: str, document: str = "items.xml") -> list[str]:
        """The words of the peak that gcx tells."""
        self.write("q", query)
        return subprocess.run([GCX or "", "peak", "q", document], cwd=self.folder, capture_output=True, check=True, text=True).stdout.split()

    def area_heights(self, picture: str, place: float) -> list[int]:
        """How high each area of a picture is at a place, read from its outline, which gcx copies from the picture."""
        out, _ = self.gq("-l", "/svg/g/path/d/text()", picture)
        found = []
        for outline in out.decode().splitlines():
            x = y = 0.0
            edges = []
            for letter, numbers in re.findall(r"([MHV])([-\d. ]+)", outline):
                values = [float(it) for it in numbers.split()]
                if letter == "H":
                    if min(x, values[0]) < place < max(x, values[0]):
                        edges.append(y)
                    x = values[0]
                else:
                    x, y = (x, values[0]) if letter == "V" else (values[0], values[1])
            self.assertEqual(len(edges), 2, outline)
            found.append(int(abs(edges[0] - edges[1])))
        return found

    def test_peak_and_number_of_nodes_are_those_of_gcx(self) -> None:
        self.write("shop.xml", shop(60))
        cases = [(it, "items.xml") for it in QUERIES] + [("for $c in /shop/customer, $o in /shop/order where $o/of = $c/id return $o", "shop.xml")]
        for query, document in cases:
            _, peak, _, nodes, *_ = self.peak(query, document)
            told = self.gq("held", query, document)[0].decode()
            self.assertTrue(told.startswith(f"peak {int(peak):,} of {int(nodes):,} nodes, when "), (query, told))
            counts = [int(it.replace(",", "")) for it in re.findall(r"^ +([\d,]+)  ", told, re.M)]
            self.assertEqual(sum(counts), int(peak), query)

    def test_reasons(self) -> None:
        told = self.gq("held", COMMA, "items.xml")[0].decode()
        self.assertRegex(told, r"\n +299  /items/item/note +role 8\n")
        self.assertIn("when 1,500 were read, the last of them /items/item/price/text()\n", told)
        self.assertIn("role 8 keeps each /items/item/note, with all below it, to copy it,\n  until the document ends: its loop begins", told)

    def test_areas_add_up_to_the_counts_of_the_trace(self) -> None:
        self.write("shop.xml", shop(150))
        join = "for $c in /shop/customer, $o in /shop/order where $o/of = $c/id return <b>{$c/name, $o/sum}</b>"
        for query, document in ((COMMA, "items.xml"), ("/items/item", "items.xml"), (join, "shop.xml")):
            counts = counted(self.trace(query, document))
            read = max(counts)
            held = Held()
            held.lines(self.trace(query, document).splitlines())
            held.end()
            self.assertEqual(held.read, read)
            width = held.width
            self.write("held.svg", self.gq("plot", query, document)[0])
            for part in (0.02, 0.3, 0.5, 0.77, 0.99):
                column = int(read * part) // width
                first, last = column * width, min((column + 1) * width, read)
                wanted = max(counts[it] for it in range(first + 1, last + 1))
                self.assertEqual(sum(self.area_heights("held.svg", (first + last) / 2)), wanted, (query, part))

    def test_gcx_takes_the_picture(self) -> None:
        self.write("held.svg", self.gq("plot", 'for $i in /items/item where $i/note != "<&>" return ($i/price, $i/note)'.replace("&", "&amp;"), "items.xml")[0])
        texts = self.gq("-l", "/svg/text/text()", "held.svg")[0].decode().splitlines()
        peak = self.peak('for $i in /items/item where $i/note != "<&amp;>" return ($i/price, $i/note)')[1]
        self.assertEqual(texts[0], f"Nodes held over items.xml: at most {peak} of 1,502")
        self.assertEqual(texts[1], 'for $i in /items/item where $i/note != "&lt;&amp;amp;&gt;" return ($i/price, $i/note)')
        for words in ("0", "500", "1,000", "1,500", "nodes read", "nodes held", f"peak {peak}"):
            self.assertIn(words, texts)
        self.assertTrue([it for it in texts if it.startswith("/items/item/note: 1 at the peak")], texts)
        marks = self.gq("-c", "/svg/circle", "held.svg")[0]
        self.assertEqual(marks, b"1\n")

    def test_the_mark_stands_at_the_peak(self) -> None:
        picture = self.gq("plot", COMMA, "items.xml")[0].decode()
        x, y = map(float, re.search(r'<circle cx="([\d.]+)" cy="([\d.]+)"', picture).groups())
        left, top, wide, high = map(float, re.search(r"translate\(([\d.]+) ([\d.]+)\) scale\(([\d.]+) -([\d.]+)\)", picture).groups())
        self.assertAlmostEqual((x - left) / wide, 1500, delta=1)
        self.assertAlmostEqual((top - y) / high, 902, delta=1)

    def test_few_columns_however_long_the_document(self) -> None:
        generator = random.Random(7)
        lines = [b"+ 0 / 0", b"+ 1 r 1"]
        alive: list[bytes] = []
        for serial in range(2, 30_000):
            lines += [b"+ %d # 1" % serial]
            alive.append(b"x %d" % serial)
            if generator.random() < 0.6:
                lines += [b"o 1 1", alive.pop(generator.randrange(len(alive)))]
        held = Held(64)
        held.lines(lines)
        held.end()
        self.assertLessEqual(len(held.columns), 64)
        self.assertGreater(len(held.columns), 31)
        counts = counted(b"\n".join(lines))
        self.assertEqual(held.peak.held, max(counts.values()))
        for column in held.columns[:-1]:
            whole = max(counts[it] for it in range(column.first + 1, column.first + held.width + 1))
            self.assertEqual(column.held, whole)
            self.assertEqual(sum(column.counts.values()), column.held)

    def test_on_a_terminal_it_is_text(self) -> None:
        code, shown = self.on_terminal("plot", COMMA, "items.xml")
        self.assertEqual(code, 0)
        self.assertTrue(shown.startswith("nodes held over items.xml: at most 902 of 1,502, when 1,500 were read\n"), shown)
        self.assertIn("nodes read", shown)
        self.assertIn("/items/item/note: 299 at the peak\n", shown)
        held = Held()
        held.lines(self.trace(COMMA).splitlines())
        held.end()
        for wide in (20, 40, 80, 200):
            lines = in_text(held, "items.xml", wide, PLAIN).splitlines()
            self.assertTrue(all(it.isascii() for it in lines))
            self.assertLessEqual(max(map(len, lines[1:17])), max(wide, 34))

    def test_round_numbers(self) -> None:
        for most in (1, 2, 3, 5, 7, 10, 23, 99, 100, 101, 2_888, 30_247, 10**9):
            numbers = round_numbers(most, 6)
            self.assertTrue(numbers[0] == 0 and numbers[-1] >= most > numbers[-2], most)
            self.assertRegex(str(numbers[1]), r"\A[125]0*\Z")
            self.assertLessEqual(len(numbers), 8)

    def test_documents_come_as_elsewhere(self) -> None:
        wanted = self.gq("held", COMMA, "items.xml")[0]
        self.write("items.gz", gzip.compress(items(300).encode()))
        self.assertEqual(self.gq("held", COMMA, "items.gz")[0], wanted)
        self.assertEqual(self.gq("held", COMMA, stdin=items(300).encode())[0], wanted)
        self.assertEqual(self.shell(f"$GQ held '{COMMA}' <(cat items.xml)"), (0, wanted, ""))
        self.write("dtd.xml", "<!DOCTYPE items [<!ENTITY e 'x'>]>" + items(300))
        self.assertEqual(self.gq("held", "--subset", COMMA, "dtd.xml")[0], wanted)
        self.write("q.xq", COMMA + "\n")
        self.assertEqual(self.gq("held", "-f", "q.xq", "items.xml")[0], wanted)

    def test_faults_are_told_and_nothing_is_drawn(self) -> None:
        for command in ("held", "plot"):
            out, err = self.gq(command, "/a[b]", "items.xml", code=3)
            self.assertEqual((out, err[:10]), (b"", "query:1:3:"))
            out, err = self.gq(command, "//a", stdin=b"<a>1<b></a>", code=4)
            self.assertEqual((out, err.split(": ")[0]), (b"", "<stdin>:1:10"))
            self.assertEqual(self.gq(command, "//a", "none.xml", code=5)[1], "gq: none.xml: No such file or directory\n")
            self.assertEqual(self.gq(command, "//a", self.folder, code=5)[1], f"gq: {self.folder}: Is a directory\n")

    def test_ends(self) -> None:
        for command in ("plan /a", f"held '{COMMA}' items.xml", f"plot '{COMMA}' items.xml"):
            code, _, err = self.shell(f"$GQ {command} >/dev/full")
            self.assertEqual((code, err), (6, "gq: standard output: No space left on device\n"), command)
            code, _, err = self.shell(f"set -o pipefail; (sleep 0.2; exec $GQ {command}) | true")
            self.assertEqual((code, err), (141, ""), command)

    def test_no_gcx_outlives_a_signal(self) -> None:
        started = self.folder + "/started"
        for number, text in ((signal.SIGINT, "time.sleep(60)"), (signal.SIGTERM, "while True: os.write(2, b'w 1\\n' * 1000)")):
            explains = f"if sys.argv[1] == 'explain':\n  os.unlink({started!r})\n  os.execv({GCX!r}, sys.argv)"
            self.fake(f"{explains}\nsignal.signal(signal.SIGPIPE, signal.SIG_IGN)\n{text}")
            child = self.start("held", "/a", "bib.xml")
            pid = self.started()
            time.sleep(0.3)
            pid = self.started()
            child.send_signal(number)
            self.assertEqual(child.wait(timeout=60), -number)
            self.assertEqual(child.communicate(), (b"", b""))
            self.gone(pid)
            os.unlink(started)

    def test_names_that_are_no_utf8(self) -> None:
        name = b"caf\xe9 <&>.xml"
        self.write(name, items(2))
        self.write("held.svg", self.gq("plot", "/items/item", name)[0])
        title = self.gq("-l", "/svg/title/text()", "held.svg")[0].decode()
        self.assertEqual(title, "Nodes held over caf\ufffd &lt;&amp;&gt;.xml: at most 7 of 12\n")
        self.assertIn(b"peak 7 of 12 nodes", self.gq("held", "/items/item", name)[0])
        for command in (["plan"], ["held"], ["plot"]):
            words = [*command, b"/caf\xe9"] + ([] if command == ["plan"] else ["items.xml"])
            self.assertRegex(self.gq(*words, code=3)[1], r"\Aquery:1:5: not UTF-8")

    def test_many_paths(self) -> None:
        document = "<r>" + "".join(f"<n{it}><v>{it}</v></n{it}>" for it in range(400)) + "</r>"
        out, _ = self.gq("held", "/r", stdin=document.encode())
        self.assertIn("other paths\n", out.decode())
        picture, _ = self.gq("plot", "/r", stdin=document.encode())
        self.assertIn(b"all others: ", picture)
        self.assertIn(b"standard input", picture)

    def test_memory_of_the_picture_is_constant_but_for_what_is_held(self) -> None:
        place = os.path.join(self.folder, "large.xml")
        sizes = []
        for count in (2000, 20000):
            with open(place, "wb") as out:
                subprocess.run([GCX or "", "gen", "5", str(count)], stdout=out, check=True)
            code, _, err = self.shell("""python3 -c '
import os, resource, subprocess, sys
subprocess.run(sys.argv[1:], stdout=subprocess.DEVNULL, check=True)
print(resource.getrusage(resource.RUSAGE_CHILDREN).ru_maxrss, file=sys.stderr)' $GQ held /items/item large.xml""")
            self.assertEqual(code, 0, err)
            sizes.append(int(err))
        self.assertLess(sizes[1], sizes[0] + 6000)  # kilobytes; a document that is held takes 17,000 more


if __name__ == "__main__":
    unittest.main()
