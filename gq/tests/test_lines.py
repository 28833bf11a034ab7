"""Lines, counts, and whether there is an answer."""
from __future__ import annotations

import re
import subprocess
import unittest

from gq import answer, marked
from gq.made import as_it_is
from gq.syntax import Slip
from gq.tests.common import GCX, TOP, Case

ITEMS = "<r><a>1</a><b>2\n</b><a/>x\n<a><m>3</m></a>y</r>"


def documented_queries() -> list[str]:
    """Each query that answers something in the tables of the language."""
    page = (TOP / "docs" / "LANGUAGE.md").read_text(encoding="utf-8") + (TOP / "README.md").read_text(encoding="utf-8")
    found = re.findall(r"\| `((?:/|for |if |<)[^`|]*)`[^|]*\| [^|]*\|\n", page)
    return sorted({it for it in found if not it.endswith(("//", "{}"))})


class Lines(Case):
    """A line a match."""

    def setUp(self) -> None:
        super().setUp()
        self.write("d.xml", ITEMS)

    def test_paths(self) -> None:
        self.answers("<title>TCP/IP</title>\n<title>Data on the Web</title>\n", "-l", "/bib/book/title", "bib.xml")
        self.answers("Stevens\nAbiteboul\nBuneman\n", "-l", "/bib/book/author/text()", "bib.xml")
        self.answers("A &lt; B &amp; C\n", "-l", "/bib/note/text()", "bib.xml")
        self.answers("", "-l", "/bib/none", "bib.xml")

    def test_a_newline_in_a_match(self) -> None:
        self.answers("<b>2&#10;</b>\n", "-l", "/r/b", "d.xml")
        self.answers("<b>2\n</b>\0", "-0", "/r/b", "d.xml")
        self.answers("<a>1</a>\0<a></a>\0<a><m>3</m></a>\0", "-0", "/r/a", "d.xml")
        self.answers("x&#10;\ny\n", "-l", "/r/text()", "d.xml")
        self.answers("<a>1</a>\n<b>2&#10;</b>\n<a></a>\nx&#10;\n<a><m>3</m></a>\ny\n", "-l", "/r/node()", "d.xml")

    def test_queries_that_are_no_path(self) -> None:
        self.answers("<title>Data on the Web</title>\n", "-l", "for $b in /bib/book where $b/price < 50 return $b/title", "bib.xml")
        self.answers("<a>1</a>\n<a></a>\n<a><m>3</m></a>\n<t></t>\n<b>2&#10;</b>\n", "-l", "for $x in /r return ($x/a, <t/>, $x/b)", "d.xml")
        self.answers("TCP/IP\nStevens\nData on the Web\nAbiteboul\nBuneman\n", "-l",
                     "for $b in /bib/book return ($b/title/text(), $b/author/text())", "bib.xml")
        self.answers("<by>Stevens</by>\n<by>Abiteboul</by>\n<by>Buneman</by>\n", "-l",
                     "for $a in /bib/book/author return <by>{$a/text()}</by>", "bib.xml")
        self.answers("<r><note>A &lt; B &amp; C</note></r>\n1994\n2000\n", "-l", "<r>{/bib/note}</r>, (: , :) /bib/book/year/text()", "bib.xml")
        self.answers("<his></his>\n<other></other>\n", "-l",
                     'for $b in /bib/book return if ($b/author = "Stevens") then <his/> else <other/>', "bib.xml")
        self.answers("<a>1</a>\n<a></a>\n<a><m>3</m></a>\n", "-l", "for $gq in /r, $a in $gq/a return$a", "d.xml")
        self.answers("", "-l", "()", "d.xml")

    def test_each_documented_query(self) -> None:
        queries = documented_queries()
        self.assertGreater(len(queries), 25)
        for query in queries:
            with self.subTest(query=query):
                self.write("q", query)
                plain = subprocess.run([GCX, "run", "q", "bib.xml"], cwd=self.folder, capture_output=True)
                lines = self.gq("-0", query, "bib.xml", code=plain.returncode)[0]
                self.assertEqual(lines.replace(b"\0", b""), plain.stdout)
                if plain.returncode == 0 and len(query) % 3 == 0:
                    self.assertEqual(int(self.gq("-c", query, "bib.xml")[0]), lines.count(b"\0"))

    def test_names_of_marks(self) -> None:
        names = ["m", "v", "c", "n", "gq", "g0123456789abcdef"]
        document = "<r>" + "".join(f"<{it}>1</{it}><{it}/>" for it in names) + "</r>"
        self.write("marks.xml", document)
        lines = "".join(f"<{it}>1</{it}>\n<{it}></{it}>\n" for it in names)
        self.answers(lines, "-l", "/r/*", "marks.xml")
        self.answers("12\n", "-c", "/r/*", "marks.xml")
        self.answers("1;;1;;1;;1;;1;;1;\t1;\n", "-t", "/r", "*", "v", "--", "marks.xml")

    def test_count(self) -> None:
        self.answers("3\n", "-c", "//author", "bib.xml")
        self.answers("0\n", "-c", "//none", "bib.xml")
        self.answers("3\n3\n", "-c", "//author", "bib.xml", "bib.xml")
        self.answers("2\n", "-ct", "/bib/book", "title", "--", "bib.xml")
        for query, count in (("for $b in /bib/book return $b", 2), ("<r>{/bib}</r>, <s/>", 2), ("for $b in /bib/book return (<x/>, $b/author)", 5)):
            self.answers(f"{count}\n", "-c", query, "bib.xml")
        for query, place in (("$x", 1), ("<r>{$x}</r>", 5), ("<r>{/a/b, //c/d}</r>", 11), ("/a, <r>{/a[}</r>", 11)):
            self.assertTrue(self.gq("-c", query, "bib.xml", code=3)[1].startswith(f"query:1:{place}: "))
        self.assertEqual(self.gq("-c", "/a/b", stdin=b"<a><b/><b/></x>", code=4)[0], b"2\n")

    def test_quiet(self) -> None:
        self.answers("", "-q", "//author", "bib.xml")
        self.assertEqual(self.gq("-q", "//none", "bib.xml", code=1), (b"", ""))
        self.assertEqual(self.gq("-q", "/a/b", stdin=b"<a><b/></x>"), (b"", ""))
        self.gq("-q", "/a/c", stdin=b"<a><b/></x>", code=4)
        self.gq("-q", "/a[", "bib.xml", code=3)
        self.assertEqual(self.gq("-q", "//note", "nothing.xml", "bib.xml")[0], b"")
        self.gq("-q", "//none", "nothing.xml", "bib.xml", code=5)
        self.answers("", "-q", "-t", "/bib/book", "-w", "price < 50", "title", "--", "bib.xml")
        self.gq("-q", "-t", "/bib/book", "-w", "price < 5", "title", "--", "bib.xml", code=1)

    def test_quiet_ends_at_the_first_byte(self) -> None:
        child = self.start("-q", "/a/b")
        child.stdin.write(b"<a><b/>" + b" " * 50_000)  # less than a pipe holds
        child.stdin.flush()
        self.assertEqual(child.wait(timeout=60), 0)
        child.communicate()

    def test_lines_come_while_the_document_is_read(self) -> None:
        for words, wanted in ((["-l", "/a/b"], b"<b>1</b>\n"), (["/a/b"], b"<b>1</b>"), (["-t", "/a/b", "."], b"1\n"), (["-jt", "/a/b", "."], b'{".":"1"}\n')):
            child = self.start(*words)
            child.stdin.write(b"<a><b>1</b>")
            child.stdin.flush()
            self.assertEqual(self.read_some(child, len(wanted)), wanted)
            child.communicate(b"</a>")
            self.assertEqual(child.returncode, 0)

    def test_a_mark_in_pieces(self) -> None:
        text, mark = b"<a>1</a><mm/><m></mm><m></m><a>\n2</a><m></m><", b"m"
        for size in range(1, 12):
            lines = answer.Lines(mark, False)
            out = b"".join(lines.feed(text[at:at + size]) for at in range(0, len(text), size)) + lines.end()
            self.assertEqual(out, b"<a>1</a><mm/><m></mm>\n<a>&#10;2</a>\n<")

    def test_a_match_in_pieces(self) -> None:
        text = b"<b>" + b"<c>\nx&amp;</c>" * 100_000 + b"</b>"
        out = self.gq("-l", "/a/b", stdin=b"<a>" + text * 3 + b"</a>")[0]
        self.assertEqual(out, (text.replace(b"\n", b"&#10;") + b"\n") * 3)

    def test_what_a_fault_cuts(self) -> None:
        self.assertEqual(self.gq("-l", "/a/b", stdin=b"<a><b>1</b><b>2</x>", code=4)[0], b"<b>1</b>\n<b>")

    def test_newline_on_a_terminal(self) -> None:
        self.assertEqual(self.on_terminal("/bib/note/text()", "bib.xml"), (0, "A &lt; B &amp; C\n"))
        self.assertEqual(self.on_terminal("-l", "/bib/note/text()", "bib.xml"), (0, "A &lt; B &amp; C\n"))
        code, shown = self.on_terminal("/a/b", stdin=b"<a><b>1</b></x>")
        self.assertEqual((code, shown.splitlines()[:2]), (4, ["<b>1</b>", "<stdin>:1:14: another end tag than that of the open element"]))


class Grammar(unittest.TestCase):
    """What the grammar takes and refuses, without a program."""

    def test_texts_that_are_no_query(self) -> None:
        for text in (b"/a[1]", b"/a,", b"for $x in /a", b"<a>{/b}</c>", b"/a//", b"$x/", b"/a b", b"if (/a) then /b else /c", b"/a (: (: :)",
                     b"/a/text(", b"(" * 3000 + b"/a" + b")" * 3000):
            with self.assertRaises(Slip, msg=text[:40]):
                marked.marked(text, b"m")

    def test_places_come_back(self) -> None:
        query = b"for $b in /a/b return ($b/c, <d/>, $e)"
        made = marked.marked(query, b"m")
        for word in (b"/a/b", b"$b/c", b"<d/>", b"return", b"$e"):
            self.assertEqual(made.origin(made.text.index(word)), ("query", query.index(word)))
        self.assertIsNone(made.origin(made.text.index(b"$gq")))
        self.assertEqual(as_it_is(b"/a").origin(2), ("query", 2))


if __name__ == "__main__":
    unittest.main()
