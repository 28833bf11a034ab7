"""Messages about queries and documents, and what is said of an empty answer."""
from __future__ import annotations

import unittest

from gq.tests.common import Case

QUERIES = [  # a query, its place, and a part of what is said
    ("/bib/book[price < 50]/title", "1:10", "no predicates: for $x"),
    ("/bib/book/@year", "1:11", "an attribute is a child here: /year for /@year"),
    ("/bib/book[2]", "1:10", "sed -n 2p"),
    ("let $b := /bib return $b", "1:1", "there is no let"),
    ("/bib/book | /bib/note", "1:11", "a comma joins"),
    ("//book/title", "1:1", "make it a loop: for $x in //book return $x/title"),
    ("for $t in /bib//book/title return $t", "1:15", "two clauses: for $y in /bib//book, $x in $y/title"),
    ("//title/..", "1:9", "no way up"),
    ("bib/note", "1:1", "a path begins with /"),
    ("bib.xml", "1:1", "the query comes first"),
    ("/", "1:2", "the whole document is /*"),
    ("", "1:1", "the query is empty"),
    ("count(/bib/book)", "1:1", "gq -c '/bib/book' FILE counts"),
    ("for $b in /bib/book return <n>{count($b/author)}</n>", "1:32", "the matches of a whole query"),
    ("distinct-values(/bib/book/author)", "1:1", "gq -l '/bib/book/author/text()' FILE | sort -u"),
    ("for $a in distinct-values(/bib/book/author) return $a", "1:11", "FILE | sort -u"),
    ("string(/bib/note)", "1:1", "no function string: /text()"),
    ("for $b in //* where local-name($b) = \"book\" return $b", "1:21", "with its prefix"),
    ("//*:book", "1:4", "a prefix is a part of the name"),
    ("/bib/parent::a", "1:12", "no way up"),
    ('doc("bib.xml")/bib', "1:1", "gq /a/b FILE"),
    ("exists(//editor)", "1:1", "if (exists(//editor)) then <yes/> else <no/>"),
    ("for $b in /bib/book where $b/editor return $b", "1:37", "exists($b/editor)"),
    ("for $b in /bib/book where true return $b", "1:32", "written true()"),
    ("for $b in /bib/book where not $b/editor return $b", "1:31", "parentheses"),
    ("for $b in /bib/book return $b/title, $b/year", "1:38", "a list needs parentheses"),
    ("for $book in /bib/book return $bok/title", "1:31", "did you mean $book?"),
    ("for $b in /bib/book return $other/title", "1:28", "bound here: $b"),
    ("for $a in $b/author, $b in /bib/book return $a", "1:11", "bound only later"),
    ("$b/title", "1:1", "for $b in /a/b return $b"),
    ("FOR $b IN /bib/book RETURN $b", "1:1", "in small letters: for"),
    ("for $b in /bib/book WHERE $b/price = 1 return $b", "1:21", "in small letters: where"),
    ("for $b in /bib/book where $b/price = 1 AND $b/year = 2 return $b", "1:40", "in small letters: and"),
    ("for $b in /bib/book where $b/price == 1 return $b", "1:37", "written ="),
    ("for $b in /bib/book where $b/price <> 1 return $b", "1:37", "written !="),
    ("for $b in /bib/book where $b/price = 1 && $b/year = 2 return $b", "1:40", "written and"),
    ("for $b in /bib/book where $b/price = 1 || $b/year = 2 return $b", "1:40", "written or"),
    ("for $b in /bib/book where !exists($b/editor) return $b", "1:27", "not(..)"),
    ("for $b in /bib/book where $b/price + 1 = 2 return $b", "1:36", "no arithmetic"),
    ("for $b in /bib/book where $b/price * 2 = 2 return $b", "1:36", "no arithmetic"),
    ("for $b in /bib/book return $b/price div 2", "1:37", "no arithmetic"),
    ("for $b in book return $b", "1:11", "/book, or //book"),
    ("for $b in /bib/book return title", "1:28", "$b/title"),
    ("for $b in /bib/book where price < 5 return $b", "1:27", "$b/price"),
    ("for $b in /bib/book where $b/title = Foo return $b", "1:38", 'in quotes: "Foo"'),
    ("for $b in /bib/book where $b/title = “Foo” return $b", "1:38", "quotes are straight"),
    ('for $b in /bib/book return "x"', "1:28", "no text of its own"),
    ("if exists(/bib) then /bib else ()", "1:4", "in parentheses"),
    ("for $b in /bib/book", "1:20", "return is missing"),
    ("(/bib/book", "1:11", ") is missing"),
    ("<r>{/bib/book}", "1:15", "</r> is missing"),
    ("/bib/book)", "1:10", "no ( is open"),
    ("for $b in /bib/book return if ($b/price < 50) then $b/title", "1:60", "else ()"),
    ("for $b in /bib/book where $b/price lt 50 return $b", "1:36", "written <"),
    ("for $b in /bib/book where $b/price < .5 return $b", "1:38", "0.5"),
    ('for $b in /bib/book where $b/author = ("a", "b") return $b', "1:39", "one value"),
    ('for $b in /bib/book where starts-with($b/title, "D") return $b', "1:27", "no function starts-with"),
    ("for $b in /bib/book for $a in $b/author return $a", "1:21", "one for has all clauses"),
    ("for in /bib/book return /title", "1:5", "single quotes"),
    ('<r id="1">{/bib/note}</r>', "1:4", "no attributes"),
    ("<r>found: {/bib/note}</r>", "1:4", "no text"),
    ("for $x in /a where $x/b = \"A&B\" return $x", "1:27", "&amp;"),
    ("<a>{/b}</c>", "1:10", "another name than the start tag"),
    ("/a,\n /b,\n  /c[1]", "3:5", "no predicates"),
    ("/größe/ü[1]", "1:9", "no predicates"),
    ("/a (: never", "1:4", "comment isn't closed"),
    ("declare namespace b = 'u'; /b:bib", "1:26", "a part of the name"),
    ("for $b in /a order by $b return $b", "1:14", "no order by"),
]
DOCUMENTS = [  # a document, its place, and a part of what is said
    ("<a>\n <b>\n</a>\n", "3:3", "another end tag"),
    ("<a>x&nbsp;y</a>", "1:6", "&nbsp; isn't one of XML's five (it is &#160;)"),
    ("<a>x &copy; y</a>", "1:7", "&copy; isn't one"),
    ("<a>x & y</a>", "1:7", "a bare &"),
    ("<a b='1' c='2' b='3'/>", "1:17", "stands twice"),
    ("<a b=1/>", "1:6", "without quotes"),
    ("<a><b </a>", "1:7", "isn't closed"),
    ("<a>1 < 2</a>", "1:7", "a bare <"),
    ("<a b='<'/>", "1:7", "a < within"),
    ("<a><!-- x -- y --></a>", "1:13", "-- within a comment"),
    ("<a/>\n<b/>", "2:2", "no element is open there"),
    ("<a>\x01</a>", "1:4", "XML hasn't"),
    ("<a>&#0;</a>", "1:7", "reference"),
    ("hello", "1:1", "no XML"),
    ("", "1:1", "the document is empty"),
    ("<a><b>", "1:7", "ends too soon"),
    ("<!DOCTYPE a [<!ENTITY b 'c'>]><a/>", "1:13", "  its entities are put in by xmllint --nonet --noent --dropdtd FILE | gq ..; gq --subset"),
    ("<!DOCTYPE a [\n<!ELEMENT a ANY>\n" + "<!ATTLIST a b CDATA ''>\n" * 99 + "<!ENTITY b 'c'>]><a/>", "1:13", "  its entities"),
    ("<!DOCTYPE a [<!ELEMENT a ANY>]><a><!ENTITY></a>", "1:13", "  gq --subset leaves them out"),
    (b"<a>\n caf\xe9</a>", "2:5", "iconv"),
    ("<ä>é &x;</ä>", "1:7", "isn't one"),
    ("\ufeff<a>\n", "2:1", "ends too soon"),
    ("\ufeff<a><b></a>", "1:9", "another end tag"),
]


class Faults(Case):
    """Each message has line, column, the line with a caret, and a hint."""

    def test_queries(self) -> None:
        for query, place, words in QUERIES:
            with self.subTest(query=query):
                out, err = self.gq(query, "bib.xml", code=3)
                self.assertEqual(out, b"")
                self.assertTrue(err.startswith(f"query:{place}: "), err)
                self.assertIn(words, err)

    def test_documents(self) -> None:
        for number, (document, place, words) in enumerate(DOCUMENTS):
            self.write("doc.xml", document)
            content = document if isinstance(document, bytes) else document.encode()
            ways = [(["doc.xml"], b"", "doc.xml"), ([], content, "<stdin>")]
            for name, stdin, given in ways if number % 4 == 0 else ways[:1]:
                with self.subTest(document=document, name=given):
                    _, err = self.gq("/a/c", *name, stdin=stdin, code=4)
                    self.assertTrue(err.startswith(f"{given}:{place}: "), err)
                    self.assertTrue(words in err or given == "<stdin>", err)

    def test_the_whole_message(self) -> None:
        _, err = self.gq("/bib/book[price < 50]/title", "bib.xml", code=3)
        self.assertEqual(err, "query:1:10: no word of a query begins here\n  /bib/book[price < 50]/title\n           ^\n"
                              "  a path has no predicates: for $x in /a/b where $x/price < 50 return $x/title\n")
        self.write("q", "\n/bib/book/@x")
        self.assertTrue(self.gq("-f", "q", "bib.xml", code=3)[1].startswith("q:2:11: "))

    def test_too_large(self) -> None:
        _, err = self.gq("(" * 300 + "/a" + ")" * 300, "bib.xml", code=3)
        self.assertIn("query: too large: more than 200 constructs in one another", err)
        self.write("q", "/a" + " " * (1 << 20))
        self.assertIn("more than 1,048,576 bytes", self.gq("-f", "q", "bib.xml", code=3)[1])

    def test_caret_stands_by_display_width(self) -> None:
        self.write("doc.xml", "<a>\t漢字e\u0301 &x;</a>")
        lines = self.gq("/a", "doc.xml", code=4)[1].splitlines()
        self.assertTrue(lines[0].startswith("doc.xml:1:11: "))
        self.assertEqual(lines[1], "  <a> 漢字e\u0301 &x;</a>")
        self.assertEqual(lines[2], "  " + " " * 11 + "^")

    def test_no_control_reaches_the_terminal(self) -> None:
        self.write("doc.xml", "<a>\x1b[31m</a>")
        self.assertNotIn("\x1b", self.gq("/a", "doc.xml", code=4)[1])

    def test_long_line_is_cut(self) -> None:
        self.write("doc.xml", "<a>" + "é" * 2000 + "&x;" + "ü" * 2000 + "</a>")
        lines = self.gq("/a", "doc.xml", code=4)[1].splitlines()
        self.assertTrue(lines[0].startswith("doc.xml:1:2005: "))
        self.assertEqual(len(lines[1]), 2 + 110)
        self.assertEqual(lines[1][len(lines[2]) - 1], "x")

    def test_one_long_line(self) -> None:
        document = b"<r>" + b"<a>\xc3\xa9</a>" * 300_000 + b"&x;</r>"
        self.write("doc.xml", document)
        for name, stdin in ((["doc.xml"], b""), ([], document)):
            err = self.gq("/r/none", *name, stdin=stdin, code=4)[1]
            self.assertIn(":1:2400005: the entity &x;", err)

    def test_a_pipe_of_many_lines(self) -> None:
        lines = b"<r>\n" + b" <a>\xc3\xa9</a>\n" * 300_000
        err = self.gq("/r/none", stdin=lines + b"\t</x>\n" + b"<b/>" * 200_000, code=4)[1]
        self.assertTrue(err.startswith("<stdin>:300002:4: another end tag"), err)
        self.assertIn("\n   </x>\n     ^\n", err)

    def test_a_pipe_that_comes_in_small_pieces(self) -> None:
        done = self.shell("(printf '<r>\\n'; for i in 1 2 3; do printf '<a>'; sleep 0.1; printf '</a>\\n'; done; printf '</x>') | $GQ /r/a")
        self.assertEqual(done[0:2], (4, b"<a></a>" * 3))
        self.assertIn("<stdin>:5:3: another end tag", done[2])

    def test_open_elements(self) -> None:
        self.write("doc.xml", '<a x1="1">\n <b2>\n<c/>t<d>\n <x/><x>y</x></q>')
        self.assertIn("  open there: /a/b2/d\n", self.gq("/a/none", "doc.xml", code=4)[1])
        self.write("doc.xml", "<a>" + "<b><c>t</c><c/></b>" * 20_000 + "<b><c><d>t<e/></c>")
        self.assertIn("  open there: /a/b/c/d\n", self.gq("/a/none", "doc.xml", code=4)[1])
        with open(self.folder + "/doc.xml", "rb") as file:
            self.assertNotIn("open there", self.gq("/a/none", stdin=file.read(), code=4)[1])

    def test_place_in_the_words_of_the_user(self) -> None:
        for words, wanted in ((["-l", "//book/title"], "query:1:1: a step follows // here\n  //book/title\n  ^\n  make it a loop:"),
                              (["-t", "//book/title", "."], "row:1:1: a step follows // here\n  //book/title\n  ^\n  let the rows be //book,"),
                              (["-t", "/bib/book", "a", "x//b/c"], "column:1:2: a step follows // here\n  x//b/c\n   ^\n  only the last"),
                              (["-t", "/bib/book", "-w", ".//a = 1 and IntegerWide = 99999999999999999999", "title"],
                               "condition:1:28: the number is beyond 64 bits, or has more than 18 decimals\n  .//a = 1 and I")):
            with self.subTest(words=words):
                _, err = self.gq(*words, "--", "bib.xml", code=3)
                self.assertTrue(err.startswith(wanted), err)
                self.assertNotIn("made by gq", err)
                self.assertNotIn("$gq", err)

    def test_query_that_gq_made_is_shown(self) -> None:
        nested = "<a>{" * 199 + "/a" + "}</a>" * 199
        self.assertEqual(self.gq("-l", nested, "bib.xml", code=0)[0], (b"<a>" * 199 + b"</a>" * 199 + b"\n"))
        self.assertIn("made by gq", self.gq("-l", "(" * 199 + "/a" + ")" * 199, "bib.xml", code=3)[1])
        self.fake("sys.stderr.write('gcx: query Syntax 3\\n'); sys.exit(3)")
        _, err = self.gq("-l", "/bib", "bib.xml", code=3)
        self.assertRegex(err, r"\Aquery \(made by gq\):1:4: this can't stand here\n   for \$gq in /bib return \(\$gq, <_[A-Za-z]{8}/>\)\n     \^\n\Z")

    def test_a_message_that_is_not_known(self) -> None:
        self.fake("sys.stderr.write('gcx: something else\\n'); sys.exit(9)")
        self.assertEqual(self.gq("/a", "bib.xml", code=9)[1], "gq: bib.xml: something else\n")


class Silence(Case):
    """On a terminal an empty answer is told."""

    def told(self, wanted: list[str], *words, first: str = "gq: nothing matches") -> None:
        code, shown = self.on_terminal(*words)
        self.assertEqual((code, shown.splitlines()), (0, [first, *wanted]))

    def test_slips(self) -> None:
        no = "  no element is "
        self.told([no + "/bib/boook: did you mean <book>?"], "/bib/boook/title", "bib.xml")
        self.told([no + "//titel: did you mean <title>?"], "//titel", "bib.xml")
        self.told([no + "/bib/book/pirce: did you mean <price>?"], "for $b in /bib/book where $b/pirce < 5 return $b", "bib.xml")
        self.told([no + "/bib/book/titel: did you mean <title>?", no + "/bib/book/yaer: did you mean <year>?"],
                  "-t", "/bib/book", "-w", "price < 5", "titel", "yaer", "--", "bib.xml")
        self.told([no + "/zzz: there are <bib>"], "/zzz", "bib.xml")
        self.told([], "for $b in /bib/book where $b/price < 5 return $b", "bib.xml")
        self.told([], "()", "bib.xml")
        self.told([no + "/bib/bok: did you mean <book>?"], "-l", "/bib/bok", "bib.xml")
        self.write("names.xml", "<r xmlns:dc='u'><dc:creator>A</dc:creator><Title/></r>")
        self.told([no + "//creator: did you mean <dc:creator>?"], "//creator", "names.xml")
        self.told([no + "/r/title: did you mean <Title>?"], "/r/title", "names.xml")

    def test_several_files_and_pipes(self) -> None:
        self.write("other.xml", "<a/>")
        self.told(["  no element is /x: there are <bib>"], "/x", "bib.xml", "other.xml")
        code, shown = self.on_terminal("/a", "bib.xml", "other.xml")
        self.assertEqual((code, shown), (0, "<a></a>\n"))
        code, shown = self.on_terminal("/x", stdin=b"<a/>")
        self.assertEqual((code, shown), (0, "gq: nothing matches\n"))
        self.assertEqual(self.gq("/x", "bib.xml"), (b"", ""))

    def test_what_comes_late(self) -> None:
        self.write("late.xml", "<r>" + ("<a>" + "0123456789" * 20 + "</a>") * 20_000 + "<b/></r>")
        self.told(["  no element is /r/b/c"], "/r/b/c", "late.xml")
        self.told(["  no element is /r/bb: there are <a>"], "/r/bb", "late.xml")

    def test_quiet_says_nothing(self) -> None:
        self.assertEqual(self.on_terminal("-q", "/x", "bib.xml"), (1, ""))


if __name__ == "__main__":
    unittest.main()
