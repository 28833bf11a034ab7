"""Tables as text and as JSON, and their conditions."""
from __future__ import annotations

import json
import shutil
import unittest

from gq.made import Made
from gq.marked import condition_edits
from gq.syntax import Slip
from gq.tests.common import BIB, Case
from gq.unmet import Unmet

CONDITIONS = [  # what is written, and what it is for the row
    ("price < 50", "$gq/price < 50"),
    ("price<50", "$gq/price<50"),
    ("@year = 1994", "$gq/year = 1994"),
    ("a/b = 'x'", "$gq/a/b = 'x'"),
    ("a/@b != c/d", "$gq/a/b != $gq/c/d"),
    (". = 'and'", "$gq = 'and'"),
    ("text() = \"or\"", "$gq/text() = \"or\""),
    ("exists(a) and not(exists(b/text()))", "exists($gq/a) and not(exists($gq/b/text()))"),
    ("not(a = 1 or b = 2)", "not($gq/a = 1 or $gq/b = 2)"),
    ("and = 1 and or = 2 or not = 3", "$gq/and = 1 and $gq/or = 2 or $gq/not = 3"),
    ("exists(exists) and true()", "exists($gq/exists) and true()"),
    ("'say \"\"and\"\" price' = note", "'say \"\"and\"\" price' = $gq/note"),
    ("a-b >= -5 and a.b <= 2.50", "$gq/a-b >= -5 and $gq/a.b <= 2.50"),
    ("dc:date = '1'", "$gq/dc:date = '1'"),
    (".//name = 'x'", "$gq//name = 'x'"),
    ("./a = * ", "$gq/a = $gq/* "),
    ("a//b = 1", "$gq/a//b = 1"),
    ("child::a = descendant::b", "$gq/child::a = $gq/descendant::b"),
    ("(a = 1 (: b = 2 :) and (text = 3))", "($gq/a = 1 (: b = 2 :) and ($gq/text = 3))"),
    ("größe > 3", "$gq/größe > 3"),
    ("a = 'it''s'", "$gq/a = 'it''s'"),
]
REFUSED = ["price", "a = 1 return <x/>", "a = 1) or (b = 2", "a[1] = 2", "a + 1 = 2", "../a = 1", "a lt 5", "contains(a, 'b')", "1 = 2", "",
           "a = 1, b = 2", "a = }", "a/. = 1", "exists()", "/bib/limit = price", "price < /bib/limit", "exists(//em)", "not(a = 1 or /b = 2)"]


class Conditions(unittest.TestCase):
    """Names of a condition become paths of the row."""

    def test_conditions(self) -> None:
        self.assertGreaterEqual(len(CONDITIONS), 20)
        for text, wanted in CONDITIONS:
            with self.subTest(text=text):
                words = text.encode()
                self.assertEqual(Made().add_edited("condition", words, condition_edits(words)).text.decode(), wanted)

    def test_refused(self) -> None:
        for text in REFUSED:
            with self.subTest(text=text), self.assertRaises(Slip):
                condition_edits(text.encode())


class Tables(Case):
    """Rows and cells."""

    def test_rows(self) -> None:
        self.answers("1994\tTCP/IP\tStevens\n2000\tData on the Web\tAbiteboul;Buneman\n",
                     "-t", "/bib/book", "@year", "title", "author", "--", "bib.xml")
        self.answers("2000\tData on the Web\n", "-t", "/bib/book", "-w", "price < 50", "@year", "title", "--", "bib.xml")
        self.answers("2000\tAbiteboul and Buneman\n", "-t", "/bib/book", "-w", "@year = 2000", "-s", " and ", "@year", "author", "--", "bib.xml")
        self.answers("2000\tAbiteboulBuneman\n", "-t", "/bib/book", "-w", "@year = 2000", "-s", "", "@year", "author", "--", "bib.xml")
        self.answers("A < B & C\n", "-t", "//note", ".", "--", "bib.xml")

    def test_cells_never_shift(self) -> None:
        self.write("d.xml", "<r><a><x>1</x></a><a><y>2</y></a><a/><a><y/><x/></a></r>")
        self.answers("1\t\n\t2\n\t\n\t\n", "-t", "/r/a", "x", "y", "--", "d.xml")
        self.answers("\t1\t\n\t\t2\n\t\t\n\t\t\n", "-t", "/r/a", "none", "x", "y", "--", "d.xml")

    def test_string_values(self) -> None:
        self.write("d.xml", "<r><a id='7'><t>On <i>XML</i>!</t><p c='E'>9<!-- x -->5</p><b/><t><![CDATA[<&>]]></t></a></r>")
        self.answers("7\tOn XML!;<&>\tE95\t95\tXML\t\n", "-t", "/r/a", "@id", "t", "p", "p/text()", "t/i", "b", "--", "d.xml")
        self.answers("On ;!;<&>\tXML\t7;On XML!;E95;;<&>\n", "-t", "/r/a", "t/text()", ".//i", "*", "--", "d.xml")
        self.answers("E\t95\n", "-t", "/r/a/p", "@c", "text()", "--", "d.xml")

    def test_white_space_between_two_tags(self) -> None:
        self.write("d.xml", "<r><p>Do <em>not</em> <b>run</b> it.</p></r>")
        self.answers("Do notrun it.\n", "-t", "//p", ".", "--", "d.xml")
        self.answers("<p>Do <em>not</em><b>run</b> it.</p>", "//p", "d.xml")

    def test_numbers_in_quotes_are_texts(self) -> None:
        self.write("d.xml", "<r><a><number>20</number></a><a><number>099</number></a></r>")
        self.answers("099\n", "-t", "/r/a", "-w", 'number < "100"', "number", "--", "d.xml")
        self.answers("20\n099\n", "-t", "/r/a", "-w", "number < 100", "number", "--", "d.xml")

    def test_signs(self) -> None:
        self.write("d.xml", "<r><a><t>a\tb\nc\\d;e&amp;amp;&lt;&quot;</t><t>f</t></a></r>")
        self.answers("a\\tb\\nc\\\\d;e&amp;<\";f\n", "-t", "/r/a", "t", "--", "d.xml")
        row = json.loads(self.gq("-j", "-t", "/r/a", "t", "--", "d.xml")[0])
        self.assertEqual(row, {"t": ["a\tb\nc\\d;e&amp;<\"", "f"]})

    def test_json(self) -> None:
        out = self.gq("-jt", "/bib/book", "@year", "title", "author", "none", ".", "--", "bib.xml")[0]
        rows = [json.loads(it) for it in out.splitlines()]
        self.assertEqual(rows[0], {"@year": "1994", "title": "TCP/IP", "author": "Stevens", "none": None, ".": "1994TCP/IPStevens65.95"})
        self.assertEqual(rows[1]["author"], ["Abiteboul", "Buneman"])
        self.write("d.xml", "<r><a><b/><b/></a><a/><a><b></b></a><a><b>\r\x7f\u2028%s é</b></a></r>")
        rows = [json.loads(it) for it in self.gq("-jt", "/r/a", "b", "--", "d.xml")[0].decode().rstrip("\n").split("\n")]
        self.assertEqual(rows, [{"b": ["", ""]}, {"b": None}, {"b": ""}, {"b": "\r\x7f\u2028%s é"}])
        out = self.gq("-jt", "/r/a", "b", "%b", "--", "d.xml", code=3)
        self.write("d.xml", "<r>" + "<a><b>%b 100%</b><c>1</c></a>" * 3 + "</r>")
        rows = [json.loads(it) for it in self.gq("-jt", "/r/a", "b", "c", "--", "d.xml")[0].splitlines()]
        self.assertEqual(rows, [{"b": "%b 100%", "c": "1"}] * 3)
        if shutil.which("jq"):
            done = self.shell("$GQ -jt /bib/book title author -- bib.xml | jq -r '.author | if type == \"array\" then length else 1 end'")
            self.assertEqual(done, (0, b"1\n2\n", ""))

    def test_parts_that_are_refused(self) -> None:
        for words, place, part in ((["/bib/book[1]", "title"], "row:1:10", "no predicates"), (["bib/book", "title"], "row:1:1", "begins with /"),
                                   (["/bib/book", "title[1]"], "column:1:6", "no predicates"), (["/bib/book", "/title"], "column:1:1", "without a slash"),
                                   (["/bib/book", "title}"], "column:1:6", "can't stand"), (["/bib/book", "a", "../x"], "column:1:2", ""),
                                   (["/bib/book", "node()"], "column:1:1", "node()"), (["/bib/book", "title", "-w", "price"], "condition:1:6", "exists(price)"),
                                   (["/bib/book", "title,author"], "column:1:6", "a word of its own"),
                                   (["/bib/book", "title", "-w", "$b/price < 5"], "condition:1:1", "without a variable"),
                                   (["//bib/book", "title"], "row:1:1", "let the rows be //bib, and begin each column there: book"),
                                   (["/bib/book", "a//b/c"], "column:1:2", "only the last step"), (["$b/book", "title"], "row:1:1", "from the document"),
                                   (["/bib/book where", "a"], "row:1:11", "-w 'price < 50'"), (["for $b in /bib", "a"], "row:1:1", "are a path"),
                                   (["", "a"], "row:1:1", "the row is empty"), (["/bib/book", ""], "column:1:1", "the column is empty"),
                                   (["/bib/book", "a b"], "column:1:3", "a word of its own"), (["/bib/book", "count(a)"], "column:1:6", "no function count"),
                                   (["/bib/book", "a", "-w", ""], "condition:1:1", "the condition is empty"),
                                   (["/bib/book", "a", "-w", "(price < 50"], "condition:1:12", ") is missing"),
                                   (["/bib/book", "a", "-w", "price == 50"], "condition:1:8", "written ="),
                                   (["/bib/book", "a", "-w", "price = 5 && year = 1"], "condition:1:11", "written and"),
                                   (["/bib/book", "a", "-w", "price = 5 OR year = 1"], "condition:1:11", "small letters: or"),
                                   (["/bib/book", "a", "-w", "price * 2 > 50"], "condition:1:7", "no arithmetic"),
                                   (["/bib/book", "a", "-w", "title = TCP IP"], "condition:1:13", 'in quotes: "TCP IP"'),
                                   (["/bib/book", "a", "-w", "contains(title, 'x')"], "condition:1:9", "grep"),
                                   (["/bib/book", "a", "-w", '//em = "not"'], "condition:1:1", "begins at the row, without a slash"),
                                   (["/bib/book", "a", "-w", '//em = "not"'], "condition:1:1", "  em for a child of the row, .//em for any in it\n"),
                                   (["/bib/book", "a", "-w", 'a = 1 and /page/p/@em = "not"'], "condition:1:11", "  @em for a child"),
                                   (["/bib/book", "a", "-w", "not(exists( //text()))"], "condition:1:13", ".//text() for any"),
                                   (["/bib/book", "a", "-w", "price < /bib/*"], "condition:1:9", "  * for a child"),
                                   (["/bib/book", "a", "-w", "at > 2026-03-01T08:00:01Z"], "condition:1:10", 'in quotes: "2026-03-01T08:00:01Z"\n'),
                                   (["/bib/book", "a", "-w", "(t = a  b c ) and d = 1"], "condition:1:9", 'in quotes: "a  b c"\n'),
                                   (["/bib/book", "a", "-w", "t = 08:00 or d = 1"], "condition:1:7", 'in quotes: "08:00"\n'),
                                   (["/bib/book", "a", "-w", "/"], "condition:1:2", "the row itself is ."),
                                   (["/bib/book", ".//figure/@file"], "column:1:2", "has //: .//@file, or each step by its name, a/figure/@file\n"),
                                   (["/bib/book", "../@id"], "column:1:2", "no way up: a loop has both, for $p in /a/b, $r in $p/c return"),
                                   (["/bib/book", "a/../@id"], "column:1:3", "no way up: a loop"),
                                   (["/bib/book", "a", "-w", "a = 1 and ../@id = 5"], "condition:1:12", "no way up: a loop"),
                                   (["/bib/book", "a", "-w", "tag[@k='amenity']/@v = \"cafe\""], "condition:1:4", "  a path has no predicates: gq -l '"
                                    "for $r in ROW, $c in $r/tag where $c/k = \"amenity\" and $c/v = \"cafe\" return $r/name'\n"),
                                   (["/bib/book", "a", "-w", 'exists(b/tag[k="x"])'], "condition:1:13", "no predicates: -w 'b/tag/k = \"x\"'\n"),
                                   (["/bib/book", "a", "-w", "a[contains(b, 'x')] = 1"], "condition:1:2", "where $c/a = 1 and $c/b = 2 return $r/name'\n"),
                                   (["/bib/book", 'tag[@k="x"]/@v'], "column:1:4", "gq -l 'for $r in ROW return <row>{$r/name, "
                                    "for $c in $r/tag where $c/k = \"x\" return $c/v}</row>'\n"),
                                   (["/bib/book", "title[1]"], "column:1:6", "a cell has all values"),
                                   (["/bib/book[a < 5]", "title"], "row:1:10", "no predicates: -w 'price < 50'\n")):
            with self.subTest(words=words):
                out, err = self.gq("-t", *words, "--", "bib.xml", code=3)
                self.assertEqual(out, b"")
                self.assertTrue(err.startswith(place + ": "), err)
                self.assertIn(part, err)

    def test_columns_that_no_row_has(self) -> None:
        no = "gq: no row has {0}\n  no element is /bib/book/{0}"
        rows = "TCP/IP\t{}\nData on the Web\t{}\n"
        for words, wanted in ((["title", "prise"], rows.format("", "") + no.format("prise") + ": did you mean <price>?\n"),
                              (["title", "price/text"], rows.format("", "") + no.format("price/text") + ": did you mean text()?\n"),
                              (["title", "author/text()"], rows.format("Stevens", "Abiteboul;Buneman"))):
            self.assertEqual(self.on_terminal("-t", "/bib/book", *words, "--", "bib.xml"), (0, wanted))
        self.assertIn(no.format("none") + ": there are", self.on_terminal("-jt", "/bib/book", "none", "title", "--", "bib.xml")[1])
        self.assertEqual(self.on_terminal("-ct", "/bib/book", "none", "--", "bib.xml"), (0, "2\n"))
        self.assertEqual(self.gq("-t", "/bib/book", "none", "--", "bib.xml"), (b"\n\n", ""))
        self.assertIn(no.format("prise"), self.gq("-v", "-t", "/bib/book", "prise", "--", "bib.xml")[1])
        self.assertEqual(self.gq("-vt", "/bib/book", "none", "--", stdin=BIB), (b"\n\n", "gq: no row has none\n"))
        self.write("other.xml", "<bib><book><none/></book></bib>")
        self.assertEqual(self.gq("-vt", "/bib/book", "none", "--", "bib.xml", "other.xml")[1], "")
        self.assertEqual(self.gq("-vt", "/bib/book", "-w", "price > 50", "editor", "author", "--", "bib.xml")[1].splitlines()[0], "gq: no row has editor")

    def test_columns_in_pieces(self) -> None:
        text = b"<v></v><v></v><c></c><c></c>x<v></v><n></n><c></c>" + b"y<v></v>" * 50 + b"<c></c><n></n>"
        for size in range(1, 20):
            unmet = Unmet(4)
            for at in range(0, len(text), size):
                unmet.feed(text[at:at + size])
                self.assertLess(len(unmet.held) + len(unmet.marks), 12)
            self.assertEqual((unmet.left, unmet.any_row), ({3}, True))

    def test_a_text_without_quotes(self) -> None:
        for condition, name in (("title = Web", "Web"), ("year = 1994 and (title != Web or price < 3)", "Web")):
            shown = self.on_terminal("-t", "/bib/book", "-w", condition, "title", "--", "bib.xml")
            self.assertEqual(shown, (0, f'gq: nothing matches\n  no element is /bib/book/{name}: a text stands in quotes, "{name}"\n'))

    def test_values_with_those_of_attributes(self) -> None:
        self.write("d.xml", "<o><x a='1'/><order id='1'><total currency='EUR'>950</total><x a='1'/><p>Do <em>not</em> <b>run</b> it.</p></order></o>")
        has = "  the value of <{}> has that of {} in it: {} is its own text\n"
        total = has.format("total", "currency", "total/text()")
        for row, condition, wanted in (("/o/order", "total > 900", total), ("/o", "900 < .//total and exists(*/p)", total), ("/o/order", "total/text() < 900", ""),
                                       ("/o/order/total", ". > 900", has.format("total", "currency", "text()")), ("/o/order", "x > 1", ""),
                                       ("/o/order", "p = 'x' or p = 'y'", has.format("p", "b, em", "p/text()")), ("/o/order", "exists(total/none)", None)):
            _, err = self.gq("-vt", row, "-w", condition, ".", "--", "d.xml")
            self.assertEqual(err, "gq: nothing matches\n" + wanted) if wanted is not None else self.assertNotIn("the value", err)
        self.assertIn(total, self.on_terminal("for $o in //order where $o/total > 900 return $o/p", "d.xml")[1])
        self.assertEqual(self.gq("-vt", "/o/order", "-w", "total > 900", ".", "--", stdin=b"<o><order><total c='1'>2</total></order></o>")[1], "gq: nothing matches\n")
        self.assertEqual(self.gq("-vt", "/o/order", "-w", "total/text() > 900", "@id", "--", "d.xml"), (b"1\n", ""))

    def test_rows_in_pieces(self) -> None:
        row = b"<a><b>x&amp;y\n</b><b/><c>1</c></a>"
        out = self.gq("-t", "/r/a", "b", "c", stdin=b"<r>" + row * 60_000 + b"</r>")[0]
        self.assertEqual(out, b"x&y\\n;\t1\n" * 60_000)

    def test_large_rows(self) -> None:
        large = b"<a>" + b"<b>x&amp;\"\n and more</b>" * 60_000 + b"<b/>" * 60_000 + b"<c>1</c></a>"
        document = b"<r><a><c>0</c></a>" + large + b"<a><b>2</b></a>" + large + b"</r>"
        wide = b";".join([b'x&"\\n and more'] * 60_000 + [b""] * 60_000) + b"\t1\n"
        self.assertEqual(self.gq("-t", "/r/a", "b", "c", stdin=document)[0], b"\t0\n" + wide + b"2\t\n" + wide)
        rows = [json.loads(it) for it in self.gq("-jt", "/r/a", "b", "c", stdin=document)[0].splitlines()]
        values = ['x&"\n and more'] * 60_000 + [""] * 60_000
        self.assertEqual(rows, [{"b": None, "c": "0"}, {"b": values, "c": "1"}, {"b": "2", "c": None}, {"b": values, "c": "1"}])

    def test_a_large_cell(self) -> None:
        document = b"<r><a><b>" + b"<c>0123456789\\</c>" * 120_000 + b"</b></a></r>"
        text = b"0123456789\\\\" * 120_000
        self.assertEqual(self.gq("-t", "/r/a", "b", stdin=document)[0], text + b"\n")
        self.assertEqual(self.gq("-jt", "/r/a", "b", stdin=document)[0], b'{"b":"' + text + b'"}\n')


if __name__ == "__main__":
    unittest.main()
