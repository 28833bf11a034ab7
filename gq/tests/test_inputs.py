"""Compressed documents, other encodings, declarations of a DOCTYPE."""
from __future__ import annotations

import os
import shutil
import subprocess
import unittest

from gq.doctype import Subset
from gq.tests.common import BIB, Case

PACKERS = [it for it in ("gzip", "bzip2", "xz", "zstd") if shutil.which(it)]
NOTE = "<note>A &lt; B &amp; C</note>"
SUBSETS = [  # prologs with declarations, and the same without
    "<!DOCTYPE a [<!ENTITY b 'c'>]>", "<!DOCTYPE a [<!-- ]> ' -->\n<!ENTITY b \"]>\">]  >", "<!DOCTYPE a SYSTEM 'x[y' [\n<?pi ]> \"?>\n]>",
    "<?xml version='1.0'?><!-- <!DOCTYPE z [ --><!DOCTYPE a PUBLIC \"p\" 's' [ <!ELEMENT a (#PCDATA|é)*> %pe; ]>", "<!DOCTYPE a []>",
]


def packed(name: str, content: bytes) -> bytes:
    """The content by a program that packs."""
    return subprocess.run([name, "-c"], input=content, capture_output=True, check=True).stdout


class Compressed(Case):
    """By their first bytes, whatever they are called."""

    def test_files_and_pipes(self) -> None:
        self.assertIn("gzip", PACKERS)
        for name in PACKERS:
            with self.subTest(name=name):
                content = packed(name, BIB)
                self.write("doc", content)
                self.answers(NOTE, "/bib/note", "doc")
                self.answers(NOTE, "/bib/note", stdin=content)
                self.assertEqual(self.shell("$GQ -l //note <(cat doc) <(cat doc)"), (0, (NOTE + "\n").encode() * 2, ""))
                self.assertEqual(self.shell("$GQ -c //author <doc"), (0, b"3\n", ""))

    def test_faults_have_their_place(self) -> None:
        content = packed("gzip", b"<a>\n<b><c>1</c>\n</a>")
        self.write("doc.gz", content)
        _, err = self.gq("/a/c", "doc.gz", code=4)
        self.assertTrue(err.startswith("doc.gz:3:3: another end tag"), err)
        self.assertIn("open there: /a/b", err)
        self.assertTrue(self.gq("/a/c", stdin=content, code=4)[1].startswith("<stdin>:3:3: another end tag"))

    def test_cut_archives(self) -> None:
        document = b"<a>" + b"".join(b"<b>%x</b>" % (it * 7919 % 65521) for it in range(60_000)) + b"</a>"
        for name in PACKERS:
            with self.subTest(name=name):
                content = packed(name, document)[:-1000]
                self.write("cut", content)
                for words, stdin, given in ((["cut"], b"", "cut"), ([], content, "<stdin>")):
                    _, err = self.gq("/a/b", *words, stdin=stdin, code=5)
                    self.assertTrue(err.startswith(f"gq: {given}: {name}"), err)
                    self.assertNotIn("ends too soon", err)
                    self.assertEqual(err.count("\n"), 1, err)

    def test_unpacker_that_fails_after_the_last_byte(self) -> None:
        content = bytearray(packed("gzip", BIB))
        content[-5] ^= 1
        content[-6] ^= 1
        self.write("doc.gz", bytes(content))
        out, err = self.gq("/bib/note", "doc.gz", code=5)
        self.assertEqual(out.decode(), NOTE)
        self.assertTrue(err.startswith("gq: doc.gz: gzip: stdin: invalid compressed data"), err)

    def test_warning_of_gzip_is_no_failure(self) -> None:
        out, err = self.gq("/bib/note", stdin=packed("gzip", BIB) + b"more than that")
        self.assertEqual(out.decode(), NOTE)
        self.assertIn("trailing garbage", err)

    def test_fault_before_the_end_of_an_archive(self) -> None:
        self.write("doc.gz", packed("gzip", b"<a></b>" + b"<!-- comment -->" * 500_000))
        self.assertTrue(self.gq("/a", "doc.gz", code=4)[1].startswith("doc.gz:1:6: "))
        self.assertTrue(self.gq("/a[", "doc.gz", code=3)[1].startswith("query:1:3: "))

    def test_unpacker_that_is_not_there(self) -> None:
        self.write("doc.gz", packed("gzip", BIB))
        done = self.shell("PATH=$PWD/bin $GQ /a doc.gz")
        self.assertEqual(done, (5, b"", "gq: doc.gz: needs gzip, which isn't installed\n"))

    def test_nothing_of_a_pipe_is_eaten(self) -> None:
        self.assertEqual(self.shell("$GQ //author <(cat bib.xml) | head -c 14; $GQ -c //author <(cat bib.xml) <(tail -c +1 bib.xml)"),
                         (0, b"<author>Steven3\n3\n", ""))
        self.assertEqual(self.shell("(read -r line; $GQ -c //author) <bib.xml"), (0, b"3\n", ""))
        self.assertEqual(self.shell("(printf '\\x1f'; sleep 0.3; printf '\\x8b') | $GQ /a")[0], 5)


class Encodings(Case):
    """By byte order mark or declaration."""

    def test_encodings(self) -> None:
        body = "<a>\n<b>žluť ü</b></a>"
        for name, codec, mark in (("UTF-16", "utf-16-le", b"\xff\xfe"), ("UTF-16", "utf-16-be", b"\xfe\xff"), ("", "utf-16-le", b""),
                                  ("iso-8859-2", "iso-8859-2", b""), ("Windows-1250", "cp1250", b""), ("UTF-32", "utf-32-le", b"\xff\xfe\0\0")):
            with self.subTest(name=name, codec=codec):
                declared = f"<?xml version='1.0' encoding='{name}'?>" if name else "<?xml version='1.0'?>"
                content = mark + (declared + body).encode(codec)
                self.write("doc.xml", content)
                for words, stdin, given in ((["doc.xml"], b"", "doc.xml"), ([], content, "<stdin>")):
                    out, err = self.gq("-l", "/a/b", *words, stdin=stdin)
                    self.assertEqual(out.decode(), "<b>žluť ü</b>\n")
                    self.assertRegex(err, rf"\Agq: {given}: read as [-A-Z0-9]+\n\Z")

    def test_utf8_is_left_alone(self) -> None:
        for declared in ("<?xml version='1.0' encoding='UTF-8'?>", "<?xml version='1.0' encoding=\"us-ascii\"?>", "\ufeff", "",
                         "<?xml version='1.0' encoding='hex'?>", "<?xml version='1.0' encoding='UTF-16'?>"):
            self.write("doc.xml", declared + "<a>ü</a>")
            self.answers("<a>ü</a>", "/a", "doc.xml")

    def test_an_encoding_that_is_not_known(self) -> None:
        document = "<?xml version='1.0' encoding='x-klingon'?><a>ü</a>".encode()
        self.write("doc.xml", document)
        said = "gq: {}: the encoding x-klingon, which it declares, isn't known here: read as UTF-8\n"
        self.assertEqual(self.gq("/a", "doc.xml", "doc.xml"), ("<a>ü</a><a>ü</a>".encode(), said.format("doc.xml")))
        self.assertEqual(self.gq("/a", stdin=document), ("<a>ü</a>".encode(), said.format("<stdin>")))
        self.write("doc.xml", document.replace("ü".encode(), b"\xfc"))
        err = self.gq("/b", "doc.xml", code=4)[1]
        self.assertTrue(err.startswith(said.format("doc.xml") + "doc.xml:1:46: not UTF-8 from here on\n"), err)

    def test_said_once(self) -> None:
        for name in "abc":
            self.write(name, "<?xml version='1.0' encoding='iso-8859-1'?><a>ü</a>".encode("latin-1"))
        self.assertEqual(self.gq("/a", "a", "b", "c"), ("<a>ü</a><a>ü</a><a>ü</a>".encode(), "gq: a: read as ISO8859-1\n"))

    def test_faults_have_their_place(self) -> None:
        self.write("doc.xml", "<?xml version='1.0' encoding='iso-8859-1'?>\n<a>üüü</b>".encode("latin-1"))
        self.assertIn("\ndoc.xml:2:9: another end tag", self.gq("/a", "doc.xml", code=4)[1])

    def test_bytes_that_are_not_of_the_encoding(self) -> None:
        content = b"\xff\xfe" + "<a>\nü".encode("utf-16-le") + b"\x00\xd8\x00\x00" + "</a>".encode("utf-16-le")
        self.write("doc.xml", content)
        _, err = self.gq("/a/b", "doc.xml", code=4)
        self.assertIn("\ndoc.xml:2:2: not UTF-16-LE from here on\n", err)
        self.assertIn("<stdin>:2:2: not UTF-16-LE", self.gq("/a/b", stdin=content, code=4)[1])

    def test_packed_and_encoded(self) -> None:
        content = packed("gzip", "<?xml version='1.0' encoding='iso-8859-1'?><!DOCTYPE a [ <!ENTITY ü 'x'> ]><a>ü</a>".encode("latin-1"))
        self.write("doc", content)
        self.assertEqual(self.gq("--subset", "/a", "doc"), ("<a>ü</a>".encode(), "gq: doc: read as ISO8859-1\n"))


class Doctype(Case):
    """`--subset`."""

    def test_subsets(self) -> None:
        for prolog in SUBSETS:
            with self.subTest(prolog=prolog):
                document = (prolog + "<a>\n<b>1</b></a>").encode()
                self.write("doc.xml", document)
                self.gq("/a/b", "doc.xml", code=4)
                self.answers("<b>1</b>", "--subset", "/a/b", "doc.xml")
                self.answers("<b>1</b>", "--subset", "/a/b", stdin=document)
                for at in range(1, len(document), 7):
                    self.assertIn(Subset(document[:at], False).end, (0, Subset(document, True).end))

    def test_places_stay_true(self) -> None:
        document = "<!DOCTYPE a [\n<!ENTITY é 'ü'>\n é]>\t<a>&é;</a>".encode()
        self.write("doc.xml", document)
        for words, stdin in ((["doc.xml"], b""), ([], document)):
            self.assertIn(":3:10: the entity &é; isn't one", self.gq("--subset", "/a", *words, stdin=stdin, code=4)[1])

    def test_documents_without(self) -> None:
        for document in ("<a>1</a>", "<!DOCTYPE a><a>1</a>", "\ufeff<!-- --><a>1</a>", "<!DOCTYPE a SYSTEM \"[]\">\n<a>1</a>"):
            self.write("doc.xml", document)
            self.answers("<a>1</a>", "--subset", "/a", "doc.xml")
            self.answers("<a>1</a>", "--subset", "/a", stdin=document.encode())
        self.assertIn("ends too soon", self.gq("--subset", "/a", stdin=b"<!DOCTYPE a ", code=4)[1])

    def test_defaults_are_warned_of(self) -> None:
        self.write("doc.xml", "<!DOCTYPE a [<!ATTLIST b\n w CDATA '50' v (x|y) #FIXED \"x\" u ID #IMPLIED>\n<!-- <!ATTLIST c d CDATA 'e'> -->]><a><b/></a>")
        out, err = self.gq("--subset", "/a/b", "doc.xml")
        self.assertEqual((out, err), (b"<b></b>", "gq: doc.xml: the DOCTYPE gives attributes default values, which aren't added: b w, b v\n"))

    def test_a_prolog_of_more_than_a_mib(self) -> None:
        document = b"<!DOCTYPE a [<!ENTITY b '" + b"x" * 1_200_000 + b"'>]><a/>"
        _, err = self.gq("--subset", "/a", stdin=document, code=4)
        self.assertIn("isn't over within 1 MiB", err)

    def test_elements_that_look_like_one(self) -> None:
        document = "<a><![CDATA[<!DOCTYPE b [x]>]]></a>"
        self.assertEqual(self.gq("--subset", "/a", stdin=document.encode())[0], b"<a>&lt;!DOCTYPE b [x]&gt;</a>")


if __name__ == "__main__":
    unittest.main()
