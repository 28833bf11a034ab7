"""The command line, exit codes, files and standard input."""
from __future__ import annotations

import os
import pty
import sys
import unittest

from gq.tests.common import BIB, GCX, LAUNCHER, TOP, Case

TITLES = "<title>TCP/IP</title><title>Data on the Web</title>"


class Words(Case):
    """What is ordered by which words."""

    def test_query_is_a_word(self) -> None:
        self.answers(TITLES, "/bib/book/title", "bib.xml")
        self.answers(TITLES, "/bib/book/title", stdin=BIB)
        self.answers(TITLES, "/bib/book/title", "-", stdin=BIB)
        self.answers(TITLES + TITLES, "/bib/book/title", "bib.xml", "./bib.xml")

    def test_query_in_a_file(self) -> None:
        self.write("q", "/bib/book/title\n")
        self.answers(TITLES, "-f", "q", "bib.xml")
        self.answers(TITLES, "-fq", "bib.xml")
        self.assertEqual(self.shell("$GQ -f <(echo /bib/book/title) bib.xml"), (0, TITLES.encode(), ""))
        out, err = self.gq("-f", "nothing", "bib.xml", code=5)
        self.assertEqual((out, err), (b"", "gq: nothing: No such file or directory\n"))

    def test_wrong_words(self) -> None:
        for words in ([], ["-x"], ["--none"], ["-f"], ["-t", "/a"], ["-l", "-p", "/a"], ["-j", "/a"], ["-w", "a", "/a"], ["-s", ";", "/a"],
                      ["-f", "q", "-t", "/a", "b"], ["-t", "/a", "-t", "/b", "c"], ["-q", "-l", "/a"], ["-tl"],
                      ["-j", "-t", "/a", "b", "b"]):
            out, err = self.gq(*words, code=2)
            self.assertEqual(out, b"", words)
            self.assertRegex(err, r"\Agq: .*\n\Z")

    def test_files_of_a_table_stand_after_two_dashes(self) -> None:
        os.mkdir(self.folder + "/title")
        self.write("author", BIB)
        for name in ("bib.xml", "nothing.xml", "none/all.xml.gz", "author"):
            _, err = self.gq("-t", "/bib/book", "title", name, code=2)
            self.assertTrue(err.startswith(f"gq: -- is missing between the columns and the files: write -- before {name}, or after it if"), err)
        self.assertIn("write -- before bib.xml, or", self.gq("-t", "/bib/book", "bib.xml", "title", code=2)[1])
        self.answers("TCP/IP\nData on the Web\n", "-t", "/bib/book", "title", stdin=BIB)
        self.answers("Stevens\nAbiteboul;Buneman\n", "-t", "/bib/book", "author", "--", stdin=BIB)
        self.answers("\n\n", "-t", "/bib/book", "all.xml", "--", stdin=BIB)
        self.assertIn("leave -l out", self.gq("-l", "-t", "/bib/book", "title", "--", "bib.xml", code=2)[1])

    def test_a_condition_stands_once(self) -> None:
        err = "gq: -w stands twice: join the conditions by and (gq --help)\n"
        self.assertEqual(self.gq("-t", "/a", "-w", "b = 1", "-w", "c = 2", "d", code=2), (b"", err))

    def test_file_before_the_query(self) -> None:
        self.assertEqual(self.gq("bib.xml", "//name", "none", code=5)[1].count("the query comes first"), 1)
        self.assertEqual(self.gq("//name", "none", code=5)[1], "gq: none: No such file or directory\n")
        for words in (["bib.xml", "//name"], ["-l", "bib.xml", "for $b in /bib/book return $b"]):
            no = f"gq: {words[-1]}: No such file or directory\n"
            self.assertEqual(self.gq(*words, code=5), (b"", no + "  bib.xml is a file: the query comes first, then the files\n"))

    def test_a_terminal_is_the_document(self) -> None:
        for words, said in ((["/bib"], "gq: no FILE: the document"), (["-t", "/bib/book", "title"], "gq: no -- with a FILE after it: the document"),
                            (["-t", "/bib/book", "title", "--"], "gq: no FILE: the document")):
            main, side = pty.openpty()
            child = self.start(*words, stdin=side, stdout=side, stderr=side)
            os.close(side)
            shown = b""
            while b"terminal" not in shown:
                shown += os.read(main, 1000)
            self.assertIn(said, shown.decode())
            child.terminate()
            child.wait(timeout=60)
            os.close(main)

    def test_names_after_two_dashes(self) -> None:
        os.rename(self.folder + "/bib.xml", self.folder + "/-l")
        self.answers(TITLES, "--", "/bib/book/title", "-l")

    def test_help_and_version(self) -> None:
        for word in ("--help", "-h", "help"):
            out, err = self.gq(word)
            self.assertIn(b"that part is proved, and gq\nisn't.", out)
            for part in (b"$b/year and not $b/@year", b"White space between two tags is dropped", b"total/text() > 900", b'number < "100"'):
                self.assertIn(part, out)
            self.assertLessEqual(max(map(len, out.splitlines())), 80)
            self.assertEqual(err, "")
        out, err = self.gq("--version")
        self.assertRegex(out, rb"\Agq ([0-9.]+)\ngcx \1\n\Z")
        self.assertEqual(err, "")
        page = (TOP / "docs" / "gq.1").read_bytes()
        self.assertIn(out.split()[1], page.split(b"\n")[0])

    def test_file_faults_name_the_file_and_the_reason(self) -> None:
        out, err = self.gq("/bib/note", "nothing.xml", code=5)
        self.assertEqual((out, err), (b"", "gq: nothing.xml: No such file or directory\n"))
        if os.getuid():
            os.chmod(self.folder + "/bib.xml", 0)
            self.assertEqual(self.gq("/bib/note", "bib.xml", code=5)[1], "gq: bib.xml: Permission denied\n")

    def test_folder_is_refused_before_anything_starts(self) -> None:
        self.fake("sys.exit(0)")
        os.mkdir(self.folder + "/sub")
        for words in (["/a", "sub"], ["-l", "/a", "sub"], ["/a", "bib.xml", "sub"], ["-t", "/a", "b", "--", "bib.xml", "sub", "none"]):
            self.assertEqual(self.gq(*words, code=5)[1], "gq: sub: Is a directory\n")
        self.assertEqual(self.shell(f"{TOP}/gq/launcher /a <sub")[2], "gq: <stdin>: Is a directory\n")
        self.assertFalse(os.path.exists(self.folder + "/started"))

    def test_codes_are_those_of_gcx(self) -> None:
        self.write("bad.xml", "<a><b></a>")
        self.gq("/a)", "bib.xml", code=3)
        self.assertEqual(self.gq("/a", "bad.xml", code=4)[0], b"<a><b>")
        self.fake("sys.stderr.write('gcx: out of memory\\n'); sys.exit(7)")
        self.assertEqual(self.gq("/a", "bib.xml", code=7)[1], "gq: bib.xml: out of memory\n")

    def test_several_files(self) -> None:
        self.write("bad.xml", "<bib><note>x</note>")
        note = b"<note>A &lt; B &amp; C</note>"
        out, err = self.gq("/bib/note", "bad.xml", "nothing.xml", "bib.xml", code=4)
        self.assertEqual(out, b"<note>x</note>" + note)
        self.assertIn("gq: nothing.xml: No such file", err)
        self.gq("/bib/note", "nothing.xml", "bad.xml", "bib.xml", code=5)
        out, err = self.gq("/bib/note)", "bad.xml", "bib.xml", code=3)
        self.assertEqual(err.count("query:1:10:"), 1)
        self.fake("sys.stderr.write('gcx: out of memory\\n'); sys.exit(7)")
        self.assertEqual(self.gq("/bib/note", "bib.xml", "bib.xml", code=7)[1].count("memory"), 1)

    def test_no_gcx(self) -> None:
        os.unlink(self.bin + "/gcx")
        self.assertEqual(self.shell("PATH=/nowhere " + " ".join(LAUNCHER) + " /a bib.xml")[2],
                         "gq: gcx is neither beside gq nor on PATH: ./install puts both into one folder, and PATH=FOLDER:$PATH adds the folder of gcx\n")

    def test_gcx_beside_the_launcher(self) -> None:
        place = self.folder + "/opt/bin"
        os.makedirs(place)
        os.makedirs(self.folder + "/opt/lib")
        os.symlink(TOP / "gq", self.folder + "/opt/lib/gq")
        self.write("opt/bin/gq", (TOP / "gq" / "launcher").read_bytes())
        os.symlink(os.path.abspath(GCX or ""), place + "/gcx")
        done = self.shell(f"ln -s {place}/gq other; PATH=/nowhere {sys.executable} -IS other /bib/note bib.xml")
        self.assertEqual(done, (0, b"<note>A &lt; B &amp; C</note>", ""))

    def test_names_and_queries_that_are_no_utf8(self) -> None:
        name = b"\xff\xfe.xml"
        self.write(name, "<a>1</a>")
        self.assertEqual(self.gq("/a", name)[0], b"<a>1</a>")
        self.write(name, "<a>1</b>")
        _, err = self.gq("/a", name, code=4)
        self.assertTrue(err.encode("utf-8", "surrogateescape").startswith(name + b":1:7: "), err)
        _, err = self.gq("/a/\xe9".encode("latin-1"), "bib.xml", code=3)
        self.assertIn("query:1:4: not UTF-8", err)
        self.assertIn("bib.xml", self.gq(b"-f", name + b"x", "bib.xml", code=5)[1] + "bib.xml")

    def test_names_of_other_letters(self) -> None:
        self.write("ü.xml", "<größe>1</größe>")
        self.answers("<größe>1</größe>\n", "-l", "/größe", "ü.xml")

    def test_many_files_in_one_process(self) -> None:
        names = [self.write(f"d{it}.xml", f"<a><b>{it}</b></a>") for it in range(60)]
        self.answers("".join(f"<b>{it}</b>\n" for it in range(60)), "-l", "/a/b", *names)
        self.write("bad.gz", b"\x1f\x8b")
        self.write("latin.xml", b"<?xml version='1.0' encoding='latin-1'?><!DOCTYPE a [ ]><a>\xe9</a>")
        done = self.shell("ulimit -n 24; $GQ --subset -c //b " + " d1.xml bad.gz nothing latin.xml .".strip(".") * 30)
        self.assertEqual((done[0], done[1].split()), (5, [b"1", b"0", b"0"] * 30))
        self.assertNotIn("broke down", done[2])

    def test_standard_input_is_left_to_others(self) -> None:
        self.assertEqual(self.shell("gzip -c bib.xml >bib.gz; printf 'bib.xml\nbib.gz\n' | while read -r it; do $GQ -c //author $it; done"), (0, b"3\n3\n", ""))

    def test_name_with_signs_that_a_terminal_obeys(self) -> None:
        self.assertEqual(self.gq("/a", "no\x1b[2Jsuch", code=5)[1], "gq: no?[2Jsuch: No such file or directory\n")

    def test_read_faults(self) -> None:
        self.assertEqual(self.gq("/a", "/proc/self/mem", code=5)[1], "gq: /proc/self/mem: Input/output error\n")
        self.fake("sys.stderr.write('gcx: read fault\\n'); sys.exit(5)")
        self.assertEqual(self.gq("/a", "bib.xml", code=5)[1], "gq: bib.xml: read fault\n")

    def test_start_loads_little(self) -> None:
        script = ("import sys; sys.path.append(sys.argv[1]); import gq.words as w\n"
                  "try: w.main(sys.argv[2:])\n"
                  "finally: print(*sorted(sys.modules), file=sys.stderr)")
        heavy = {"re", "enum", "subprocess", "argparse", "typing", "threading", "dataclasses", "tempfile", "inspect"}
        for words in ("/bib/note bib.xml", "-l /bib/note bib.xml", "-c /bib/note bib.xml", "-jt /bib/book title -- bib.xml"):
            done = self.shell(f"{sys.executable} -IS -c \"{script}\" {TOP} {words}")
            self.assertIn("gq.run", done[2])
            self.assertEqual(heavy & set(done[2].split()), set())


if __name__ == "__main__":
    unittest.main()
