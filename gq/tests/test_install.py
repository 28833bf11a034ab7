"""`./install` into a folder, into an archive and into a Debian package, of a copy of the repository whose program is the one that is tested."""
from __future__ import annotations

import hashlib
import os
import re
import shutil
import subprocess
import sys
import unittest

from gq.tests.common import GCX, TOP, Case

PARTS = ("install", "gq", "packaging", "completion", "docs", "crates.txt", "crates/gcx/src", "crates/gcx_words/src", "LICENSE-MIT", "LICENSE-APACHE")
WANTED = ("bin/gcx", "bin/gq", "lib/gq/words.py", "share/man/man1/gcx.1", "share/man/man1/gq.1", "share/bash-completion/completions/gq",
          "share/zsh/site-functions/_gq")


class Installs(Case):
    """What is put in place runs from there."""

    def setUp(self) -> None:
        super().setUp()
        self.copy = os.path.join(self.folder, "copy")
        for part in PARTS:
            target = os.path.join(self.copy, part)
            os.makedirs(os.path.dirname(target), exist_ok=True)
            if os.path.isdir(TOP / part):
                shutil.copytree(TOP / part, target, ignore=shutil.ignore_patterns("__pycache__"))
            else:
                shutil.copy(TOP / part, target)
        os.makedirs(self.copy + "/crates/gcx/out")
        shutil.copy(GCX or "", self.copy + "/crates/gcx/out/gcx")
        self.write("copy/.gitignore", "out/\n__pycache__/\n")
        self.git("init", "-q")
        self.git("add", "-A")
        self.git("-c", "user.name=A", "-c", "user.email=a@example.org", "commit", "-q", "-m", "A copy")

    def git(self, *words: str) -> str:
        """git in the copy."""
        return subprocess.run(["git", *words], cwd=self.copy, capture_output=True, text=True, check=True).stdout.strip()

    def install(self, *words: str, code: int = 0) -> str:
        """./install of the copy, called from another folder; what it says."""
        done = subprocess.run([self.copy + "/install", *words], cwd=self.folder, capture_output=True, text=True, check=False)
        self.assertEqual(done.returncode, code, done.stdout + done.stderr)
        return done.stdout + done.stderr

    def runs(self, prefix: str) -> None:
        """Both programs run from there, whatever PATH has."""
        empty = {"PATH": os.path.dirname(sys.executable) + ":/usr/bin:/bin"}
        for words, wanted in ((["gcx", "run", "-", "bib.xml"], b"<note>A &lt; B &amp; C</note>"), (["gq", "-l", "//note", "bib.xml"], b"<note>A &lt; B &amp; C</note>\n"),
                              (["gq", "-c", "//book", "bib.xml"], b"2\n")):
            done = subprocess.run([f"{prefix}/bin/{words[0]}", *words[1:]], cwd=self.folder, input=b"/bib/note", env=empty,
                                  capture_output=True, check=False)
            self.assertEqual((done.stdout, done.stderr, done.returncode), (wanted, b"", 0))

    def note(self, place: str) -> None:
        """The note tells the commit, the kit, and the program's sum."""
        with open(place, encoding="utf-8") as file:
            lines = file.read().splitlines()
        with open(self.copy + "/crates/gcx/out/gcx", "rb") as file:
            digest = hashlib.sha256(file.read()).hexdigest()
        self.assertEqual(lines[0], "commit " + self.git("rev-parse", "HEAD"))
        self.assertRegex(lines[1], r"\Art \S+")
        self.assertEqual(lines[2:], [f"sha256 of bin/gcx {digest}", "bin/gcx was taken as found"])

    def need(self, *tools: str) -> None:
        """Skips, with a line, where a tool isn't there."""
        for tool in tools:
            if not shutil.which(tool):
                print(f"gq/tests: {tool} isn't installed: {self.id()} isn't run", file=sys.stderr)
                self.skipTest(f"{tool} isn't installed")

    def test_into_a_folder(self) -> None:
        said = self.install("--built", "there")
        for name in WANTED:
            self.assertTrue(os.path.getsize(f"{self.folder}/there/{name}"), name)
        self.assertIn("install: add ", said)
        self.assertFalse(os.path.exists(f"{self.folder}/there/lib/gq/tests"))
        self.runs(self.folder + "/there")
        self.write("there/lib/gq/left_over.py", "")
        self.install("--built", "there")
        self.assertFalse(os.path.exists(f"{self.folder}/there/lib/gq/left_over.py"))

    def test_archive(self) -> None:
        self.need("rt", "tar")
        for name in ("one.tar.gz", "two.tar.gz"):
            self.install("--built", "--archive", name)
        with open(self.folder + "/one.tar.gz", "rb") as one, open(self.folder + "/two.tar.gz", "rb") as two:
            self.assertEqual(one.read(), two.read())
        subprocess.run(["tar", "-xzf", "one.tar.gz"], cwd=self.folder, check=True)
        (top,) = [it for it in os.listdir(self.folder) if it.startswith("gcx-")]
        os.rename(f"{self.folder}/{top}", f"{self.folder}/other place")
        self.runs(self.folder + "/other place")
        doc = self.folder + "/other place/share/doc/gcx"
        self.note(doc + "/origin")
        self.assertEqual(sorted(it for it in os.listdir(doc) if it.startswith("LICENSE")), ["LICENSE-APACHE", "LICENSE-MIT"])
        for crate in os.listdir(doc + "/licences"):
            self.assertTrue(os.listdir(f"{doc}/licences/{crate}"))

    def test_debian_package(self) -> None:
        self.need("rt", "dpkg-deb")
        self.install("--built", "--deb", "gcx.deb")
        fields = subprocess.run(["dpkg-deb", "-f", "gcx.deb"], cwd=self.folder, capture_output=True, text=True, check=True).stdout
        version = subprocess.run([GCX or "", "--version"], capture_output=True, text=True, check=False).stdout.split()[1]
        for line in ("Package: gcx", f"Version: {version}", "Architecture: amd64", "Depends: libc6 (>= 2.34), python3 (>= 3.9)"):
            self.assertIn(line + "\n", fields)
        listed = subprocess.run(["dpkg-deb", "-c", "gcx.deb"], cwd=self.folder, capture_output=True, text=True, check=True).stdout
        self.assertTrue(all(line.split()[1] == "root/root" for line in listed.splitlines()))
        subprocess.run(["dpkg-deb", "-x", "gcx.deb", "root"], cwd=self.folder, check=True)
        self.runs(self.folder + "/root/usr")
        self.note(self.folder + "/root/usr/share/doc/gcx/origin")
        for name in ("man/man1/gq.1.gz", "doc/gcx/copyright", "bash-completion/completions/gcx", "zsh/vendor-completions/_gq"):
            self.assertTrue(os.path.getsize(f"{self.folder}/root/usr/share/{name}"), name)

    def test_what_is_refused(self) -> None:
        self.need("rt")
        for words in (["--archive"], ["--archive", "a", "--deb", "b"], ["--archive", "a", "there"], ["--other"], ["one", "two"]):
            self.assertIn("usage: ./install ", self.install("--built", *words, code=1))
        self.assertIn("can't be written", self.install("--built", "--archive", "none/a.tar.gz", code=1))
        self.write("copy/new", "")
        for kind in ("--archive", "--deb"):
            self.assertIn("the working copy has changes", self.install("--built", kind, "a", code=1))
        os.unlink(self.copy + "/new")
        self.write("copy/install", (TOP / "install").read_bytes() + b"\n")
        self.assertIn("the working copy has changes", self.install("--built", "--archive", "a", code=1))
        self.git("checkout", "-q", "install")
        os.unlink(self.copy + "/crates/gcx/out/gcx")
        self.assertIn("there is no crates/gcx/out/gcx", self.install("--built", "--archive", "a", code=1))
        self.assertFalse(os.path.exists(self.folder + "/a"))


class Completes(Case):
    """Completion of bash."""

    def completed(self, *words: str) -> list[str]:
        """What is proposed for the last of these words."""
        script = f'. {TOP}/completion/gq.bash; COMP_WORDS=("$@"); COMP_CWORD=$(($# - 1)); _gq; printf "%s\\n" "${{COMPREPLY[@]}}"'
        done = subprocess.run(["bash", "-c", script, "bash", *words], cwd=self.folder, capture_output=True, text=True, check=True)
        self.assertEqual(done.stderr, "")
        return sorted(done.stdout.split())

    def test_words(self) -> None:
        self.assertEqual(self.completed("gq", "pl"), ["plan", "plot"])
        self.assertIn("--subset", self.completed("gq", "-"))
        self.assertEqual(self.completed("gq", "//a", "bi"), ["bib.xml", "bin"])
        self.assertEqual(self.completed("gq", "plan", "-"), ["-f"])
        self.assertEqual(self.completed("gq", "held", "/a", "bib"), ["bib.xml"])
        self.assertEqual(self.completed("gq", "-w", ""), [])

    def test_the_options_are_those_of_help(self) -> None:
        told = self.gq("--help")[0].decode()
        options = set(self.completed("gq", "-"))
        for option in options:
            self.assertRegex(told, rf"(?<![\w-]){re.escape(option)}(?![\w-])")
        zsh = (TOP / "completion" / "_gq").read_text()
        page = (TOP / "docs" / "gq.1").read_text().replace("\\-", "-")
        for option in options:
            self.assertIn(option + "[", zsh)
            self.assertIn(option, page)


if __name__ == "__main__":
    unittest.main()
