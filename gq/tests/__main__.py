"""python3 -m gq.tests: all tests, each module in a process of its own, all at the same time. It ends with 1 where one fails."""
from __future__ import annotations

import pathlib
import subprocess
import sys

TOP = pathlib.Path(__file__).resolve().parent.parent.parent


def main() -> int:
    """Runs them, and prints what each says that fails."""
    modules = sorted(it.stem for it in (TOP / "gq" / "tests").glob("test_*.py"))
    running = [(it, subprocess.Popen([sys.executable, "-m", "unittest", "-q", f"gq.tests.{it}"], cwd=TOP, stdout=subprocess.PIPE,
                                     stderr=subprocess.STDOUT)) for it in modules]
    failed = 0
    for name, child in running:
        said = child.communicate()[0].decode("utf-8", "replace")
        if child.returncode:
            failed = 1
            print(f"gq.tests.{name}:\n{said}")
    return failed


if __name__ == "__main__":
    sys.exit(main())
