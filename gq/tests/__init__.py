"""Tests of gq over a real gcx: that of the variable GCX, else the one that the gate left, else the one on PATH.

python3 -m gq.tests runs them all, python3 -m unittest gq.tests.test_lines one module."""
