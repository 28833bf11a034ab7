"""What `gq plan` says, and that it is so: against the peaks of runs at two sizes."""
from __future__ import annotations

import subprocess
import unittest

from gq.explained import Plan, read
from gq.plan import words
from gq.tests.common import GCX, Case
from gq.waits import Walk

ITEMS = [
    "/items/item", "/items/item/note/text()", "//note", "//item", "//*", "//text()", "/items/*", "/*",
    "/items/item/price, /items/item/note", "for $i in /items/item return ($i/price, $i/note)", "//price, //note", "<a/>, /items/item/note",
    "<all>{/items/item/price}</all>", "for $i in /items/item return (<a>{$i/note}</a>, $i/price, <b/>)",
    "for $i in /items/item where $i/price < 50 return $i/note", "for $i in /items where $i/item/price > 99 return <dear/>",
    "if (exists(/items/none)) then /items/item/note else ()", "if (exists(/items/item)) then /items/item/note else ()",
    "if (/items/item/price > 1000) then <dear/> else <cheap/>", "for $i in //item where not(exists($i/none)) return $i/note",
    "for $i in /items/item return if ($i/price = 0 or $i/note = \"x\") then <x/> else $i/note",
    "for $i in /items/item, $j in $i/* return <p>{$i/price, $j}</p>", "for $a in /items/item, $b in /items/item return <x/>",
    "for $i in /items return ($i/item/price, $i/item/note)", "for $i in //item return <i>{$i//text()}</i>",
]
SHOP = [
    "for $c in /shop/customer, $o in /shop/order where $o/of = $c/id return <bought>{$c/name, $o/sum}</bought>",
    "for $c in /shop/customer return <c>{$c/name, for $o in /shop/order where $o/of = $c/id return $o/sum}</c>",
    "for $o in /shop/order where exists($o/line/part) return $o/sum", "for $o in /shop/order return for $l in $o/line return ($o/of, $l/part)",
    "/shop/customer/name, /shop/order/sum", "for $x in /shop/* return ($x/id, $x/of)", "//part", "for $o in //order return ($o/line//part, $o/of)",
    "for $o in /shop/order, $l in $o/line, $p in $l/part return <p>{$o/of/text(), $p/text()}</p>",
    "for $o in /shop/order where $o/sum > /shop/limit return $o/of", "for $s in /shop return if ($s/limit > 3) then $s/customer/name else ()",
    "for $o in /shop/order, $l in $o/line, $m in $o/line where $l/part = $m/part return <same/>",
]


def items(count: int) -> str:
    """The document of `gcx gen`."""
    rows = (f"<item><price>{37 * it % 100}</price><note>{it:07d}</note></item>" for it in range(count))
    return "<items>" + "".join(rows) + "</items>"


def shop(count: int) -> str:
    """Customers, then their orders with two lines each."""
    customers = (f'<customer id="{it}"><name>Name {it}</name></customer>' for it in range(count))
    orders = (f"<order><of>{it}</of><sum>{it % 7}</sum>" + f"<line><part>{it % 5}</part></line>" * 2 + "</order>" for it in range(count))
    return "<shop><limit>5</limit>" + "".join([*customers, *orders]) + "</shop>"


class Plans(Case):
    """What the words of a plan claim."""

    def peak(self, query: str, document: str) -> int:
        """The peak that gcx tells."""
        self.write("q", query)
        done = subprocess.run([GCX, "peak", "q", document], cwd=self.folder, capture_output=True, check=True)
        return int(done.stdout.split()[1])

    def plan(self, query: str) -> Plan:
        """The plan of a query."""
        return read(subprocess.run([GCX or "", "explain", "-"], input=query.encode(), capture_output=True, check=True).stdout.decode())

    def verdict(self, query: str) -> str:
        """The last part of what is said: flat, or may grow."""
        return self.gq("plan", query)[0].decode().rpartition("\n\n")[2]

    def test_none_that_grows_is_called_flat(self) -> None:
        flat, doubted = 0, []
        for make, queries in ((items, ITEMS), (shop, SHOP)):
            self.write("one.xml", make(100))
            self.write("two.xml", make(200))
            for query in queries:
                grows = self.peak(query, "two.xml") > 1.2 * self.peak(query, "one.xml")
                verdict = words(self.plan(query)).rpartition("\n\n")[2]
                self.assertRegex(verdict, r"\A(flat: |flat as long as each /|may grow with the document: /)", query)
                if grows:
                    self.assertTrue(verdict.startswith("may grow"), (query, verdict))
                else:
                    flat += 1
                    doubted += [query] if verdict.startswith("may grow") else []
        self.assertGreaterEqual(flat, 12)
        self.assertLessEqual(4 * len(doubted), flat, doubted)

    def test_a_comma_in_words(self) -> None:
        told = self.gq("plan", "/items/item/price, /items/item/note")[0].decode()
        self.assertIn("then, after that loop is over, when the document ends:\nfor each /items/item/note as $6\n", told)
        self.assertIn("role 8 keeps each /items/item/note, with all below it, to copy it,\n"
                      "  until the document ends: its loop begins when the one before is over   <-- may grow\n", told)
        self.assertIn("one loop that writes what all parts need", told)

    def test_a_comma_in_a_loop(self) -> None:
        told = self.gq("plan", "for $i in /items/item return ($i/price, $i/note)")[0].decode()
        self.assertIn("  then, after that loop is over, when its /items/item ends:\n", told)
        self.assertIn("until its /items/item ends: its loop begins when the one before is over\n", told)
        self.assertIn("flat as long as each /items/item is small: at most one is kept at a time\n", told)

    def test_joins_in_words(self) -> None:
        told = self.gq("plan", "for $a in /s/d/r, $b in /s/d/f where $a/k = $b/k return $b")[0].decode()
        self.assertIn("until the document ends: each turn of the loop around needs it   <-- may grow", told)
        self.assertIn("begin both loops at one /s/d, and they are kept until that ends", told)
        told = self.gq("plan", "for $d in /s/d, $a in $d/r, $b in $d/f where $a/k = $b/k return $b")[0].decode()
        self.assertIn("flat as long as each /s/d is small: at most one is kept at a time", told)

    def test_a_loop_before_a_join_waits_too(self) -> None:
        told = self.gq("plan", "for $a in /r/x return ($a/p, for $b in /r/y return $b)")[0].decode()
        self.assertRegex(told, r"each /r/x/p, with all below it, to copy it,\n  until the document ends.*may grow")

    def test_conditions_in_words(self) -> None:
        told = self.gq("plan", 'for $b in /b where not($b/x = "a\n\n copy 3 ""q"" &amp; (1 = 2)") or $b/y < 3.50 and exists($b//z) return <y/>')[0]
        self.assertIn(b'if (not($1/x = "a\n\n copy 3 ""q"" &amp; (1 = 2)") or ($1/y < 3.5 and exists($1//z)))\n  write <y>', told.replace(b"\n    ", b"\n  "))
        told = self.gq("plan", "for $a in /r/a return if ($a = 3) then <y/> else $a")[0].decode()
        self.assertIn("if $2 = 3\n", told)
        self.assertIn("if not($2 = 3)\n", told)

    def test_a_number_is_no_variable(self) -> None:
        for query in ("for $a in /r/a where $a/b = 0 return $a/b", "for $a in /r/a where 1 = $a/b return $a/b"):
            self.assertTrue(self.verdict(query).startswith("flat as long as each /r/a is small: "), query)

    def test_nothing_kept(self) -> None:
        self.assertIn("flat: nothing is kept but the open elements", self.gq("plan", "for $x in /a/b return <y/>")[0].decode())
        self.assertIn("flat: nothing is kept but the open elements", self.gq("plan", "<a/>")[0].decode())
        self.assertIn("flat as long as each //a is small", self.gq("plan", "//a")[0].decode())

    def test_large_queries(self) -> None:
        deep = "".join(f"for $v{it} in //a return " for it in range(190)) + "<x/>"
        self.assertTrue(self.verdict(deep).startswith("may grow"))
        path = "/a" * 490
        self.assertIn("flat as long as each /a/a/", self.gq("plan", path)[0].decode())
        many = " and ".join(["$x = 1"] * 1900)
        self.write("q", f"for $x in /a/b where {many} return <y/>")
        self.assertIn("flat as long as each /a/b is small", self.gq("plan", "-f", "q")[0].decode())

    def test_faults(self) -> None:
        out, err = self.gq("plan", "/a[b]", code=3)
        self.assertEqual(out, b"")
        self.assertIn("query:1:3: ", err)
        for words in (["plan"], ["plan", "/a", "bib.xml"], ["plan", "-x", "/a"], ["held"], ["held", "/a", "b", "c"], ["plot"]):
            self.assertRegex(self.gq(*words, code=2)[1], r"\Agq: .*\n\Z")

    def test_uses_of_roles(self) -> None:
        plan = self.plan("for $a in /r/a where $a/x = 2 and exists($a/k) return ($a, $a/x)")
        for number, role in plan.roles.items():
            use = plan.uses[number]
            self.assertEqual(role.kind, {"loop": "own", "exists": "first"}.get(use, "whole"))
        self.assertEqual(set(Walk(plan).until), set(plan.roles))


if __name__ == "__main__":
    unittest.main()
