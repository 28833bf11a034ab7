"""Random queries and documents over the same few names, for scripts that compare what the program says of them."""

NAMES = ["a", "b", "c", "d"]
RELATIONS = ["=", "!=", "<", "<=", ">", ">="]
VALUES = ["", "0", "1", "2", "10", "-1", "1.5", "x", "xy"]
FILLER = "some words that stand for a text, "


class Queries:
    """Random queries that are accepted for their form; some are refused for another reason."""

    def __init__(self, source):
        self.it = source
        self.compares = self.pairs = False

    def test(self):
        return self.it.choice(NAMES + ["*", "text()", "node()"])

    def steps(self):
        """At least one step; only the last one may be a descendant step."""
        count = self.it.randint(1, 3)
        made = []
        for number in range(count):
            descends = number == count - 1 and self.it.random() < 0.4
            made.append(("//" if descends else "/") + (self.test() if number == count - 1 else self.it.choice(NAMES + ["*", "*"])))
        return "".join(made)

    def start(self, scope):
        """A variable, the root element as most documents have it, or none."""
        return self.it.choice([*scope, *scope, "/r", "/*", ""]) if scope else self.it.choice(["/r", "/r", "/*", ""])

    def path(self, scope):
        return self.start(scope) + self.steps()

    def loop_path(self, scope):
        """The variables that a loop binds are mostly elements, so that more can be found below them."""
        steps = "".join("/" + self.it.choice(NAMES + ["*", "*", "*"]) for _ in range(self.it.randint(0, 1)))
        return self.start(scope) + steps + self.it.choice(["/a", "/b", "/*", "//a", "//*"])

    def literal(self):
        if self.it.random() < 0.5:
            return self.it.choice(["0", "1", "2", "10", "1.5"])
        return '"' + self.it.choice(VALUES) + '"'

    def compared(self, scope):
        """A comparison of a path with a literal or of two paths; a third has paths of two variables, where there are two."""
        self.compares = True
        left, right = self.path(scope), self.path(scope)
        kind = self.it.random()
        if kind < 0.25:
            right = self.literal()
        elif kind < 0.4:
            left = self.literal()
        elif kind < 0.75 and len(scope) > 1:
            one, other = self.it.sample(scope, 2)
            left, right = one + self.steps(), other + self.steps()
        self.pairs |= kind >= 0.4
        return f"{left} {self.it.choice(RELATIONS + ['=', '='])} {right}"

    def condition(self, scope, depth):
        kind = self.it.random()
        if depth == 0 or kind < 0.35:
            return self.compared(scope)
        if kind < 0.6:
            return f"exists({self.path(scope)})"
        if kind < 0.65:
            return "true()"
        if kind < 0.75:
            return f"not({self.condition(scope, depth - 1)})"
        word = self.it.choice([" and ", " or "])
        return "(" + word.join(self.condition(scope, depth - 1) for _ in range(self.it.randint(2, 3))) + ")"

    def expression(self, scope, depth):
        kind = self.it.random()
        if depth == 0:
            return self.it.choice([self.path(scope), "()", f"<{self.it.choice(NAMES)}/>"])
        if kind < 0.15:
            return self.path(scope)
        if kind < 0.3:
            name = self.it.choice(NAMES)
            return f"<{name}>{{{self.expression(scope, depth - 1)}}}</{name}>"
        if kind < 0.4:
            return f"({self.expression(scope, depth - 1)}, {self.expression(scope, depth - 1)})"
        if kind < 0.6:
            then, other = self.expression(scope, depth - 1), self.expression(scope, depth - 1)
            return f"if ({self.condition(scope, 2)}) then {then} else {other}"
        return self.loop(scope, depth)

    def loop(self, scope, depth):
        clauses, inner = [], list(scope)
        for _ in range(self.it.randint(1, 2)):
            var = f"$v{len(inner)}"
            clauses.append(f"{var} in {self.loop_path(inner)}")
            inner = inner + [var]
        where = f" where {self.condition(inner, 1)}" if self.it.random() < 0.3 else ""
        return f"for {', '.join(clauses)}{where} return {self.expression(inner, depth - 1)}"

    def join(self):
        """Two loops over nodes of the document, and a comparison of a path from each."""
        self.compares = self.pairs = True
        outer, inner = (self.it.choice(["/r/*", "/*/*", "/r/a", "/r/*/*", "/r//a", "//b"]) for _ in range(2))
        left, right = (f"${var}" + self.it.choice(["/*", "/a", "/b", "/*/*", "//a", "//*", "/text()", "//text()"]) for var in "xy")
        if self.it.random() < 0.5:
            left, right = right, left
        condition = f"{left} {self.it.choice(['=', '=', '=', *RELATIONS])} {right}"
        if self.it.random() < 0.3:
            condition += self.it.choice([" and ", " or "]) + self.condition(["$x", "$y"], 0)
        then, other = self.expression(["$x", "$y"], 1), self.it.choice(["()", "()", "<d/>"])
        return f"for $x in {outer} return for $y in {inner} return if ({condition}) then ({then}, <c/>) else {other}"

    def query(self):
        self.compares = self.pairs = False
        return self.join() if self.it.random() < 0.3 else self.expression([], 4)


class Documents:
    """Random documents: nested names, attributes, references, CDATA sections, comments; a third are longer than 4,096 bytes."""

    def __init__(self, source):
        self.it = source

    def text(self):
        value = self.it.choice([value for value in VALUES if value])
        kind = self.it.random()
        if kind < 0.1:
            return f"<![CDATA[{value}]]>"
        if kind < 0.2:
            return value + self.it.choice(["&lt;", "&amp;", "&#65;", "&#x20AC;", "ü", " "])
        return f"{value}<!-- {value} -->" if kind < 0.25 else value

    def attributes(self):
        if self.it.random() < 0.75:
            return ""
        names = self.it.sample(NAMES, self.it.randint(1, 2))
        return "".join(f" {name}='{self.it.choice(VALUES)}'" for name in names)

    def element(self, depth, left, filler):
        name, parts = self.it.choice(NAMES), []
        while depth and left[0] > 0 and self.it.random() < 0.8:
            left[0] -= 1
            kind = self.it.random()
            parts.append(self.text() if kind < 0.25 else "\n  " if kind < 0.3 else self.element(depth - 1, left, filler))
            if filler and self.it.random() < 0.3:
                parts.append(FILLER * self.it.randint(1, filler))
        tag = name + self.attributes()
        return f"<{tag}>{''.join(parts)}</{name}>" if parts or self.it.random() < 0.5 else f"<{tag}/>"

    def root(self):
        """An element with others in it, mostly called r."""
        is_long = self.it.random() < 1 / 3
        wanted = self.it.randint(4_097, 12_000) if is_long else self.it.randint(20, 600)
        parts, size = [], 0
        while size < wanted:
            parts.append(self.element(5, [self.it.randint(2, 20)], 20 if is_long else 0))
            size += len(parts[-1].encode())
        name = self.it.choice(["r"] * 9 + NAMES)
        return f"<{name}{self.attributes()}>{''.join(parts)}</{name}>"

    def document(self):
        """Its bytes; one in eight is cut, or has a byte changed, dropped or doubled, and may be no document any more."""
        made = self.root().encode()
        if self.it.random() > 1 / 8:
            return made
        at, kind = self.it.randrange(len(made)), self.it.randrange(4)
        return [made[:at], made[:at] + self.it.choice([b"<", b"&", b"\xff", b"z"]) + made[at + 1 :], made[:at] + made[at + 1 :], made[:at] + made[at - 1 :]][kind]
