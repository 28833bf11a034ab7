"""What a fault of a query usually means, and what to write."""
from __future__ import annotations

import os
import re

from gq import functions
from gq.nearest import nearest

LOOP = "for $x in /a/b where $x/price < 50 return $x/title"
WORD_RELATIONS = {b"lt": "<", b"le": "<=", b"gt": ">", b"ge": ">=", b"eq": "=", b"ne": "!="}
KEYWORDS = (b"for", b"in", b"where", b"return", b"if", b"then", b"else", b"and", b"or", b"not", b"exists", b"true")
ARITHMETIC = "there is no arithmetic: the next program of the pipe computes"
UP = "there is no way up: begin a loop further up, and name what it must have"
UP_FROM_ROW = "there is no way up: a loop has both, for $p in /a/b, $r in $p/c return <row>{$p/id, $r/name}</row>"
TEST = rb"(=|!=|<=?|>=?)\s*(\"[^\"]*\"|'[^']*'|-?[0-9.]+)"  # a relation and a literal
STRAIGHT = (b"\xe2\x80\x9c", b"\xe2\x80\x9d", b"\xe2\x80\x98", b"\xe2\x80\x99")  # quotes that are curved
BOUND = re.compile(rb"(\$[-\w.:]+)\s+in\b")


def word_at(text: bytes, place: int) -> bytes:
    """The name that begins at a place."""
    return re.match(rb"[-.\w:\x80-\xff]*", text[place:])[0]  # type: ignore[index]


def shown(text: bytes) -> str:
    """A part of a query within a hint."""
    return text[:60].decode("utf-8", "replace")


def of_query(kind: str, text: bytes, place: int, what: str = "query") -> str:
    """A hint for a fault of a query; empty where there is none. WHAT is query, row, column or condition."""
    rest, before = text[place:], text[:place]
    if kind == "Lex":
        return of_word(rest, before, text, what)
    if kind == "DescendantNotLast":
        return of_descendant(before, rest, what)
    if kind == "UnknownVar":
        return of_variable(rest, before, text, what)
    if kind == "Absolute":
        return "title, a/b, @name, . or .//name"
    if kind == "FromRoot":
        return of_root(rest)
    if kind == "Syntax":
        return of_syntax(rest, before, text, what)
    return ""


def of_word(rest: bytes, before: bytes, text: bytes, what: str) -> str:
    """A hint for a character with which no word begins."""
    sign = rest[:1]
    if sign == b"[":
        number = re.match(rb"\[\s*(\d+)\s*\]", rest)
        if number and what == "query":
            return f"a path has no predicates: gq -l .. | sed -n {shown(number[1])}p takes that one of all"
        return "a path has no predicates: " + (LOOP if what == "query" else of_predicate(rest, before, what))
    if sign == b"@":
        name = shown(word_at(rest, 1))
        return f"an attribute is a child here: /{name} for /@{name}" if name else "an attribute is a child here: /* are all children"
    if sign == b".":
        if re.match(rb"\.[0-9]", rest):
            return "a number begins with a digit: 0.5"
        return UP if rest[:2] == b".." else "a path begins with / or a variable, and has no ."
    if sign in (b'"', b"'"):
        inner = rest[1:].partition(sign)
        return "& in a string is written &amp;" if inner[1] and b"&" in inner[0] else "the string isn't closed"
    if rest.startswith(STRAIGHT):
        return 'quotes are straight: "text"'
    if rest[:2] == b"(:":
        return "the comment isn't closed"
    if sign == b"$":
        return "a name stands directly after $"
    if sign == b";":
        return "there are no declarations: a prefix is a part of the name, /b:bib" if re.search(rb"\b(declare|import|module)\b", text) else \
            "no ; stands after a query"
    if rest[:2] == b":=":
        return "there is no let: for $x in .. return .."
    return of_operator(rest)


def of_predicate(rest: bytes, before: bytes, what: str) -> str:
    """What does the work of a predicate in a part of a table, in the user's words as far as they are simple."""
    inner = re.match(rb"\[\s*@?([-\w.:\x80-\xff]+)\s*" + TEST + rb"\s*\]", rest)
    path = re.search(rb"[-\w.:/@*\x80-\xff]*\Z", before)[0]  # type: ignore[index]
    if what == "row":
        return "-w 'price < 50'"
    if what == "column" and re.match(rb"\[\s*\d+\s*\]", rest):
        return "a cell has all values, and -j writes them as an array"
    if inner is None or not re.match(rb"[\w\x80-\xff]", path) or b"//" in path:
        return "gq -l 'for $r in ROW, $c in $r/child where $c/a = 1 and $c/b = 2 return $r/name'"
    after = re.match(rb"/@?([-\w.:\x80-\xff]+)(?:\s*" + TEST + rb")?", rest[inner.end():])
    fact, value = f"{shown(inner[1])} {shown(inner[2])} {in_quotes(inner[3])}", shown(after[1]) if after else ""
    if what == "column":
        copied = f"$c/{value}" if value else "$c"
        return f"gq -l 'for $r in ROW return <row>{{$r/name, for $c in $r/{shown(path)} where $c/{fact} return {copied}}}</row>'"
    if after is None or not after[2]:
        return f"-w '{shown(path)}/{fact}'"
    other = f"{value} {shown(after[2])} {in_quotes(after[3])}"
    return f"gq -l 'for $r in ROW, $c in $r/{shown(path)} where $c/{fact} and $c/{other} return $r/name'"


def in_quotes(literal: bytes) -> str:
    """A literal as it can stand in a word of the shell that is in single quotes."""
    return shown(b'"' + literal[1:-1] + b'"' if literal[:1] == b"'" and b'"' not in literal else literal)


def of_operator(rest: bytes) -> str:
    """The same of a sign that joins two things in other languages."""
    if rest[:2] == b"||":
        return "it is written or"
    if rest[:1] == b"|":
        return "a comma joins two paths: /a/b, /a/c"
    if rest[:1] == b"&":
        return "it is written and"
    if rest[:1] == b"!":
        return "not(..) turns a condition"
    return ARITHMETIC if rest[:1] in (b"+", b"-", b"%") else ""


def of_descendant(before: bytes, rest: bytes, what: str) -> str:
    """A hint for a step after //, of which the path is looked at."""
    base = re.search(rb"(?:\$[-\w.:\x80-\xff]+)?(?:/[-\w.:*\x80-\xff]+)*\Z", before)[0]  # type: ignore[index]
    steps = re.match(rb"(//[-\w.:*\x80-\xff]+(?:\(\))?)(/[-\w.:*/()@\x80-\xff]*[-\w.:*\x80-\xff](?:\(\))?)?", rest)
    if steps is None or not steps[2]:
        return "make it a loop: for $x in //name return $x/.."
    above, below = shown(base + steps[1]), shown(steps[2])
    if what == "row":
        return f"let the rows be {above}, and begin each column there: {below.lstrip('/')}"
    if what == "column":
        return f"only the last step of a column has //: .//{below.rpartition('/')[2]}, or each step by its name, a/{shown(steps[1][2:])}{below}"
    if re.search(rb"\bin\s*\Z", before[:len(before) - len(base)]):
        return f"two clauses: for $y in {above}, $x in $y{below}"
    return f"make it a loop: for $x in {above} return $x{below}"


def of_root(rest: bytes) -> str:
    """A hint for a path of a condition that begins at the document."""
    path = re.match(rb"(?:/{1,2}(?:@?[-\w.:\x80-\xff]+|\*)(?:\(\))?)*", rest)[0]  # type: ignore[index]
    last = shown(path.rpartition(b"/")[2]) or "name"
    return f"{last} for a child of the row, .//{last} for any in it"


def of_variable(rest: bytes, before: bytes, text: bytes, what: str) -> str:
    """A hint for a variable that isn't bound."""
    if what == "row":
        return "the rows are a path from the document: /bib/book, or //book"
    if what != "query":
        return "a name begins at the row, without a variable: price, a/b, @year"
    name = b"$" + word_at(rest, 1)
    earlier, all_of_them = BOUND.findall(before), BOUND.findall(text)
    if name in earlier:
        return "after return stands one expression: a list needs parentheses, return ($x/a, $x/b)"
    if name in all_of_them:
        return "it is bound only later: clauses are read from left to right"
    like = nearest(name, earlier)
    if like is not None:
        return f"did you mean {shown(like)}?"
    bound = list(dict.fromkeys(earlier))
    return "bound here: " + ", ".join(map(shown, bound)) if bound else f"a loop binds it: for {shown(name)} in /a/b return {shown(name)}"


def of_syntax(rest: bytes, before: bytes, text: bytes, what: str) -> str:
    """A hint for a word that can't stand where it does."""
    word = word_at(rest, 0)
    past = before.rstrip()
    if what == "column" and (rest.startswith((b",", b";")) or word and before[-1:].isspace()):
        return "each column is a word of its own: title author"
    if text.startswith(b"\xef\xbb\xbf"):
        return "the query begins with a byte order mark"
    if word.lower() in KEYWORDS and word != word.lower():
        return f"keywords are in small letters: {shown(word.lower())}"
    if what in ("query", "row") and not past:
        found = of_first_word(word, rest, text, what)
        if found:
            return found
    if not rest.strip():
        return of_end(past, what)
    if word in WORD_RELATIONS:
        return f"the relation is written {WORD_RELATIONS[word]}"
    called = functions.called(rest, past)
    if called:
        return functions.instead(called, text, what)
    if what in ("column", "condition") and re.search(rb"(?<![^\s/(=<>@])\.\Z", before) and rest[:1] == b"." or rest[:2] == b"..":
        return UP_FROM_ROW
    if rest[:2] == b"::" or re.match(rb"[-\w]+::", rest):
        return of_axis(word if rest[:2] != b"::" else re.search(rb"[-\w]*\Z", past)[0])  # type: ignore[index]
    if past.endswith(b"*") and rest[:1] == b":":
        return f"a prefix is a part of the name, as the document has it: p{shown(word)}"
    if word == b"in" and re.search(rb"\bfor\Z", past):
        return "the shell took the variable: write the query in single quotes"
    return of_keyword(word, past) or of_relation(rest, past) or of_constructor(word, rest, past) or of_bare(word, rest, past, what) or \
        of_condition(word, rest, before, what)


def of_axis(name: bytes) -> str:
    """A hint for an axis."""
    name = name.partition(b"::")[0]
    if name == b"attribute":
        return "an attribute is a child here: /year for /@year"
    if name in (b"parent", b"ancestor", b"ancestor-or-self"):
        return UP
    return "there are only the axes child, as /, and descendant, as //"


def of_keyword(word: bytes, past: bytes) -> str:
    """A hint for a keyword of XQuery or XPath."""
    if word in (b"order", b"group"):
        return f"there is no {word.decode()} by: the next program of the pipe sorts"
    if word == b"let":
        return "there is no let: for $x in .. return .."
    if word == b"for" and not re.search(rb"(?:[({,]|\breturn|\bthen|\belse)\Z", past):
        return "one for has all clauses: for $a in /r/a, $b in $a/b return $b"
    if word == b"at":
        return "there is no position: gq -l .. | nl numbers the matches"
    if word == b"union":
        return "a comma joins two paths: /a/b, /a/c"
    if word in (b"div", b"idiv", b"mod", b"to"):
        return ARITHMETIC
    if re.search(rb"\bif\Z", past):
        return "the condition stands in parentheses: if (..) then .. else .."
    return ""


def of_relation(rest: bytes, past: bytes) -> str:
    """A hint for two signs that are one elsewhere, and for what an operator has on its sides."""
    pair = past[-1:] + rest[:1]
    if pair == b"==":
        return "the relation is written " + ("!=" if past.endswith(b"!=") else "=")
    if pair in (b"=<", b"=>", b"<>"):
        return "the relation is written " + {b"=<": "<=", b"=>": ">=", b"<>": "!="}[pair]
    return ARITHMETIC if rest[:1] == b"*" and re.search(rb"[-\w.)\x80-\xff]\Z", past) else ""


def of_bare(word: bytes, rest: bytes, past: bytes, what: str) -> str:
    """A hint for a name or a text where a query has a path."""
    after = re.search(rb"(?:(=|<|>)|\b(in|where|and|or|return|then|else)|[({,])\Z", past)
    if what != "query" or after is None:
        return ""
    writes = after[2] in (b"return", b"then", b"else") or after[0] in (b"{", b",")
    if writes and (rest[:1] in (b'"', b"'") or rest[:1].isdigit()):
        return "a query writes elements and parts of the document, and no text of its own"
    if not word or word[:1].isdigit() or word in KEYWORDS:
        return ""
    if after[1]:
        return f'a text stands in quotes: "{shown(word)}"; a path begins with / or a variable'
    bound = BOUND.findall(past)
    if after[2] == b"in" or not bound:
        return f"a path begins with / or a variable: /{shown(word)}, or //{shown(word)} wherever it stands"
    return f"a path begins with / or a variable: {shown(bound[-1])}/{shown(word)}"


def of_constructor(word: bytes, rest: bytes, past: bytes) -> str:
    """A hint for a constructor."""
    if re.search(rb"<[-\w:.]+\Z", past) and word:
        return "a constructor has no attributes: <year>{$x/year}</year>"
    if re.search(rb"<[-\w:.]+>\Z", past) or (re.search(rb"(?:/[-\w:.]*>|})\Z", past) and not rest.startswith((b"{", b"<", b"}", b")"))):
        return "a constructor holds {queries} and constructors, no text"
    return ""


def of_condition(word: bytes, rest: bytes, before: bytes, what: str) -> str:
    """A hint for a condition."""
    past = before.rstrip()
    if rest.startswith(b"(") and re.search(rb"[=<>]\Z", past):
        return "a comparison has one value: $x/a = \"1\" or $x/a = \"2\""
    if re.search(rb"\bnot\Z", past):
        return "not(exists(..)), with parentheses"
    text = re.search(rb"[=<>]\s*([-\w.\x80-\xff]+\s*)\Z", before)
    if what == "condition" and text and word not in (b"", b"and", b"or"):
        more = re.match(rb"(?:(?!\s+(?:and|or)\b)[^)])*", rest)[0]  # type: ignore[index]
        return f'a text stands in quotes: "{shown(text[1] + more.rstrip())}"'
    if what == "row" and word == b"where":
        return "the condition of the rows is -w: -w 'price < 50'"
    for begin, end in ((b"(", b")"), (b"{", b"}")):
        if rest[:1] == end and past.count(begin) <= past.count(end):
            return f"no {begin.decode()} is open here"
    if word in (b"return", b"then", b"and", b"or") or rest[:1] == b")":
        return of_existence(past)
    return ""


def of_existence(past: bytes) -> str:
    """A hint for a path that stands as a condition."""
    path = re.search(rb"[-\w.:/@*$\x80-\xff]*[-\w*\x80-\xff](?:\(\))?\Z", past)
    if path and path[0] in (b"true", b"false"):
        return "it is written true()" if path[0] == b"true" else "it is written not(true())"
    return f"a condition asks for existence by exists({shown(path[0]) if path else '..'})"


def of_first_word(word: bytes, rest: bytes, text: bytes, what: str) -> str:
    """A hint for the word that a query or a row begins with."""
    name = text.strip()
    if what == "query" and len(name) < 4096 and b"\0" not in name and os.path.isfile(name):
        return "that is a file: the query comes first, then the files; -f FILE has the query in a file"
    if word == b"let":
        return "there is no let: for $x in .. return .."
    if word in (b"some", b"every"):
        return "if (/a/b < 50) then <yes/> else <no/>"
    if word in (b"declare", b"import"):
        return "there are no declarations: a prefix is a part of the name, /b:bib"
    if word == b"for" and what == "row":
        return "the rows are a path: for a loop, gq -l 'for ..'"
    if re.match(rb"doc\s*\(|document\s*\(|collection\s*\(", rest):
        return "the document is FILE: gq /a/b FILE"
    if re.match(rb"exists\s*\(|not\s*\(|true\s*\(", rest):
        return f"if ({shown(rest.strip())}) then <yes/> else <no/>"
    if functions.CALL.match(rest) or re.match(rb"[-\w]+::", rest):
        return ""
    if re.match(rb"\w|[\x80-\xff]", rest) and not word[:1].isdigit():
        return f"a path begins with /: /{shown(word)}, or //{shown(word)} wherever it stands"
    return "a query is a path, a loop, an if, or a constructor" if re.match(rb"[\d\"']", rest) else ""


def of_end(past: bytes, what: str) -> str:
    """A hint where the words end too soon."""
    if not past:
        return f"the {what} is empty"
    if past in (b"/", b"//"):
        return "the whole document is /*" if what in ("query", "row") else "the row itself is ."
    if past.endswith((b"/", b"::")):
        return "a name is missing at the end"
    if past.endswith(b","):
        return "nothing stands after the last comma"
    words = re.findall(rb"(?<![-\w/$.:])(?:for|return|if|else)(?![-\w.:])", past)
    if what == "query" and words.count(b"for") > words.count(b"return"):
        return "return is missing"
    if what == "query" and words.count(b"if") > words.count(b"else"):
        return "an if has both sides: then .. else ()"
    if re.search(rb"\b(return|then|else|where|and|or|in)\Z", past) or re.search(rb"[=<>(]\Z", past):
        return "something is missing at the end"
    for begin, end in ((b"(", b")"), (b"{", b"}")):
        if past.count(begin) > past.count(end):
            return f"{end.decode()} is missing"
    if what == "condition":
        return of_existence(past)
    tags: list[bytes] = []
    for close, name, empty in re.findall(rb"<(/?)([-\w.:\x80-\xff]+)\s*(/?)>", past):
        tags = tags[:-1] if close else tags if empty else [*tags, name]
    return f"</{shown(tags[-1])}> is missing" if tags else "something is missing at the end"
