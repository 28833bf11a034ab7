"""What a fault of a document usually means, and what to do."""
from __future__ import annotations

import re

from gq.kept import Place


def of_document(kind: str, at: Place | None, offset: int) -> tuple[str, str]:
    """Words and a hint for a fault of a document; empty words for the usual ones."""
    if kind == "Utf8":
        return "", "in ISO-8859-1? iconv -f ISO-8859-1 -t UTF-8 FILE | gq ..; another encoding has another name there"
    if kind == "Truncated" and offset == 0:
        return "the document is empty", ""
    if kind != "Syntax" or at is None:
        return "", ""
    if offset == 0:
        return "this is no XML", ""
    if at.after[:1] == "[" and re.search(rb"<!DOCTYPE[^>]*\Z", at.head):
        return "a DOCTYPE with declarations in it", of_subset(at.rest)
    return of_text(at.head, at.after)


def of_subset(rest: bytes) -> str:
    """A hint for the declarations of a DOCTYPE, which begin so."""
    if re.search(rb"<!ENTITY\s", rest.partition(b"]>")[0]):
        return "its entities are put in by xmllint --nonet --noent --dropdtd FILE | gq ..; gq --subset leaves all out"
    return "gq --subset leaves them out"


def of_text(head: bytes, after: str) -> tuple[str, str]:
    """The same by the text before the place and after it."""
    sign = after[:1]
    tag = head[head.rfind(b"<"):] if b"<" in head else b""
    inside = b">" not in tag and tag[1:2] not in (b"!", b"?")  # a tag is open, as it seems
    entity = re.search(rb"&([A-Za-z][\w.]*)?\Z", head)
    if entity:
        name = re.match(r"[\w.]*;", after)
        if name is None:
            return "a bare &", "& in a text is written &amp;"
        whole = "&" + (entity[1] or b"").decode() + name[0]
        known = " (it is &#160;)" if whole == "&nbsp;" else ""
        return f"the entity {whole} isn't one of XML's five{known}", \
            "xmllint --nonet --noent --dropdtd puts in what a DOCTYPE declares" if not known else "sed 's/&nbsp;/\\&#160;/g'"
    if re.search(rb"&#x?[0-9A-Fa-f]*\Z", head):
        return "no reference to a character", ""
    if re.search(rb"<!--(?:(?!-->).)*--\Z", head, re.S):
        return "-- within a comment", ""
    if tag.startswith(b"</"):
        return "another end tag than that of the open element", ""
    if sign and (ord(sign) < 32 or sign in "\ufffe\uffff"):
        return "a character that XML hasn't", ""
    if tag == b"<":
        return "a bare <", "< in a text is written &lt;"
    if inside and tag:
        return of_tag(tag, sign)
    return "", ""


def of_tag(tag: bytes, sign: str) -> tuple[str, str]:
    """The same within a start tag."""
    if re.search(rb"=\s*\Z", tag):
        return "an attribute's value without quotes", ""
    if tag.count(b'"') % 2 or (tag.count(b"'") % 2 and b'"' not in tag):
        return ("a < within an attribute's value", "< is written &lt;") if sign == "<" else ("", "")
    name = re.search(rb"\s([^\s=\"'<>]+)\s*\Z", tag)
    if name and re.search(rb"\s" + re.escape(name[1]) + rb"\s*=", tag):
        return "the attribute stands twice in its tag", ""
    if sign == "<":
        return "the tag isn't closed", ""
    return "", ""
