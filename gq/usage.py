"""The text of `gq --help`."""
from __future__ import annotations

import os

from gq import program
from gq.flow import write_out

VERSION = "0.2.0"  # that of gcx, with which it is installed
TEXT = """\
gq takes what you ask for out of XML documents, and writes it as XML, as lines
or as a table. It runs gcx, which answers the query: that part is proved, and gq
isn't.

Usage:
  gq [OPTION ..] QUERY [FILE ..]                 the answer
  gq [OPTION ..] -f QUERYFILE [FILE ..]          the query is in a file
  gq -t ROW [-w CONDITION] COLUMN .. -- [FILE ..]    a table
  gq plan QUERY                                  what is kept, and until when
  gq held QUERY [FILE]                           what is held at the peak
  gq plot QUERY [FILE]                           what is held, over the document

The query is one word: write it in single quotes. An attribute is written in it
as a child, $b/year and not $b/@year, and its copy is an element. No FILE, or -,
is standard input. FILE may be compressed (gzip, bzip2, xz, zstd), and in any
encoding that its byte order mark or its declaration tells.

Options:
  -l    each match as a line; a newline in it is written &#10;
  -0    each match with a NUL after it; newlines stay
  -c    only how many lines -l would write
  -q    nothing: exit status 0 where there is an answer, 1 where there is none
  -p    with line ends and indentation, which changes mixed content
  -t ROW    a line for each match of the path ROW, with a tab between COLUMNs. A
            COLUMN is a path from the row: title, a/b, @year, text(), . for all;
            its cell is all text of the match, of several joined by ;
            White space between two tags is dropped. The text of an element
            begins with the values of its attributes: where a price has some,
            price/text() is the text alone.
            -- ends the COLUMNs: without it no FILE is read
  -w CONDITION    only rows in which it holds: -w 'price < 50 and @year = 1994'
            Names are paths from the row, texts stand in quotes: a = "x".
            A number in quotes is compared as a text: number < "100".
            Where a total has attributes, its text alone: total/text() > 900.
            not(a = "x") holds where no a is x, a != "x" where some a isn't.
            Two conditions on a child that comes several times may be met by
            two of them. For two facts of one child take a loop: gq -l 'for $r
            in ROW, $c in $r/child where $c/a = 1 and $c/b = 2 return $r/name'
  -s SEPARATOR    stands between several values in place of ;
  -j    each row of the table as a line of JSON
  -v    progress on standard error, and whether nothing matches
  --subset    leaves out the declarations of a DOCTYPE
  --help, --version

Exit status: that of gcx. 0 all was written, and if nothing matches too; 1 of
-q: nothing matches; 2 wrong words; 3 QUERY is refused; 4 a FILE is refused; 5 a
FILE can't be read; 6 the answer can't be written; 7 out of memory. With several
FILEs the first that isn't 0.

  gq /bib/book/title bib.xml
  gq -l 'for $b in /bib/book where $b/price < 50 return $b/title' bib.xml
  gq -t /bib/book -w 'price < 50' @year title author -- bib.xml

More, with examples: man gq. What a query may be: man gcx.
"""


def show(word: bytes) -> int:
    """Writes the text; or the versions, of gq and of the gcx that it runs."""
    if word not in (b"--version", b"-V"):
        write_out(TEXT.encode())
        return 0
    write_out(b"gq " + VERSION.encode() + b"\n")
    place, out = os.pipe()
    null = os.open(os.devnull, os.O_RDWR)
    child = program.Child([program.gcx(), "--version"], null, out, null)
    os.close(out)
    os.close(null)
    with os.fdopen(place, "rb") as file:
        line = file.readline()
    child.wait()
    write_out(line or b"gcx tells no version\n")
    return 0 if line else 5
