"""`gq`: `gcx` for the hand. A layer beside the proved program, which it starts; the layer itself isn't proved.

Modules by subject:

    words     the command line, help, and what is done with each order
    program   finding and starting `gcx` and other programs, signals, how a run ends
    flow      the bytes between documents, programs and standard output, in one loop
    inputs, encodings, doctype    documents: files, pipes, compressed, in other encodings, with declarations in a DOCTYPE
    tokens, syntax    the words and the grammar of the query language, with places
    made      a query that gq gives to gcx, and where its parts come from
    marked    queries that mark each match; lines, counts and tables are cut from their answers
    table, json_rows, unmet    rows as text and as JSON; which columns no row has
    run       an order over documents
    answer    what becomes of an answer
    kept      lines and columns of a document
    faults    messages with line, column and caret
    hints, functions, cures    what a fault of a query or of a document usually means, and what to write
    outline, nearest    what a document has, and what a query that matches nothing may have meant
    explained, waits, reasons    a plan, until when its roles keep their nodes, and that in words
    trace, watched    what a run holds, from its trace
    plan, held, plot, svg    the orders that tell what is kept, and pictures
    progress, pretty    how far a run is; an answer with line ends and indentation
"""
