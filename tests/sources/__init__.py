"""Parses the sources of the crates, each kind of text in one module:

    files        the crates and their files
    code         code (.rt): items, signatures, clauses, `use` lines
    names        the names of definitions in contracts and in other definitions
    definitions  definitions (.antt)
    public       the public items of a crate and their contracts
    reach        the definitions that a contract needs
    edits        wrong bodies and their twins (.edit)
    sizes        the size of each crate
    markdown     pages (.md): links, headings, tables, parts that a script writes

This package only reads. The scripts trusted.py, borders.py, pages.py and bodies.py use it to check the sources.
"""
