"""Which functions of the library a built program has as functions of their own, by its symbols."""
import re
import subprocess

# Where one of these isn't read in line, each geometry pays for a call and for a `Head` in memory.
READERS = {"read_head", "take_head", "take_box", "take_span", "take_size"}


def own_functions(program):
    """The names of the functions that weren't inlined everywhere, each with its number of copies."""
    symbols = subprocess.run(["nm", "--defined-only", program], capture_output=True, text=True, check=True).stdout
    # As in 'twkb_body::skimming::enter::<#1d76>'.
    names = re.findall(r" t twkb_(?:num|head|body|layer)::(?:\S+::)?([a-z_]+)(?:::<\S*>)?$", symbols, re.MULTILINE)
    return {name: names.count(name) for name in sorted(names)}


def tell(program, name):
    """Says whether headers are read in line."""
    own = own_functions(program)
    missed = sorted(READERS & own.keys())
    listed = ", ".join(f"{function} ({copies} times)" if copies > 1 else function for function, copies in own.items())
    print(f"{name}: headers read in line: {'no, ' + ', '.join(missed) + ' called' if missed else 'yes'}")
    print(f"  functions of their own: {listed}")
