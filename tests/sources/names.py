"""Finds the names of definitions in the text of a contract or of another definition."""
import re

WORD = re.compile(r"[^\s(){}\[\],;λ]+")
USE = re.compile(r"\s*(?:pub |ghost )*use (Rattle\.[^\s{]+?)\.?(?:\{([^}]*)\})?;?\s*$")
# The place of an argument in the name of an operator, such as `◌≤◌`.
HOLE = "◌"


def words(text):
    """Returns the words of a text. A path such as `Kind.One` gives all its parts, but `value.field` only gives `value`."""
    found = set()
    for word in WORD.findall(text):
        head, *parts = word.strip(".:").split(".")
        found.add(head.strip(":"))
        if head[:1].isupper():
            found.update(parts)
    return found


def imports(text):
    """Maps each name that the `use` lines of a text import to its full name."""
    found = {}
    for match in filter(None, map(USE.match, text.splitlines())):
        for name in (match[2] or "").split(","):
            there, _, here = (part.strip() for part in name.partition(" as "))
            if there:
                found[here or there] = f"{match[1]}.{there}"
    return found


def named(text_words, near):
    """Returns the full names of those names in `near` that are among the words. An operator is, if all its parts are."""
    return {full for name, full in near.items() if all(part in text_words for part in name.split(HOLE) if part)}
