"""Parses edits (.edit), which are wrong bodies and their twins, and applies them to the texts of files.

An edit has lines `file: PATH`, and after each of them pairs of lines `old: TEXT` and `new: TEXT`. The file must have each old text
exactly once. If the compiler has to refuse it, before the prover sees it, a line `error: NAME` names the error."""
import glob
import os

from . import code
from .files import TOP, text_of

# The folders for wrong bodies that the gate tries, for all other wrong bodies, and for twins.
GATE, APART, TWINS = "must-fail", "must-fail-apart", "twins"


class BadEdit(Exception):
    """An edit that can't be applied."""


def names_of(crate, folder, top=TOP):
    """Lists the edits in a folder of a crate."""
    paths = glob.glob(os.path.join(top, "crates", crate, folder, "*.edit"))
    return sorted(os.path.basename(path).removesuffix(".edit") for path in paths)


def pairs(text):
    """Yields the file, the old text and the new text of each pair."""
    file = old = None
    for line in text.splitlines():
        word, _, rest = line.partition(":")
        rest = rest.removeprefix(" ")
        if word == "file":
            file = rest.strip()
        elif word == "old":
            old = rest
        elif word == "new":
            if not file or not old:
                raise BadEdit("a line 'new:' has no 'file:' and 'old:' before it")
            yield file, old, rest
            old = None


def error_in(text):
    """Returns the name of the error with which the compiler has to refuse an edit. It returns None if the prover has to."""
    words = (line.partition(":") for line in text.splitlines())
    return next((rest.strip() for word, _, rest in words if word == "error"), None)


def function_at(text, line):
    """Returns the name of the function at a line. It returns None if there is none, or if a cycle of functions shares one proof."""
    found = (one for one in code.read(text).functions if one.first <= line <= one.last)
    return next((one.name for one in found if not any("#[cycle(" in attribute for attribute in one.attributes)), None)


class Change:
    """An edit of a crate, with the lines and the functions that it changes, each as a pair with the file."""

    def __init__(self, crate, folder, name, top=TOP):
        root = os.path.join(top, "crates", crate)
        self.crate, self.name, self.before = crate, name, {}
        text = text_of(root, folder, name + ".edit")
        self.pairs, self.error = list(pairs(text)), error_in(text)
        if not self.pairs:
            raise BadEdit("it has no pair of lines 'old:' and 'new:'")
        for file, _, _ in self.pairs:
            if not os.path.isfile(os.path.join(root, file)):
                raise BadEdit(f"there is no file {file}")
            self.before[file] = text_of(root, file)
        self.changes_nothing = self.applied_to({}) == self.before
        self.lines, self.functions, texts = set(), set(), dict(self.before)
        for file, old, new in self.pairs:
            # Lines are counted in the unchanged file, unless it has the old text exactly once only after earlier pairs.
            text = self.before[file] if self.before[file].count(old) == 1 else texts[file]
            line = text.count("\n", 0, text.index(old)) + 1
            self.lines.add((file, line))
            self.functions.add((file, function_at(text, line)))
            texts[file] = texts[file].replace(old, new)

    def applied_to(self, texts):
        """Applies the edit to texts, given by their files, and to the unchanged texts of other files. Returns all of these."""
        changed = self.before | texts
        for file, old, new in self.pairs:
            if changed[file].count(old) != 1:
                raise BadEdit(f"an old text stands in {file} {changed[file].count(old)} times, and not once")
            changed[file] = changed[file].replace(old, new)
        return changed

    def is_in_one_function(self):
        """Whether it changes a single function, which has a proof of its own."""
        return len(self.functions) == 1 and all(name for _, name in self.functions)

    def is_alone(self):
        """Whether no other change can be tried in the same check."""
        return bool(self.error) or not self.is_in_one_function()


def rounds(changes):
    """Divides changes into rounds, so that one check can try all changes of a round. Returns the changes of each round, and the
    texts of files with all of them.

    A proof depends on the body of its own function and on the contracts of others. So the changes of a round are in different
    functions. A change that isn't in a single function, or that the compiler has to refuse, is alone in its round."""
    found = []
    for change in changes:
        for members, texts in found:
            is_alone = any(member.is_alone() for member in [change, *members])
            if is_alone or any(change.functions & other.functions for other in members):
                continue
            try:
                texts.update(change.applied_to(texts))
            except BadEdit:
                # Another change of the round is in the same line.
                continue
            members.append(change)
            break
        else:
            found.append(([change], change.applied_to({})))
    return found
