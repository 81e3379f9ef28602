"""Finds the definitions that a contract reaches: those that it names, those that these name, and so on."""
from .definitions import read_all
from .files import CRATES, TOP, all_crates
from .names import named
from .public import cited, read_public

# The contracts whose lines of definitions are counted: a letter and a name for the count, the crate, the item, the labels of its
# clauses, and the most lines allowed. Without labels, all clauses and the types in the signature count.
YES = ("certified", "complete")
QUESTIONS = (
    ("Y", "the yes of certify", "twkb_layer", "certify", YES, 326),
    ("C", "certify", "twkb_layer", "certify", None, 568),
    ("S", "scan", "twkb_layer", "Certified::scan", None, 398),
    ("R", "run", "twkb_tool", "run", None, 800),
)


class Reach:
    """The public contracts and the definitions of some crates. Sets of definitions are sets of their keys."""

    def __init__(self, top=TOP, crates=CRATES):
        self.top, self.crates = top, crates
        self.items = read_public(top, crates)
        self.definitions, self.by_name = read_all(top, crates)
        self.types = [item for item in self.items if item.kind in ("model", "trait")]

    def keys(self, names):
        """Returns the definitions with these full names. Names of other libraries are skipped."""
        return {self.by_name[name].key for name in names if name in self.by_name}

    def named(self, item, labels=None):
        """Returns the definitions that the clauses of a contract name, without laws: nobody has to read a proof."""
        keys = self.keys(named(item.words(labels), item.near))
        return {key for key in keys if self.definitions[key].kind != "law"}

    def of_type(self, name, crate):
        """Returns the models or traits with this name, of the crate if it has any, and otherwise of all crates."""
        found = [item for item in self.types if item.name == name]
        return [item for item in found if item.crate == crate] or found

    def all_from(self, keys):
        """Returns these definitions and all that they reach, also by way of the models of types."""
        found, waiting = set(), list(keys)
        while waiting:
            key = waiting.pop()
            if key in found:
                continue
            found.add(key)
            waiting += self.definitions[key].uses
            for name in self.definitions[key].types:
                for item in self.of_type(name.rsplit(".", 1)[1], name.split(".")[1]):
                    waiting += self.named(item)
        return found

    def of_item(self, item, labels=None):
        """Returns all definitions that the clauses with these labels reach, or all clauses and the types in the signature."""
        keys = self.named(item, labels)
        for word in item.signature if labels is None else ():
            for other in self.of_type(word, item.crate):
                keys |= self.named(other)
        return self.all_from(keys)

    def public(self):
        """Returns all definitions that public contracts reach."""
        return set().union(*map(self.of_item, self.items))

    def in_contracts(self, but=None):
        """Returns all definitions that public or private contracts reach, of all crates or of all but one."""
        crates = [crate for crate in all_crates(self.top) if crate != but]
        return self.all_from(self.keys(set().union(*(cited(self.top, crate) for crate in crates))))

    def lines(self, keys):
        """Counts the lines of these definitions."""
        return sum(len(self.definitions[key].lines) for key in keys)

    def answers(self, questions=QUESTIONS):
        """Maps the letter of each question to the definitions that its contract reaches."""
        items = {(item.crate, item.name): item for item in self.items}
        return {letter: self.of_item(items[crate, name], labels) for letter, _, crate, name, labels, _ in questions}
