#!/usr/bin/env python3
"""Tests the package `sources` on small texts, and the errors of the scripts that use it on made-up crates and pages.

usage: tests/sources_cases.py   (prints each difference, and last `N passed, M failed`; the exit status is 1 if one failed)
"""
import contextlib
import os
import sys
import tempfile
from types import SimpleNamespace

import borders
from bodies import Check
from harness import count, counts
from pages import astray
from sources import code, definitions, edits, files, markdown, names, public, sizes, users
from sources.reach import Reach
from trusted import HEADS, borrowed, headless, misplaced, too_long


def defined(what, name, value):
    return f"\n-- a number is {what}\nabbrev pub {name} : ℕ → Type 0\n{name} n = {value}\n"


CODE = """//! A comment doesn't count {
#![tactic(auto)]
ghost use Rattle.made.specs.Plain.{IsSaid, IsSeen, Shown};
ghost use Rattle.made.specs.Devices.Steps.{IsStep, IsTurn};
mod inner;
pub use inner::{
    Deep, Low,
};
use std::env;

#[derive(Drop)]
pub struct Bag {
    pub size: usize, // in bytes }
    text: Text,
}
impl<'a, T: Shows<T>> Model for &'a Bag {
    ghost Value = { Shown };
    ghost view = { λ b. record { size = IsStep b.size } };
}
impl Bag {
    #[inline]
    pub fn size(&self) -> usize
        requires { 0 < self.size }
        ensures exact { IsSeen self.size
            → record { size = result } ≡ self }
    {
        self.size
    }
    fn hidden(&self) -> Text {
        ensures("https://a.example")
    }
}
pub trait Shows: Drop {
    fn shown(&self, bag: &Bag) -> usize
        ensures { result ≡ 0 }
    {
        0
    }
    ghost sound: { IsSeen 0 };
}

pub fn says(bag: &Bag, n: usize) -> usize
    ensures said { IsSaid result }
{
    step(n)
}

#[cycle(step)]
pub(crate) const fn step(n: usize) -> usize
    ensures { IsStep result }
{
    n
}
"""
ITEMS = "mod inner, pub use inner, use std, pub struct Bag, impl Model Bag, impl Bag, pub trait Shows, pub fn says, fn step"
# The files of a crate with this code.
MADE = {
    "lib.rt": "mod code;\npub mod laws;\npub use code::{Bag, Low, Shows};\npub use other::Far;\n\npub fn root() {}\n",
    "code.rt": CODE,
    "code/inner.rt": "impl Bag {\n    pub fn more() {}\n}\nimpl Shows for Bag {}\nimpl Drop for Bag {}\npub fn Low() {}\n",
    "laws.rt": "pub fn law()\n    ensures { IsSaid 0 }\n{\n}\n\nfn own() {}\n",
    "tests/bag.rt": "ghost use Rattle.made.Plain.{IsLarge};\nfn a()\n    ensures { IsLarge }\n{\n}\n",
}
TREES = """-- ---- Trees ----
use Rattle.made.specs.declared.bag.Bag.{Bag}

mutual
  -- A tree
  -- has leaves.
  pub data Tree : Type 0 where
    leaf : ℕ → Tree

  -- a law
  few : Tree
    → Tree

unfoldable mutual
  pub leaves : Tree → ℕ
  -- few
  leaves t = record { few = t; }

pub record Root (t : Tree) : Type 0 where
  pub few : Bag
pub left : ℕ
"""
# The kind of each definition, its number of lines, whether it is public, and what it uses. A comment or a field's name isn't a use.
FOREST = {
    "Tree": ("data", 5, True, set()),
    "few": ("law", 3, False, {"Tree"}),
    "leaves": ("function", 4, True, {"Tree"}),
    "Root": ("record", 2, True, {"Tree", "Bag"}),
    "left": ("law", 1, True, set()),
}
PAGE = """# The `gate`, and more
[`A`](B.md#the-gate-and-more), [`Bag::size`, `Bag`](../crates/made/src/bag.rt) and ![C](c.png), [D](https://d.example).
```
[in code](no.md)
first     made/src/bag.rt     what it does
```
| What | Contracts |
|---|---|
| a \\| b | [`Bag::size`](../crates/made/src/bag.rt): `exact`, `few`; `shown` and `kept`: `told` |
| | `alone`: `told` |
<!-- part by tests/pages.py -->
old
<!-- end of part -->
End.
"""
# The text of an edit after its first line, and the functions that it changes, or why it can't be applied.
EDITS = {
    "says": ("old:     step(n)\nnew:         self.size\n", {"says"}),
    "size": ("old:         self.size\nnew:         0\n", {"size"}),
    "same": ("old: pub fn size(\nnew: pub fn size(\n", {"size"}),
    "cycle": ("old: const fn step\nnew: fn step\n", {None}),
    "field": ("old: text: Text,\nnew: text: u8,\n", {None}),
    "both": ("old: fn hidden\nnew: fn is_hidden\nold: fn shown\nnew: fn is_shown\n", {"hidden", "shown"}),
    "in-turn": ("old: pub fn says(bag: &Bag, n: usize)\nnew: pub fn says()\nold: n: usize\nnew: n: u8\n", {"says", None}),
    "twice": ("old: n: usize\nnew: n: u8\n", "an old text stands in src/lib.rt 2 times, and not once"),
    "absent": ("old: self.shape\nnew: 0\n", "an old text stands in src/lib.rt 0 times, and not once"),
    "no-file": ("file: src/no.rt\nold: a\nnew: b\n", "there is no file src/no.rt"),
    "new-first": ("new: 0\nold: step(n)\n", "a line 'new:' has no 'file:' and 'old:' before it"),
    "no-old": ("old: step(n)\nnew: n\nnew: 0\n", "a line 'new:' has no 'file:' and 'old:' before it"),
    "empty": ("old: self.size\n", "it has no pair of lines 'old:' and 'new:'"),
    "error": ("error: private-field\nold:         self.size\nnew:         self.text\n", {"size"}),
}
HEAD, SHARED_HEAD = HEADS.values()

SHOWN = "\npub record Shown : Type 0 where\n  pub size : ℕ\n"
PLAIN = "-- What is said.\nuse Rattle.std.specs.Prelude.{◌≤◌, ℕ}\n" + defined("said", "IsSaid", "IsSmall n")
PLAIN += defined("small", "IsSmall", "n ≤ 9") + defined("seen", "IsSeen", "n ≤ 1") + SHOWN
STEPS = HEAD + "\nuse Rattle.made.specs.Plain.{IsSmall}\n" + defined("a step", "IsStep", "IsSmall n")
# A private contract of a higher crate that names a definition of `made`.
UPPER = "ghost use Rattle.made.specs.{0}.{{{1}}};\n\nfn above(n: usize) -> usize\n    ensures {{ {1} result }}\n{{\n    n\n}}\n"
SHARED = STEPS.replace(HEAD, SHARED_HEAD).replace("IsStep", "IsLeap")
STEPPING = SHARED.replace("Plain.{IsSmall}", "Devices.Steps.{IsStep}").replace("IsSmall n", "IsStep n")
LEAPS = {"shared": SHARED, "upper": ("Shared.Leaps", "IsLeap")}
EXTRA = defined("large", "IsLarge", "9 ≤ n")
GROUP = "\nabbrev mutual\n  -- a number is a turn\n  pub IsTurn : ℕ → Type 0\n  IsTurn n = IsSmall n\n"
USES = PLAIN.replace("n ≤ 9", "IsStep n").replace("ℕ}\n", "ℕ}\nuse Rattle.made.specs.Devices.Steps.{IsStep}\n")
LEAPING = PLAIN.replace("n ≤ 9", "IsLeap n").replace("ℕ}\n", "ℕ}\nuse Rattle.made.specs.Shared.Leaps.{IsLeap}\n")
BAGS = PLAIN.replace("n ≤ 9", "Bag").replace("ℕ}\n", "ℕ}\nuse Rattle.made.specs.declared.code.Bag.{Bag}\n")
REACHED = "says is public and reaches the device"
# A name, the parts of the crate that differ, and a part of each expected error.
CASES = (
    ("nothing is wrong", {"most": 6}, []),
    ("a public contract reaches a device", {"public": "IsStep"}, [REACHED, "Plain.IsSaid stands in specs/"]),
    ("a public contract reaches one of a group", {"public": "IsTurn", "steps": STEPS + GROUP}, [REACHED, "Plain.IsSaid stands in"]),
    ("nothing public reaches a definition", {"plain": PLAIN + EXTRA}, ["Plain.IsLarge stands in specs/"]),
    ("no contract names a device", {"steps": STEPS + EXTRA}, ["Devices.Steps.IsLarge is a device that no contract reaches"]),
    ("a definition names a device", {"plain": USES}, [REACHED]),
    ("a file of devices doesn't say so", {"steps": STEPS.replace(HEAD, "-- Steps.")}, ["doesn't begin with"]),
    ("another crate names what is shared", LEAPS, []),
    ("another crate names a device", {"upper": ("Devices.Steps", "IsStep")}, ["upper/src/lib.rt names a device of made"]),
    ("definitions of another crate name a device", {"upper_plain": USES}, ["upper/specs/Plain.antt names a device of made"]),
    ("no other crate names what is shared", {"shared": SHARED}, ["Shared.Leaps.IsLeap is shared, and no contract of another"]),
    ("what is shared names a device", {**LEAPS, "shared": STEPPING}, ["Shared.Leaps.IsLeap is shared and names the device"]),
    ("a public contract reaches what is shared", {**LEAPS, "plain": LEAPING}, ["says is public and reaches the shared"]),
    ("a shared file doesn't say so", {**LEAPS, "shared": SHARED.replace(SHARED_HEAD, "-- Leaps.")}, ["doesn't begin with"]),
    ("there is more to read than may be", {"most": 5}, ["takes 6 lines of definitions, more than 5"]),
    ("the types of a signature are more to read", {"most": 7, "labels": None}, ["takes 8 lines of definitions, more than 7"]),
    ("a type in a definition is more to read", {"most": 7, "plain": BAGS}, ["takes 8 lines of definitions, more than 7"]),
)
# A cell of a table, and the expected errors.
SAYS = "[`says`](../crates/made/src/code.rt)"
CELLS = (
    (f"{SAYS}: `said`", []),
    (f"{SAYS}: `said`, `seen`", ["docs/PAGE.md cites seen of says, which lacks it"]),
    (f"{SAYS}: `said`; `step`: `said`", ["docs/PAGE.md cites said of step, which lacks it"]),
    (f"{SAYS}: `said`; `Bag::size`: `said`", ["docs/PAGE.md cites said of size, which lacks it"]),
    (f"[`Bag`, `code`, `shown`, `Bug`]({SAYS[9:]}", ["docs/PAGE.md links Bug to crates/made/src/code.rt, which lacks it"]),
    ("[`IsSmall`](../crates/made/specs/Plain.antt)", []),
    ("[`size`](../crates/made/specs/Plain.antt)", ["docs/PAGE.md links size to crates/made/specs/Plain.antt, which lacks it"]),
    ("[a](#a-page) [b](PAGE.md#b)", ["docs/PAGE.md links PAGE.md#b, and no heading there has this name"]),
    ("[a](NO.md) ![b](https://b.example/b.png)", ["docs/PAGE.md links NO.md, which isn't there"]),
)
# The root of a library, the code of its module, and the types that it has to re-export and doesn't.
BORDERS = (
    ("mod a;\npub use a::A;\n", "use low::{Low, Far};\n\npub struct A {\n    pub low: Low,\n    far: Far,\n}\n", ["Low"]),
    ("mod a;\npub use a::A;\npub use low::Low;\n", "use low::Low;\n\npub struct A {\n    pub low: Low,\n}\n", []),
    ("mod a;\npub use a::A;\npub use low::Shown;\n", "use low::Shown;\n\npub fn A(a: Shown) {\n}\n", ["Low"]),
)
# A line, an exit status and a verdict of `rt check`, and whether they prove the crate and reject a wrong `size` in code/inner.rt.
CHECKS = (
    ("logic=proved low", 0, "proved", (True, False)),
    ("fn made::code::Bag::size: not proved: goal 1", 1, "not-proved", (False, True)),
    ("fn made::code::inner::size: no proof", 1, "not-proved", (False, True)),
    ("fn made::code::Bag::size: not proved: it calls step", 1, "not-proved", (False, False)),
    ("fn made::other::Bag::size: not proved: goal 1", 1, "not-proved", (False, False)),
    ("fn made::code::Bag::step: not proved: goal 1", 1, "not-proved", (False, False)),
    ("fn made::code::Bag::size: not proved: goal 1", 2, "not-proved", (False, False)),
    ("logic=proved low", 1, "not-known", (False, False)),
)
# What a check prints, its exit status, and whether the compiler refuses an edit of a file as it has to.
PRIVATE = "src/code/inner.rt:6:5: error[private-field]: field `text` of struct `Bag` is private\n"
ERRORS = (
    (PRIVATE, 1, True),
    ("logic=proved low\n" + PRIVATE * 2, 1, True),
    (PRIVATE, 0, False),
    (PRIVATE + "logic=not-proved made\n", 1, False),
    (PRIVATE + PRIVATE.replace("inner", "outer"), 1, False),
    (PRIVATE + PRIVATE.replace("private-field", "unknown-name"), 1, False),
    (PRIVATE.replace("private-field", "unknown-name"), 1, False),
    ("logic=proved made\n", 0, False),
)


@contextlib.contextmanager
def made(texts):
    """Creates a folder with files of these texts, given by their paths."""
    with tempfile.TemporaryDirectory() as top:
        for path, text in texts.items():
            files.write(text, top, path)
        yield top


def code_cases():
    here = code.read(CODE)
    size, hidden, shown, says, step = here.functions
    found = [" ".join(filter(None, ("pub" * one.is_public, one.kind, one.trait, one.name))) for one in here.items]
    count("items", ", ".join(filter(None, found)), ITEMS)
    count("lines", [(one.first, one.last) for one in (here.items[5], size, step)], [(12, 15), (22, 28), (49, 53)])
    count("attributes", [size.attributes, step.attributes], [["#[inline]"], ["", "#[cycle(step)]"]])
    count("heads", [size.head, hidden.head], ["pub fn size(&self) -> usize", "fn hidden(&self) -> Text"])
    exact = "IsSeen self.size\n        → record { size = result } ≡ self"
    count("clauses", [size.clauses, hidden.clauses], [[("", "0 < self.size"), ("exact", exact)], []])
    ghosts = [one.clauses[0] for item in here.items for one in item.members if not one.kind]
    count("ghost members", ghosts, [("Value", "Shown"), ("view", "λ b. record { size = IsStep b.size }"), ("sound", "IsSeen 0")])
    count("uses", list(here.uses()), [("inner", ["Deep", "Low"]), ("std", ["env"])])
    count("public uses", list(here.uses(only_public=True)), [("inner", ["Deep", "Low"])])
    signatures = [text for item in here.items[5:10] for text in item.signatures()]
    count("signatures", signatures, ["pub size: usize", size.head, shown.head, says.head])
    count("an enum's signature", code.read("pub enum A {\n    B(C),\n}\n").items[0].signatures(), ["pub enum A {\n    B(C),\n}"])
    count("comments", code.uncommented('a // b\n"https://c" //\n// d'), 'a \n"https://c" \n')
    count("a brace in a literal", [one.name for one in code.read("fn a() {\n    '{'\n}\n\nfn b() {}\n").items], ["a", "b"])
    count("bad code", [(one.kind, one.name) for one in code.read("so it is;\nfn without_end() {\n").items], [("", "")])


def names_cases():
    text = "ghost use Rattle.made.Plain.{IsSaid, IsSeen as Seen};\npub use Rattle.made.Lib.{◌≤◌}\nuse crate::Rattle.{No};\n"
    near = {"IsSaid": "Rattle.made.Plain.IsSaid", "Seen": "Rattle.made.Plain.IsSeen", "◌≤◌": "Rattle.made.Lib.◌≤◌"}
    count("imports", names.imports(text), near)
    count("words", names.words("(λ a. IsSaid a.size ≤ [Kind.One], b:)"), {"a", "IsSaid", "≤", "Kind", "One", "b"})
    count("named", names.named({"a", "≤", "Seen"}, near), {near["◌≤◌"], near["Seen"]})
    count("named in part", names.named({"if", "then"}, {"if◌then◌else◌": "Rattle.if◌then◌else◌"}), set())


def definitions_cases():
    library = {"crates/made/specs/Lib.antt": "pub mod B\n-- pub mod C\npub mod A\n"}
    with made(library | {"crates/made/specs/Devices/Trees.antt": TREES}) as top:
        found, by_name = definitions.read_all(top, ["made"])
        order = [os.path.basename(path) for path in definitions.reading_order(top, "made")]
        count("reading order", [order, definitions.reading_order(top, "none")], [["B.antt", "A.antt"], []])
    uses = {one.name: {key.split(".")[-1] for key in (*one.uses, *one.types)} for one in found.values()}
    got = {one.name: (one.kind, len(one.lines), one.is_public, uses[one.name]) for one in found.values()}
    count("definitions", got, FOREST)
    count("devices", {(one.is_device, one.is_shared, one.is_private) for one in found.values()}, {(True, False, True)})
    count("full names", set(by_name), {f"Rattle.made.specs.Devices.Trees.{name}" for name in [*FOREST, "leaf"]})
    comments = [definitions.comment(lines) for lines in (TREES.splitlines()[3:], ["pub left : ℕ", "-- later"])]
    count("comments of definitions", comments, ["A tree has leaves.", ""])


def public_cases():
    with made({f"crates/made/src/{path}": text for path, text in MADE.items()}) as top:
        found = public.read_public(top, ["made"])
        cited = {name.split(".")[-1] for name in public.cited(top, "made")}
        count("names cited", cited, {"IsSaid", "IsSeen", "IsStep", "Shown"})
    law, model, size, shows, more, _, low = found
    kinds = "function law, model Bag, function Bag::size, trait Shows, function Bag::more, impl Shows for Bag, function Low"
    count("public items", ", ".join(f"{one.kind} {one.name}" for one in found), kinds)
    count("words of some clauses", size.words(["", "other"]), {"0", "<", "self"})
    count("words of clauses", [model.words(), shows.words()], [{"Shown"}, {"result", "≡", "0", "IsSeen"}])
    count("words of a signature", size.signature, {"pub", "fn", "size", "self", "usize", "Bag"})
    count("imports of an item", [shows.near["IsSeen"], more.near], ["Rattle.made.specs.Plain.IsSeen", {}])
    with made({"crates/tool/src/main.rt": "pub fn main()\n    ensures { IsSaid 0 }\n{\n}\n"}) as top:
        count("the root of a program", [one.name for one in public.read_public(top, ["tool"])], ["main"])


def edits_cases():
    texts = {f"crates/made/{edits.GATE}/{name}.edit": f"file: src/lib.rt\n{text}" for name, (text, _) in EDITS.items()}
    changes = {}
    with made(texts | {"crates/made/src/lib.rt": CODE, f"crates/made/{edits.GATE}/no.txt": ""}) as top:
        listed = [edits.names_of("made", folder, top) for folder in (edits.GATE, edits.TWINS)]
        count("names of edits", listed, [sorted(EDITS), []])
        for name, (_, wanted) in EDITS.items():
            try:
                changes[name] = edits.Change("made", edits.GATE, name, top)
                count(f"edit {name}", {function for _, function in changes[name].functions}, wanted)
            except edits.BadEdit as why:
                count(f"edit {name}", str(why), wanted)
    count("edits that change nothing", [name for name, change in changes.items() if change.changes_nothing], ["same"])
    count("error of an edit", [changes[name].error for name in ("size", "error")], [None, "private-field"])
    count("lines of an edit", changes["both"].lines, {("src/lib.rt", 29), ("src/lib.rt", 34)})
    found = edits.rounds(changes.values())
    rounds = [["says", "same"], ["size"], ["cycle"], ["field"], ["both"], ["in-turn"], ["error"]]
    count("rounds", [[change.name for change in members] for members, _ in found], rounds)
    wanted = [CODE.replace("    step(n)", "        self.size"), CODE.replace("        self.size", "        0")]
    count("texts of rounds", [texts["src/lib.rt"] for _, texts in found[:2]], wanted)


def markdown_cases():
    with made({"docs/PAGE.md": PAGE}) as top:
        page = markdown.Page(top, "docs/PAGE.md")
    path = "crates/made/src/bag.rt"
    count("links", page.links(), ["B.md#the-gate-and-more", f"../{path}", "c.png", "https://d.example", f"../{path}"])
    count("linked names", list(page.linked_names()), [(path, "Bag::size"), (path, "Bag"), (path, "Bag::size")])
    count("anchors", page.anchors(), {"the-gate-and-more"})
    count("rows", [row[0] for row in page.rows()], ["What", "---", "a \\| b", ""])
    count("citations", list(page.cites()), [(path, "size", ["exact", "few"]), (path, "shown", ["told"]), (path, "kept", ["told"])])
    count("calls", page.calls(), [(path, "first")])
    count("marks", page.lacks(["part", "no"]), ["<!-- no by tests/pages.py -->", "<!-- end of no -->"])
    count("a part", page.with_parts({"part": "new"}), PAGE.replace("\nold\n", "\nnew\n"))


def users_cases():
    texts = {
        "lib": "mod bag;\nmod low;\npub use bag::Bag;\n",
        "bag": "//! A bag. Used by other crates, and here by `bag/inner` and\n//! `row`.\nuse crate::low::{self, Low};\n",
        "bag/inner": "//! Inside.\nuse super::super::low::few;\nuse super::Bag;\n",
        "low": "//! Low. Used by `row`.\nghost use Rattle.made.specs.Plain.{IsSaid};\n",
        "row": "//! A row.\nuse crate::bag::{\n    Bag,\n};\nuse std::mem;\n",
        "tests": "use crate::row::Row;\n",
    }
    with made({f"crates/made/src/{name}.rt": text for name, text in texts.items()}) as top:
        found = users.users(top, "made")
        count("users", found, {"bag": {"other crates", "row"}, "bag/inner": set(), "low": {"bag", "bag/inner"}, "row": set()})
        wrong = [error.partition(" ")[0] for error in users.unsaid(top, "made")]
        count("users that aren't said", wrong, [f"crates/made/src/{name}.rt" for name in ("bag", "low")])


def files_cases():
    numbers = {"src/lib.rt": 3, "src/tests.rt": 1, "src/tests/a.rt": 2, "specs/Plain.antt": 4, "specs/Devices.antt": 1}
    numbers |= {"specs/Shared/A.antt": 4, "proofs/a/A.antt": 2, f"{edits.APART}/a.edit": 3, f"{edits.TWINS}/b.edit": 0}
    texts = {f"crates/made/{path}": "a\n" * number for path, number in numbers.items()}
    with made(texts | {"crates.txt": "# A comment.\nmade staticlib: low lower\n\nlow:\n", "crates/no.txt": ""}) as top:
        count("sizes", [sizes.size(top, "made", folder, pattern) for _, folder, pattern in sizes.KINDS], [3, 3, 4, 5, 2, 0, 1, 1])
        count("crates", [name for name, _ in sizes.all_sizes(top)], [*files.CRATES, "made"])
        found = [os.path.basename(path) for path in files.files(top, "made", "src", ".rt")]
        count("files", found, ["lib.rt", "tests.rt", "a.rt"])
        count("crates.txt", files.listed_crates(top), {"made": "made staticlib: low lower", "low": "low:"})


def reported(public="IsSaid", plain=PLAIN, steps=STEPS, labels=("said",), most=None, shared=None, upper=None, upper_plain=None):
    """Returns the errors of trusted.py in a crate with these parts, and in a higher one."""
    texts = {
        "made/src/lib.rt": "mod code;\npub use code::{Bag, Shows, says};\n",
        "made/src/code.rt": CODE.replace("IsSaid result", f"{public} result"),
        "made/specs/Plain.antt": plain,
        "made/specs/Devices/Steps.antt": steps,
        "made/specs/Shared/Leaps.antt": shared,
        "upper/src/lib.rt": upper and UPPER.format(*upper),
        "upper/specs/Plain.antt": upper_plain,
    }
    with made({f"crates/{path}": text for path, text in texts.items() if text}) as top:
        reach = Reach(top, ("made",))
        questions = (("Q", "a saying", "made", "says", labels, most),) if most else ()
        return [*misplaced(reach), *borrowed(reach), *headless(reach), *too_long(reach, questions)]


def script_cases():
    for name, parts, wanted in CASES:
        lines = reported(**parts)
        found = [next((line for line in lines if part in line), None) for part in wanted]
        count(name, lines, found if len(lines) == len(wanted) else wanted)
    texts = {os.path.join(folder, "README.md"): "" for folder in markdown.FOLDERS}
    texts |= {"crates/made/src/code.rt": CODE, "crates/made/specs/Plain.antt": PLAIN}
    for cell, wanted in CELLS:
        with made(texts | {"docs/PAGE.md": f"# A page\n| What | Contracts |\n|---|---|\n| it says so | {cell} |\n"}) as top:
            count(cell, list(astray(top)), wanted)
    low = "mod a;\npub use a::{Low, Shown};\n", "pub struct Low {}\n\npub trait Shown {\n    fn shown(&self) -> Low;\n}\n"
    for root, code, wanted in BORDERS:
        texts = zip(("low/src/lib.rt", "low/src/a.rt", "high/src/lib.rt", "high/src/a.rt"), (*low, root, code))
        with made({f"crates/{path}": text for path, text in texts}) as top:
            lines = [line.split(",")[0] for line in borders.checked(top, ("low", "high")) if line]
            count(f"{root}{code}", lines, [f"high names {name}" for name in wanted])
    files = {"src/code/inner.rt": ""}
    change = SimpleNamespace(crate="made", functions={("src/code/inner.rt", "size")}, is_in_one_function=lambda: True, error=None)
    for line, status, verdict, wanted in CHECKS:
        check = Check(status, f"{line}\nlogic={verdict} made\n")
        count(f"{line}, {status}", (check.is_proved, check.refuses(change)), wanted)
    for output, status, wanted in ERRORS:
        found = Check(status, output).refuses(SimpleNamespace(error="private-field", before=files))
        count(f"{output}, {status}", found, wanted)


def main():
    first = code_cases, names_cases, definitions_cases, public_cases, edits_cases
    for cases in (*first, markdown_cases, users_cases, files_cases, script_cases):
        cases()
    print(f"{counts['passed']} passed, {counts['failed']} failed")
    return 1 if counts["failed"] else 0


if __name__ == "__main__":
    sys.exit(main())
