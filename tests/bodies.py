#!/usr/bin/env python3
"""Tries wrong bodies, which the prover has to reject, and their twins, which it has to accept (docs/EVIDENCE.md).

usage: tests/bodies.py apply|apart|twins [--only WORD] [--untwinned] [CRATE ..]   (all crates if none is named)

apply   checks that all wrong bodies and twins can be applied: each old text is in its file exactly once, and the file changes
apart   tries the wrong bodies in must-fail-apart/, which the gate leaves out
twins   tries the twins, and prints how many wrong bodies have none; --untwinned also prints the names of these

`apart` and `twins` run the kit's `rt check` on a copy of the crates, with the proofs that earlier checks kept. One check tries many
changes, in different functions. If it doesn't confirm a change, that change is tried again alone. A wrong body that names an error
has to be refused by the compiler, with this error and no other. Each change gets an output line.
--only WORD skips names without the word. The last line is `N passed, M failed`, and the exit status is 1 if a change failed or if
there was none.
"""
import argparse
import os
import re
import shutil
import signal
import subprocess
import sys
import tempfile

from sources.edits import APART, GATE, TWINS, BadEdit, Change, names_of, rounds
from sources.files import TOP, all_crates, listed_crates, text_of, write

# A line about a function that isn't proved, except if the first reason is a function that it calls.
ELSEWHERE = r"it calls|it passes|a call of|in `\S+`, of this cycle"
UNPROVED = re.compile(rf"^fn (\S+): (?:not proved|no proof)(?!: (?:{ELSEWHERE}))", re.MULTILINE)
# An error of the compiler, with its file and its name.
ERROR = re.compile(r"^(\S+?\.rt):\d+:\d+: error\[([\w-]+)\]", re.MULTILINE)


class Check:
    """The result of `rt check` for a crate, by its exit status and its output."""

    def __init__(self, status, output):
        self.lines = output.splitlines()
        # The verdicts of libraries come first, and then the crate's own.
        verdict = [line.split()[0] for line in self.lines if line.startswith("logic=")][-1:]
        self.is_proved = status == 0 and verdict == ["logic=proved"]
        self.is_refused = status == 1 and verdict == ["logic=not-proved"]
        self.unproved = [name.split("::") for name in UNPROVED.findall(output)]
        self.errors = set(ERROR.findall(output)) if status == 1 and not self.is_refused else set()

    def refuses(self, change):
        """Whether the proof of the changed function fails, or any proof if the change isn't in a single function. If the compiler has
        to refuse the change, whether it does so with that error, in each of its files and nowhere else."""
        if change.error:
            return self.errors == {(file, change.error) for file in change.before}
        if not self.is_refused or not change.is_in_one_function():
            return self.is_refused and bool(self.unproved)
        ((file, function),) = change.functions
        module = file.removeprefix("src/").removesuffix(".rt").split("/")
        path = [change.crate, *([] if module in (["lib"], ["main"]) else module)]
        return any(name[-1] == function and may_be_in(name, path) for name in self.unproved)

    def told(self):
        """Returns the first errors, or the end of the output."""
        return "\n    ".join([line for line in self.lines if ": error" in line][:5] or self.lines[-3:])


def may_be_in(name, path):
    """Whether the full name of a function fits the path of a module. A method can be of a type in a module above."""
    return name[: len(path)] == path or (name[-2][:1].isupper() and name[:-2] == path[: len(name) - 2])


def checked(folder, texts):
    """Runs `rt check` in the folder of a crate with some texts of files changed, and restores them."""
    before = {file: text_of(folder, file) for file in texts}
    for file, text in texts.items():
        write(text, folder, file)
    done = subprocess.run(["rt", "check"], cwd=folder, capture_output=True, text=True, errors="replace")
    for file, text in before.items():
        write(text, folder, file)
    return Check(done.returncode, done.stdout + done.stderr)


def fault_of_body(check, change):
    """Returns an error if a wrong body wasn't rejected as it has to be."""
    if check.is_proved:
        return "NOT REFUSED: the crate is proved with it"
    return None if check.refuses(change) else f"BAD EDIT\n    {check.told()}"


def fault_of_twin(check, _):
    return None if check.is_proved else f"REFUSED\n    {check.told()}"


def twin(crate, name):
    """Reads a twin, and compares it with its wrong body."""
    wrong = [Change(crate, folder, name) for folder in (GATE, APART) if name in names_of(crate, folder)]
    if len(wrong) != 1:
        raise BadEdit(f"{len(wrong)} wrong bodies have its name, and not one")
    found = Change(crate, TWINS, name)
    if not found.lines & wrong[0].lines:
        raise BadEdit("it changes no line that the wrong body changes")
    if found.changes_nothing:
        raise BadEdit("it changes nothing")
    return found


# For each command a folder, a function that reads a change, one that returns its error after a check, and the message for none.
TRIALS = {
    "apart": (APART, lambda crate, name: Change(crate, APART, name), fault_of_body, "refused, as it must be"),
    "twins": (TWINS, twin, fault_of_twin, "checks, as it must"),
}


def copy_into(room, crates):
    """Copies crates, and those that they use, into a repository of their own."""
    listed, wanted, waiting = listed_crates(), set(), list(crates)
    while waiting:
        crate = waiting.pop()
        if crate in listed and crate not in wanted:
            wanted.add(crate)
            waiting += listed[crate].partition(":")[2].split()
    shutil.copy2(os.path.join(TOP, "HANDLES"), room)
    write("".join(line + "\n" for crate, line in listed.items() if crate in wanted), room, "crates.txt")
    for crate in wanted:
        shutil.copytree(os.path.join(TOP, "crates", crate), os.path.join(room, "crates", crate), symlinks=True)


def tried(crates, word, folder, make, fault_of):
    """Tries the changes that have a word in their names. Yields the name of each, and its error or None."""
    changes = {crate: [] for crate in crates}
    for crate, name in ((crate, name) for crate in crates for name in names_of(crate, folder) if word in name):
        try:
            changes[crate].append(make(crate, name))
        except BadEdit as why:
            yield f"{crate}/{name}", f"BAD EDIT: {why}"
    with tempfile.TemporaryDirectory(prefix="edits-") as room:
        copy_into(room, [crate for crate in crates if changes[crate]])
        for crate in (crate for crate in crates if changes[crate]):
            place = os.path.join(room, "crates", crate)
            unchanged = checked(place, {})
            if not unchanged.is_proved:
                yield f"{crate}/as it is", f"so none of its changes is tried\n    {unchanged.told()}"
                continue
            for members, texts in rounds(changes[crate]):
                check = checked(place, texts)
                for change in members:
                    fault = fault_of(check, change)
                    if fault and len(members) > 1:
                        fault = fault_of(checked(place, change.applied_to({})), change)
                    yield f"{crate}/{change.name}", fault


def applied(crates, word):
    """Applies the edits that have a word in their names. Yields the path of each, and its error or None."""
    for crate, folder in ((crate, folder) for crate in crates for folder in (GATE, APART, TWINS)):
        for name in (name for name in names_of(crate, folder) if word in name):
            try:
                fault = "it changes nothing" if Change(crate, folder, name).changes_nothing else None
            except BadEdit as why:
                fault = why
            yield f"crates/{crate}/{folder}/{name}.edit", fault


def tell_untwinned(crates, with_names):
    for crate in crates:
        wrong, twins = [name for folder in (GATE, APART) for name in names_of(crate, folder)], names_of(crate, TWINS)
        without = [name for name in wrong if name not in twins]
        if wrong:
            print(f"{crate}: {len(without)} of {len(wrong)} wrong bodies have no twin")
        for name in without if with_names else []:
            print(f"    {name}")


def main():
    parser = argparse.ArgumentParser(description="Tries wrong bodies, which the prover has to reject, and their twins.")
    parser.add_argument("what", choices=["apply", *TRIALS])
    parser.add_argument("crates", nargs="*", metavar="CRATE")
    parser.add_argument("--only", default="", metavar="WORD", help="try those with the word in their names")
    parser.add_argument("--untwinned", action="store_true", help="twins: name the wrong bodies that have no twin")
    words = parser.parse_intermixed_args()
    unknown = [crate for crate in words.crates if crate not in listed_crates()]
    if unknown:
        parser.error(f"crates.txt lists no crate {unknown[0]}")
    # So that a stopped run removes its copy.
    signal.signal(signal.SIGTERM, lambda *_: sys.exit(1))
    crates = list(dict.fromkeys(words.crates or listed_crates()))
    if words.what == "apply":
        found, well = applied(words.crates or all_crates(TOP), words.only), None
    else:
        *trial, well = TRIALS[words.what]
        found = tried(crates, words.only, *trial)
    passed = failed = 0
    for name, fault in found:
        passed, failed = passed + (not fault), failed + bool(fault)
        if fault or well:
            print(f"{name}: {fault or well}", flush=True, file=sys.stdout if well else sys.stderr)
    if words.what == "twins":
        tell_untwinned(crates, words.untwinned)
    print(f"{passed} passed, {failed} failed")
    return 1 if failed or not passed else 0


if __name__ == "__main__":
    sys.exit(main())
