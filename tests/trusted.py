#!/usr/bin/env python3
"""Counts the lines of definitions that public contracts use, and checks that each definition is in the right folder.

usage: tests/trusted.py [--strict]   (--strict also checks the pages, like tests/pages.py)

Prints the lines of each crate, and the lines that a user has to read for some contracts. Errors go to standard error, and the exit
status is then 1:
- a public contract reaches a device or a shared definition, or takes more lines than it may
- no public contract reaches another definition in specs/
- no contract reaches a device, or no contract of another crate reaches a shared definition
- a shared definition names a device
- code or a definition names a device of another crate
- a file of devices or shared definitions lacks its first line
"""
import os
import re
import sys

import pages
from sources.definitions import DEVICES, SHARED
from sources.files import all_crates, files, text_of
from sources.reach import QUESTIONS, Reach

# The first line of each file in these folders.
HEADS = {
    DEVICES: "-- Devices of proofs: nothing public names them.",
    SHARED: "-- Shared between crates: private contracts alone name them, here and in crates above.",
}
# A mention of the devices of a crate.
DEVICE_OF = re.compile(rf"\b(\w+)(?:\.|::)specs(?:\.|::){DEVICES}\b")


def misplaced(reach):
    """Yields an error for each definition in the wrong folder."""
    public, contracts = reach.public(), reach.in_contracts()
    sharing = {one.crate for one in reach.definitions.values() if one.is_shared}
    elsewhere = {crate: reach.in_contracts(but=crate) for crate in sharing}
    for item in reach.items:
        for key in sorted(key for key in reach.of_item(item) if reach.definitions[key].is_private):
            kind = "device" if reach.definitions[key].is_device else "shared definition"
            yield f"{item.crate}: {item.name} is public and reaches the {kind} {key}"
    for key, one in reach.definitions.items():
        if not one.is_private and key not in public:
            yield f"{key} stands in specs/, and no public contract reaches it"
        elif one.is_device and key not in contracts:
            yield f"{key} is a device that no contract reaches: it belongs to proofs/"
        elif one.is_shared and key not in elsewhere[one.crate]:
            yield f"{key} is shared, and no contract of another crate reaches it: it belongs to specs/{DEVICES}/"
        for used in sorted(one.uses if one.is_shared else ()):
            if reach.definitions[used].is_device:
                yield f"{key} is shared and names the device {used}"


def borrowed(reach):
    """Yields an error for each file of code or definitions that names a device of another crate."""
    for crate in all_crates(reach.top):
        for path in (*files(reach.top, crate, "src", ".rt"), *files(reach.top, crate, "specs")):
            for owner in sorted(set(DEVICE_OF.findall(text_of(path))) - {crate, "crate"}):
                yield f"{os.path.relpath(path, reach.top)} names a device of {owner}: it belongs to specs/{SHARED}/ there"


def headless(reach):
    """Yields an error for each file of devices or shared definitions without its first line."""
    for crate in reach.crates:
        for folder, head in HEADS.items():
            for path in files(reach.top, crate, os.path.join("specs", folder)):
                if text_of(path).partition("\n")[0].strip() != head:
                    yield f"{os.path.relpath(path, reach.top)} doesn't begin with {head!r}"


def too_long(reach, questions=QUESTIONS):
    """Yields an error for each contract that takes more lines than it may."""
    answers = reach.answers(questions)
    for letter, name, *_, most in questions:
        lines = reach.lines(answers[letter])
        if lines > most:
            yield f"{name} takes {lines} lines of definitions, more than {most}"


def counts(reach):
    """Returns the rows of the printed table."""
    public, answers = reach.public(), reach.answers()
    private = {key for key, one in reach.definitions.items() if one.is_private}
    rows = [("crate", "public", "devices")]
    for crate in reach.crates:
        own = {key for key, one in reach.definitions.items() if one.crate == crate}
        rows.append((crate, reach.lines(own & public), reach.lines(own & private)))
    rows.append(("all", sum(row[1] for row in rows[1:]), sum(row[2] for row in rows[1:])))
    return rows + [(name, reach.lines(answers[letter]), "") for letter, name, *_ in QUESTIONS]


def main():
    reach = Reach()
    for name, lines, devices in counts(reach):
        print(f"{name:<20}{lines:>8}{devices:>10}".rstrip())
    wrong = [*misplaced(reach), *borrowed(reach), *headless(reach), *too_long(reach)]
    if "--strict" in sys.argv:
        wrong += [*pages.stale(reach), *pages.astray()]
    for line in wrong:
        print(line, file=sys.stderr)
    return 1 if wrong else 0


if __name__ == "__main__":
    sys.exit(main())
