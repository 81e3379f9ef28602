#!/usr/bin/env python3
"""Writes README.md of a release, and makes all its pages complete in themselves: a link to a file that it lacks becomes its text.

usage: tools/release_pages.py FOLDER VERSION   (each .md file below the folder is rewritten in place)

README.md is tools/release.md, and then what the README.md of the checkout says of proofs, limits and trust.
"""
import os
import re
import sys

TOP = os.path.dirname(os.path.dirname(os.path.abspath(__file__)))
SECTIONS = ('## What "proved" means', "## Limits", "## What is trusted")
# A link, and a block of code, in which there are none.
LINK = re.compile(r"^```.*?^```$|(?<!!)\[([^\]]*)\]\(([^)\s]+)\)", re.MULTILINE | re.DOTALL)


def unlinked(text, folder):
    """The text of a page in this folder, without links to files that aren't there."""

    def kept(match):
        name, target = match.groups()
        if target is None or re.match(r"\w+:|#", target) or os.path.exists(os.path.join(folder, target.partition("#")[0])):
            return match.group()
        return name

    return LINK.sub(kept, text)


def text_of(*path):
    with open(os.path.join(*path), encoding="utf-8") as page:
        return page.read()


def write(text, *path):
    with open(os.path.join(*path), "w", encoding="utf-8") as page:
        page.write(text)


def readme(version):
    sections = re.split(r"^(?=## )", text_of(TOP, "README.md"), flags=re.MULTILINE)
    chosen = [section for section in sections if section.startswith(SECTIONS)]
    if len(chosen) != len(SECTIONS):
        raise SystemExit(f"release_pages.py: README.md lacks one of {', '.join(SECTIONS)}")
    return text_of(TOP, "tools", "release.md").replace("VERSION", version) + "".join(chosen)


def main():
    if len(sys.argv) != 3:
        print(__doc__, file=sys.stderr)
        return 2
    top, version = sys.argv[1:]
    write(readme(version), top, "README.md")
    for folder, _, names in os.walk(top):
        for name in names:
            if name.endswith(".md"):
                write(unlinked(text_of(folder, name), folder), folder, name)
    return 0


if __name__ == "__main__":
    sys.exit(main())
