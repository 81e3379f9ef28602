#!/usr/bin/env python3
"""Compares what states a version with the file VERSION: the packages, the header, the library, the page, the manual page, the docs
and the list of changes.

usage: tests/versions.py   (after `make library`, as tests/bindings.py builds it too)

Without gcc the header's numbers and the library's answer aren't looked at, which a line says. Prints each difference, and last a
line `N passed, M failed`; the status is 1 where any failed.
"""
import os
import re
import shutil
import subprocess
import sys
import tempfile

from harness import TOP, bundler, count, counts, left_out, written

LIBRARY = os.path.join(TOP, "build", "bindings")
# The files that state a version, each with a pattern of the text around it.
STATED = {
    "bindings/c/twkb.h": r'^#define TWKB_VERSION "(.*)"$',
    "bindings/c/twkb.pc": r"^Version: (.*)$",
    "bindings/python/pyproject.toml": r'^version = "(.*)"$',
    "bindings/python/dozhemik/_library.py": r'^VERSION = "(.*)"$',
    "bindings/rust/Cargo.toml": r'^version = "(.*)"$',
    "README.md": r"Version (\d+\.\d+\.\d+)",
    "docs/twkb_tool.1": r'^\.TH .* "Dozhemik (.*)" .*$',
    "docs/USAGE.md": r"dozhemik-(\d.*?)-x86_64",
    "docs/BINDINGS.md": r"dozhemik-(\d.*?)-py3",
}
# The heading of a version in the list of changes: it has the day on which the version was published, or says that it isn't.
NEWEST = r"^## (.*) - (?:\d{4}-\d\d-\d\d|not published)$"
# Prints the version of the header, by its numbers and as a text, and the library's.
PROGRAM = r"""
#include "twkb.h"
#include <stdio.h>

int main(void) {
    printf("%d.%d.%d %s %s\n", TWKB_VERSION_MAJOR, TWKB_VERSION_MINOR, TWKB_VERSION_PATCH, TWKB_VERSION, twkb_version());
    return 0;
}
"""


def text_of(path):
    with open(os.path.join(TOP, path), encoding="utf-8") as file:
        return file.read()


def stated(version):
    for path, form in STATED.items():
        count(path, set(re.findall(form, text_of(path), re.MULTILINE)), {version})
    count("CHANGELOG.md: the newest", re.findall(NEWEST, text_of("CHANGELOG.md"), re.MULTILINE)[:1], [version])


def of_the_library(version, folder):
    if not shutil.which("gcc"):
        left_out("gcc is missing: apt-get install gcc libc6-dev; the library isn't asked for its version")
        return
    source, program = written(folder, "version.c", PROGRAM.encode()), os.path.join(folder, "version")
    words = ["gcc", "-std=c11", "-Wall", "-Wextra", "-Werror", f"-I{TOP}/bindings/c", source]
    for how, rest in (("static", [os.path.join(LIBRARY, "libtwkb.a")]), ("shared", [f"-L{LIBRARY}", "-ltwkb", f"-Wl,-rpath,{LIBRARY}"])):
        done = subprocess.run([*words, *rest, "-o", program], capture_output=True, text=True)
        count(f"building over the library, {how}", (done.returncode, done.stderr), (0, ""))
        if done.returncode == 0:
            told = subprocess.run([program], capture_output=True, text=True).stdout
            count(f"header and library, {how}", told.split(), [version] * 3)


def of_the_package(version):
    environment = os.environ | {
        "PYTHONPATH": os.path.join(TOP, "bindings", "python"),
        "TWKB_LIBRARY": os.path.join(LIBRARY, "libtwkb.so"),
        "PYTHONDONTWRITEBYTECODE": "1",
    }
    words = [sys.executable, "-c", "import dozhemik; print(dozhemik.__version__)"]
    done = subprocess.run(words, capture_output=True, text=True, env=environment)
    count("the package for Python", (done.stdout, done.stderr), (f"{version}\n", ""))


def of_the_page(version, folder):
    """The page says its version in its text, whatever module is in it."""
    page = os.path.join(folder, "page.html")
    maker = os.path.join(TOP, "bindings", "web", "make_page.py")
    done = subprocess.run([sys.executable, maker, written(folder, "none.wasm", b""), page], capture_output=True, text=True)
    count("making a page", (done.returncode, done.stderr), (0, ""))
    # make_page.py says why the page isn't in UTF-8. Python knows no letter for some bytes of its compressed parts.
    with open(page, encoding="cp1252", errors="replace") as file:
        footer = re.search(r"<footer>.*</footer>", file.read(), re.DOTALL)
    count("the page's footer", re.findall(r"Dozhemik (\d\S*), commit ", footer[0]), [version])


def main():
    version = text_of("VERSION").removesuffix("\n")
    count("three numbers", bool(re.fullmatch(r"\d+\.\d+\.\d+", version)), True)
    stated(version)
    of_the_package(version)
    with tempfile.TemporaryDirectory() as folder:
        of_the_library(version, folder)
        bundler(os.path.join(folder, "stand-ins"))
        of_the_page(version, folder)
    print(f"{counts['passed']} passed, {counts['failed']} failed")
    return int(counts["failed"] > 0)


if __name__ == "__main__":
    sys.exit(main())
