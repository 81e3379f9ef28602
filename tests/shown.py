#!/usr/bin/env python3
"""Runs what pages show: commands and what they print, and samples in C and Python with what they print in comments.

usage: tests/shown.py [PROGRAM]   (build/twkb_tool if it is left out; build/bindings is built)

A command is an indented line after `$`, and the lines below it are what it has to print; `...` stands for any lines. It runs in a folder
with the program in PATH and in build/, and with the examples. Commands that need a database are left to publish.py. Prints each
difference, and last a line `N passed, M failed`; the status is 1 where any failed.
"""
import os
import re
import shutil
import subprocess
import sys
import tempfile

from harness import TOP, count, counts, left_out

PAGES = ["README.md", os.path.join("docs", "USAGE.md"), os.path.join("docs", "BINDINGS.md"), os.path.join("bindings", "c", "README.md")]
COMMAND = re.compile(r"^    \$ (.*)\n((?:    (?!\$ ).*\n)*)", re.MULTILINE)
SAMPLE = re.compile(r"^```(c|python)\n(.*?)^```$", re.MULTILINE | re.DOTALL)
# What a sample prints, after the call that prints it.
PRINTS = {"c": re.compile(r"printf\(.*\);\s+/\* (.*) \*/"), "python": re.compile(r"print\(.*\)\s+# (.*)")}
DATABASE = re.compile(r"publish_layer\.sh|PGDATABASE")


def text_of(page):
    path = os.path.join(TOP, page)
    if not os.path.exists(path):
        return ""
    with open(path, encoding="utf-8") as file:
        return file.read()


def is_like(printed, shown):
    """Whether lines are what a page shows, in which `...` stands for any lines."""
    parts = [re.escape(line) + "\n" if line != "..." else "(?:.*\n)*" for line in shown]
    return re.fullmatch("".join(parts), printed) is not None


def commands(page, folder, environment):
    for command, lines in COMMAND.findall(text_of(page)):
        if not DATABASE.search(command):
            done = subprocess.run(["sh", "-c", command], cwd=folder, env=environment, capture_output=True, text=True, timeout=600)
            shown = [line[4:] for line in lines.splitlines()]
            count(f"{page}: {command}", is_like(done.stdout, shown) or done.stdout + done.stderr, True)


def samples(page, folder, environment):
    for number, (language, text) in enumerate(SAMPLE.findall(text_of(page))):
        shown = PRINTS[language].findall(text)
        if not shown:
            continue
        path = os.path.join(folder, f"sample_{number}.{'c' if language == 'c' else 'py'}")
        with open(path, "w", encoding="utf-8") as file:
            file.write(text)
        words = [sys.executable, path]
        if language == "c":
            words = [path.removesuffix(".c")]
            flags = ["-std=c11", "-Wall", "-Wextra", "-Werror", f"-I{TOP}/bindings/c"]
            built = ["gcc", *flags, path, os.path.join(TOP, "build", "bindings", "libtwkb.a"), "-o", *words]
            done = subprocess.run(built, capture_output=True, text=True)
            count(f"{page}: the sample in C compiles", (done.returncode, done.stderr), (0, ""))
        done = subprocess.run(words, cwd=folder, env=environment, capture_output=True, text=True)
        count(f"{page}: the sample in {language}", (done.returncode, done.stdout.splitlines(), done.stderr), (0, shown, ""))


def main():
    program = os.path.abspath(sys.argv[1] if len(sys.argv) > 1 else os.path.join(TOP, "build", "twkb_tool"))
    if not shutil.which("gcc"):
        left_out("gcc is missing: apt-get install gcc libc6-dev; nothing that pages show is run")
        return 0
    with tempfile.TemporaryDirectory() as folder:
        os.mkdir(os.path.join(folder, "build"))
        shutil.copy(program, os.path.join(folder, "build", "twkb_tool"))
        os.symlink(os.path.join(TOP, "examples"), os.path.join(folder, "examples"))
        environment = os.environ | {
            "PATH": f"{folder}/build:{os.environ['PATH']}",
            "PYTHONPATH": os.path.join(TOP, "bindings", "python"),
            "TWKB_LIBRARY": os.path.join(TOP, "build", "bindings", "libtwkb.so"),
            "PYTHONDONTWRITEBYTECODE": "1",
        }
        for page in PAGES:
            commands(page, folder, environment)
            samples(page, folder, environment)
    print(f"{counts['passed']} passed, {counts['failed']} failed")
    return int(counts["failed"] > 0)


if __name__ == "__main__":
    sys.exit(main())
