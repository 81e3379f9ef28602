#!/usr/bin/env python3
"""Installs into a folder and takes it away again; reads the manual page, and completes words in the shells that are there.

usage: tests/install.py   (after `make build`; the shells are bash and zsh, the manual is read by man and mandoc)

Prints each difference, and last a line `N passed, M failed`; the status is 1 where any failed.
"""
import os
import shutil
import subprocess
import sys
import tempfile

from harness import TOP, count, counts, left_out

PAGE = os.path.join(TOP, "docs", "twkb_tool.1")
INSTALLED = {
    "bin/twkb_tool": ("build/twkb_tool", 0o755),
    "share/man/man1/twkb_tool.1": ("docs/twkb_tool.1", 0o644),
    "share/bash-completion/completions/twkb_tool": ("completions/twkb_tool.bash", 0o644),
    "share/zsh/site-functions/_twkb_tool": ("completions/_twkb_tool", 0o644),
}
READERS = {"man": "apt-get install man-db", "mandoc": "apt-get install mandoc"}
COMMANDS = ["check", "help", "list", "scan"]


def make(target, folder, prefix):
    # As a program that is built already: what is told to stay old isn't made.
    words = ["make", "--no-print-directory", "-o", "build", target, f"DESTDIR={folder}", f"PREFIX={prefix}"]
    return subprocess.run(words, cwd=TOP, capture_output=True, text=True)


def files_below(folder):
    return sorted(os.path.join(at, name) for at, _, names in os.walk(folder) for name in names)


def content(path):
    with open(path, "rb") as file:
        return file.read()


def installs(folder, prefix):
    other = os.path.join(folder, "other")
    with open(other, "w"):
        pass
    below = folder + prefix
    done = make("install", folder, prefix)
    count(f"make install, {prefix}", (done.returncode, done.stderr), (0, ""))
    wanted = [other, *(os.path.join(below, path) for path in INSTALLED)]
    count(f"what is installed, {prefix}", files_below(folder), sorted(wanted))
    for path, (source, rights) in INSTALLED.items():
        installed = os.path.join(below, path)
        count(f"installed {path}", content(installed) == content(os.path.join(TOP, source)), True)
        count(f"rights of {path}", os.stat(installed).st_mode & 0o777, rights)
    layer = os.path.join(TOP, "examples", "points_sized.twkb")
    ran = subprocess.run([os.path.join(below, "bin", "twkb_tool"), "check", layer], capture_output=True)
    count("the installed program", (ran.returncode, ran.stdout), (0, b"ok blobs=2286 vertices=2286\n"))
    for attempt in ("first", "second"):
        done = make("uninstall", folder, prefix)
        count(f"make uninstall, {attempt}", (done.returncode, done.stderr), (0, ""))
        count(f"what is left, {attempt}", files_below(folder), [other])


def manual():
    """A reader that has something to say of the page says it on standard error, and mandoc on standard output."""
    for words in (["man", "--warnings", "-l", PAGE], ["mandoc", "-T", "lint", PAGE]):
        if shutil.which(words[0]) is None:
            left_out(f"{words[0]} is missing: {READERS[words[0]]}; the manual page isn't read by it")
            continue
        done = subprocess.run(words, capture_output=True, text=True, env=os.environ | {"MANPAGER": "cat", "LC_ALL": "C.UTF-8"})
        said = done.stderr if words[0] == "man" else done.stdout + done.stderr
        count(" ".join(words[:-1]), (done.returncode, said), (0, ""))


def completed_by_bash(words, folder):
    script = (
        f'source "{TOP}/completions/twkb_tool.bash" && COMP_WORDS=("$@") && COMP_CWORD=$(($# - 1)) && _twkb_tool'
        ' && printf "%s\\n" "${COMPREPLY[@]}"'
    )
    done = subprocess.run(["bash", "-c", script, "bash", *words], cwd=folder, capture_output=True, text=True)
    return sorted(filter(None, done.stdout.split("\n"))) if done.returncode == 0 else done.stderr


def in_bash(folder):
    completed = [
        (["twkb_tool", ""], ["--help", *COMMANDS]),
        (["twkb_tool", "l"], ["list"]),
        (["twkb_tool", "list", ""], ["a layer.twkb", "another.twkb"]),
        (["twkb_tool", "scan", "an"], ["another.twkb"]),
        (["twkb_tool", "scan", "another.twkb", ""], ["x="]),
        (["twkb_tool", "check", "another.twkb", ""], []),
        (["twkb_tool", "check", "-"], ["--tight"]),
        (["twkb_tool", "check", "another.twkb", "--"], ["--tight"]),
        (["twkb_tool", "check", "--tight", "an"], ["another.twkb"]),
        (["twkb_tool", "help", ""], COMMANDS),
        (["twkb_tool", "help", "sc"], ["scan"]),
        (["twkb_tool", "help", "scan", ""], []),
        (["twkb_tool", "list", "-"], ["--help"]),
        (["twkb_tool", "list", "--tight"], []),
        (["twkb_tool", "scan", "--h"], ["--help"]),
        (["twkb_tool", "list", "another.twkb", "-"], []),
    ]
    for words, wanted in completed:
        count(f"bash: {words}", completed_by_bash(words, folder), wanted)


def in_zsh(folder):
    """A zsh at a terminal of its own is given keys, and the line that it has then is looked at."""
    completed = [
        ("twkb_tool l\t", "twkb_tool list "),
        ("twkb_tool scan ano\t", "twkb_tool scan another.twkb "),
        ("twkb_tool check a\\ l\t", "twkb_tool check a\\ layer.twkb "),
        ("twkb_tool check another.twkb x\t", "twkb_tool check another.twkb x"),
        ("twkb_tool check --t\t", "twkb_tool check --tight "),
        ("twkb_tool check --tight ano\t", "twkb_tool check --tight another.twkb "),
        ("twkb_tool help l\t", "twkb_tool help list "),
        ("twkb_tool help a\t", "twkb_tool help a"),
        ("twkb_tool help list a\t", "twkb_tool help list a"),
        ("twkb_tool list -\t", "twkb_tool list --help "),
        ("twkb_tool scan -\t", "twkb_tool scan --help "),
        ("twkb_tool list --ti\t", "twkb_tool list --ti"),
    ]
    for keys, wanted in completed:
        with open(os.path.join(folder, ".keys"), "w") as file:
            file.write(keys)
        done = subprocess.run(["zsh", "-f", "-c", ZSH, "zsh", f"{TOP}/completions"], cwd=folder, capture_output=True, text=True)
        os.remove(os.path.join(folder, ".keys"))
        count(f"zsh: {keys!r}", done.stdout.rstrip("\n"), wanted)


# The inner shell prints its line between two marks when it is given control and x.
ZSH = r"""
zmodload zsh/zpty
zpty inner zsh -f -i
zpty -w inner "PS1= PROMPT= RPROMPT=; fpath=($1 \$fpath); autoload -U compinit; compinit -u -D
tell() { print -r -- \"<<\$BUFFER>>\" }; zle -N tell; bindkey '^X' tell; print ready"
zpty -r -m inner line '*ready*'
sleep 0.3
zpty -w -n inner "$(<.keys)"$'\x18'
zpty -r -m inner line '*<<*>>*'
line=${line##*<<}
print -r -- "${line%%>>*}"
zpty -d inner
"""


def completions():
    with tempfile.TemporaryDirectory() as folder:
        for name in ("a layer.twkb", "another.twkb"):
            with open(os.path.join(folder, name), "w"):
                pass
        for shell, trial in (("bash", in_bash), ("zsh", in_zsh)):
            if shutil.which(shell) is None:
                left_out(f"{shell} is missing: apt-get install {shell}; its completions aren't tried")
            else:
                trial(folder)


def main():
    for prefix in ("/usr/local", "/opt/a folder"):
        with tempfile.TemporaryDirectory() as folder:
            installs(folder, prefix)
    manual()
    completions()
    print(f"{counts['passed']} passed, {counts['failed']} failed")
    sys.exit(counts["failed"] > 0)


main()
