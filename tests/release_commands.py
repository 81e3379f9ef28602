"""Runs what the README of a release shows: its commands, with the programs that it has for languages, and its server. For tests/release.py."""
import json
import os
import re
import shutil
import subprocess
import sys
from urllib.request import urlopen

import machines
from harness import count, left_out, written

TOOLS = {
    "gcc": "apt-get install gcc libc6-dev",
    "pkg-config": "apt-get install pkg-config",
    "cargo": "apt-get install cargo",
    "node": "apt-get install nodejs",
}
# Commands that a machine with a shell, coreutils and python3 can't run.
BEYOND = re.compile(r"\b(gcc|cargo|node|demo\.sh)\b|\./app\b")
# Each program has a name, and then its text in a block.
PROGRAMS = re.compile(r"This program is `(\S+)`:\n\n```\w+\n(.*?)^```$", re.MULTILINE | re.DOTALL)
# By pip the wheel is installed, and without it unpacked.
PIP, UNPACKS = re.compile(r"python3 -m pip .*"), re.compile(r"`(python3 -m zipfile -e [^`]+)`")
LAYER, BOX, HITS = "examples/coast_lines_sized.twkb", "10,35,30,45", 44


def text_of(*path):
    with open(os.path.join(*path), encoding="utf-8") as file:
        return file.read()


def commands_of(page):
    """Each command, with the lines that it is said to print; none if the page shows none."""
    found = []
    for line in re.findall(r"^    (.*)$", re.sub(r"^```.*?^```$", "", page, flags=re.MULTILINE | re.DOTALL), re.MULTILINE):
        if line.startswith("$ "):
            found.append((line[2:], []))
        else:
            found[-1][1].append(line)
    return found


def script_of(place, commands):
    """Runs them one after another in one shell, with a line after each that has its status."""
    return "\n".join([f"cd '{place}' || exit", *(f"{command}\necho \"<$?>\"" for command, _ in commands)]) + "\n"


def compared(where, commands, out, error):
    """What each command printed, and its status."""
    parts = re.split(r"<(\d+)>\n", out)
    got = list(zip(parts[0::2], parts[1::2]))
    count(f"{where}: how many commands ran", len(got), len(commands))
    for (command, lines), (told, status) in zip(commands, got):
        told = told.splitlines() if lines else []
        count(f"{where}: {command}\n{error}", (told, status), (lines, "0"))


def here(release, folder):
    """All commands, on this machine."""
    missing = [tool for tool in TOOLS if not shutil.which(tool)]
    if missing:
        left_out(f"{missing[0]} is missing: {TOOLS[missing[0]]}; the commands of the release's README aren't run")
        return
    place, home = shutil.copytree(release, os.path.join(folder, "of README"), symlinks=True), os.path.join(folder, "home")
    os.mkdir(home)
    page = text_of(place, "README.md")
    commands, programs = commands_of(page), PROGRAMS.findall(page)
    count("commands and programs of README", (len(commands) > 10, [name for name, _ in programs]), (True, ["app.c", "app.mjs"]))
    for name, text in programs:
        written(place, name, text.encode())
    # Where `make web` left no module, tests/release.py has said so.
    if not os.path.getsize(os.path.join(place, "web", "twkb_web.wasm")):
        commands = [one for one in commands if not one[0].startswith("node ")]
    # Rust's own tools look for their parts in the old home.
    homes = {name: os.environ.get(name, os.path.expanduser(f"~/{part}")) for name, part in (("CARGO_HOME", ".cargo"), ("RUSTUP_HOME", ".rustup"))}
    path = f"{os.path.dirname(sys.executable)}:{os.environ['PATH']}"
    environment = os.environ | homes | {"HOME": home, "PATH": path, "PIP_DISABLE_PIP_VERSION_CHECK": "1", "PIP_ROOT_USER_ACTION": "ignore"}
    done = subprocess.run(["sh", "-c", script_of(place, commands)], capture_output=True, text=True, env=environment)
    compared("README", commands, done.stdout, done.stderr)
    serves(place)


def there(root, release):
    """What a machine without compilers can run. It has no pip."""
    page = text_of(root + release, "README.md")
    unpacks = UNPACKS.search(page)[1]
    commands = [(PIP.sub(unpacks, command), lines) for command, lines in commands_of(page) if not BEYOND.search(command)]
    _, out, error = machines.run(root, "sh", "-c", script_of(release, commands), HOME="/root")
    compared("README there", commands, out, error)


def serves(place):
    """The server answers over the package that the commands have put in its folder."""
    environment = os.environ | {"PYTHONPATH": os.path.join(place, "python")}
    words = [sys.executable, "examples/serve.py", LAYER, "0"]
    with subprocess.Popen(words, cwd=place, env=environment, stdout=subprocess.PIPE, text=True, stderr=subprocess.DEVNULL) as server:
        address = re.search(r"http://\S+", server.stdout.readline())
        hits = None
        if address:
            with urlopen(f"{address[0]}/scan?bbox={BOX}", timeout=60) as answer:
                hits = len(json.load(answer)["hits"])
        server.terminate()
    count("serve.py", hits, HITS)
