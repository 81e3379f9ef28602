#!/usr/bin/env python3
"""What `make setup` installs, by stand-ins of all that it looks for, and what comes of a test that leaves something out.

usage: tests/setup.py

Prints each difference, and last a line `N passed, M failed`; the status is 1 where any failed.
"""
import os
import re
import shutil
import subprocess
import sys
import tempfile

import machines
from harness import HERE, TOP, count, counts, written

SETUP = os.path.join(TOP, "tools", "setup.sh")
TOOLS = ("grep", "sh", "xargs")
# The packages whose tools are stood in for, all but those that python3 looks for.
TOOLS_OF = {
    "git": ["git"],
    "gcc": ["gcc"],
    "g++": ["g++"],
    "mypy": ["mypy"],
    "cargo": ["cargo"],
    "rust-clippy": ["cargo-clippy"],
    "pkg-config": ["pkg-config"],
    "nodejs": ["node"],
    "binaryen": ["wasm-opt"],
    "esbuild": ["esbuild"],
    "chromium": ["chromium"],
    "firefox-esr": ["firefox-esr"],
    "postgresql-postgis": ["psql"],
    "xxd": ["xxd"],
    "parallel": ["parallel"],
    "zsh": ["zsh"],
    "man-db": ["man"],
    "mandoc": ["mandoc"],
    "valgrind": ["valgrind"],
    "gdb": ["gdb"],
}
# Writes down its words. A package that it installs is a link to `there`, for each of its tools; what BROKEN names comes to nothing.
APT_GET = """#!/bin/sh
echo "$(id -u) ${DEBIAN_FRONTEND-} $*" >> "$CALLS"
[ "${FAILS-}" != "$5" ] || exit 100
while read -r package tools; do
    case " $* " in
    *" $package "*) for tool in $tools; do [ "$package" = "${BROKEN-}" ] || ln -sf there "$BIN/$tool"; done ;;
    esac
done < "$BIN/packages"
"""
SUDO = '#!/bin/sh\necho "sudo $*" >> "$CALLS"\nUSER_ID=0 exec "$@"\n'
STAND_INS = {"there": "#!/bin/sh\necho it is here\n", "id": '#!/bin/sh\necho "${USER_ID-0}"\n', "apt-get": APT_GET, "sudo": SUDO}
# Tests that leave all out without these tools, which come before anything that takes time or needs a build.
WITHOUT = ("web.py", "release.py", "publish.py", "page.py")
# What a line says that tells of something left out.
SAYS = re.compile(r"""\bprint\(.*(is missing|not tried|isn't tried|left out)""")


class Machine:
    """A folder that is all of PATH, with a stand-in for each tool but those of some packages."""

    def __init__(self, folder, missing, stand_ins=STAND_INS):
        self.folder = machines.only_coreutils(folder)
        for tool in TOOLS:
            os.symlink(shutil.which(tool), os.path.join(folder, tool))
        os.remove(os.path.join(folder, "id"))
        for name, text in stand_ins.items():
            os.chmod(written(folder, name, text.encode()), 0o755)
        for name in ["find", "python3", *(tool for package, tools in TOOLS_OF.items() if package not in missing for tool in tools)]:
            os.symlink("there", os.path.join(folder, name))
        written(folder, "packages", "".join(f"{package} {' '.join(tools)}\n" for package, tools in TOOLS_OF.items()).encode())

    def setup(self, **environment):
        """The status, the output, the error and the calls of apt-get and sudo."""
        calls = written(self.folder, "calls", b"")
        words = {"PATH": self.folder, "BIN": self.folder, "CALLS": calls, **environment}
        done = subprocess.run([SETUP], capture_output=True, text=True, env=words)
        with open(calls, encoding="utf-8") as told:
            return done.returncode, done.stdout, done.stderr, told.read().splitlines()


def last_words(call):
    """The packages that a call installs."""
    return call.partition("--no-install-recommends ")[2].split()


def installs(folder):
    """Only what is missing is installed, and once."""
    wanted = ["binaryen", "firefox-esr", "zsh"]
    machine = Machine(os.path.join(folder, "some"), wanted)
    status, out, error, calls = machine.setup()
    count("some are missing", (status, out, error), (0, f"Installing by apt-get: {' '.join(wanted)}\n", ""))
    count("the calls of apt-get", [call.split()[-1] for call in calls[:1]] + [last_words(call) for call in calls[1:]], ["update", wanted])
    count("they ask nothing", [call.startswith("0 noninteractive ") and " --yes " in call for call in calls[1:]], [True])
    count("nothing is missing", machine.setup(), (0, "Nothing is missing.\n", "", []))
    machine = Machine(os.path.join(folder, "all"), TOOLS_OF)
    status, _, _, calls = machine.setup()
    # Without gcc nobody knows whether it finds the headers.
    count("all are missing", (status, last_words(calls[-1])), (0, [*list(TOOLS_OF)[:2], "libc6-dev", *list(TOOLS_OF)[2:]]))
    machine = Machine(os.path.join(folder, "user"), wanted)
    status, _, error, calls = machine.setup(USER_ID="1000")
    said = [call.split()[:2] for call in calls]
    count("another user", (status, error, said[::2]), (0, "", [["sudo", "apt-get"], ["sudo", "env"]]))


def fails(folder):
    """Whatever goes wrong is said, and the status is 1."""
    kept = {name: text for name, text in STAND_INS.items() if name != "apt-get"}
    status, _, error, _ = Machine(os.path.join(folder, "no apt-get"), ["gdb", "zsh"], kept).setup()
    count("no apt-get", (status, "no apt-get" in error, "zsh gdb" in error), (1, True, True))
    kept = {name: text for name, text in STAND_INS.items() if name != "sudo"}
    status, _, error, calls = Machine(os.path.join(folder, "no sudo"), ["gdb"], kept).setup(USER_ID="1000")
    count("no sudo", (status, "root has to install" in error, calls), (1, True, []))
    status, _, error, calls = Machine(os.path.join(folder, "no network"), ["gdb"]).setup(FAILS="update")
    count("no new lists", (status, "apt-get update failed" in error, len(calls)), (0, True, 2))
    status, _, error, _ = Machine(os.path.join(folder, "no package"), ["gdb"]).setup(FAILS="install")
    count("no package", (status, "couldn't install" in error), (1, True))
    status, _, error, _ = Machine(os.path.join(folder, "broken"), ["gdb", "zsh"]).setup(BROKEN="zsh")
    count("a broken package", (status, "still not found: zsh\n" in error), (1, True))


def left_out(folder):
    """A test that leaves something out says so; and fails where CI=true, where that isn't to be."""
    path = machines.only_coreutils(os.path.join(folder, "nothing else"))
    kept = {name: value for name, value in os.environ.items() if name != "CI"}
    for name in WITHOUT:
        for ci, status in ((None, 0), ("", 0), ("true", 1)):
            environment = kept | {"PATH": path} | ({} if ci is None else {"CI": ci})
            done = subprocess.run([sys.executable, os.path.join(HERE, name)], capture_output=True, text=True, env=environment)
            count(f"tests/{name}, CI={ci}", (done.returncode, "is missing: apt-get install " in done.stdout), (status, True))
    for name in sorted(os.listdir(HERE)):
        if name.endswith(".py"):
            with open(os.path.join(HERE, name), encoding="utf-8") as source:
                count(f"tests/{name} says that only by left_out", [row for row in source if SAYS.search(row)], [])


def in_ci(folder):
    """CI runs the tests, and says what it leaves out."""
    calls, make = os.path.join(folder, "calls"), "#!/bin/sh\necho \"$* ${CI-}\" >> \"$CALLS\"\n[ \"$1\" != \"${FAILS-}\" ]\n"
    os.chmod(written(folder, "make", make.encode()), 0o755)
    kept = os.environ | {"CI": "true", "PATH": f"{folder}:{os.environ['PATH']}", "CALLS": calls}
    for fails, status in (("", 0), ("test", 1)):
        written(folder, "calls", b"")
        done = subprocess.run([os.path.join(TOP, ".ci", "run")], env=kept | {"FAILS": fails})
        with open(calls, encoding="utf-8") as told:
            count(f".ci/run, {fails} fails", (done.returncode, told.read()), (status, "test \n"))


def main():
    with tempfile.TemporaryDirectory() as folder:
        installs(folder)
        fails(folder)
        left_out(folder)
        in_ci(folder)
    print(f"{counts['passed']} passed, {counts['failed']} failed")
    return int(counts["failed"] > 0)


if __name__ == "__main__":
    sys.exit(main())
