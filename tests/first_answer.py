#!/usr/bin/env python3
"""How a checkout comes to a first answer: `make try`, how crates are proved side by side, and what is installed after that.

usage: tests/first_answer.py

A stand-in of rt writes down what it is asked for and proves nothing, so that this takes seconds and needs no kit. It works in a copy
of what make and tools/prove.py read. Prints each difference, and last a line `N passed, M failed`; the status is 1 where any failed.
"""
import os
import re
import shutil
import signal
import subprocess
import sys
import tempfile
import time

import machines
from harness import TOP, count, counts, written

LIBRARIES = ["refusing", "twkb_num", "twkb_head", "twkb_body", "twkb_layer"]
# A line for each crate that is begun, and for each that ended: the crate and its words. BESIDE has pairs ONE:OTHER, where ONE waits for
# OTHER to be begun. HELD names crates that wait for a file, FAILS one that isn't proved, and SLOW one that goes on until it is stopped.
# What waits in vain for half a minute fails. TRIED is the program that `try` compiles, and that reads the file of its words.
RT = """#!/bin/sh
[ "$1" != version ] || { echo a stand-in; exit; }
crate=$(basename "$PWD")
awaits() {
    for _ in $(seq 300); do
        [ ! -e "$MARKS/$1" ] || return 0
        sleep 0.1
    done
    echo "$crate waits in vain for $1"
    exit 1
}
echo "begun $crate $*" >> "$CALLS"
echo $$ > "$MARKS/writing-$crate"
mv "$MARKS/writing-$crate" "$MARKS/$crate"
for pair in ${BESIDE-}; do
    [ "${pair%:*}" != "$crate" ] || awaits "${pair#*:}"
done
for held in ${HELD-}; do
    [ "$held" != "$crate" ] || awaits "go-$crate"
done
[ "$crate" != "${SLOW-}" ] || exec sleep 1000
echo "$crate says something"
[ "$1" != run ] || { mkdir -p out && printf '#!/bin/sh\necho built $1\n' > out/twkb_tool && chmod +x out/twkb_tool; }
[ "$1 ${FAILS-}" != "try " ] || { mkdir "$TMPDIR/it" && cp "$TRIED" "$TMPDIR/it/program" && cat "$4" && rm -r "$TMPDIR/it"; }
echo "ended $crate $*" >> "$CALLS"
[ "$crate" != "${FAILS-}" ]
"""
# Answers by the name of the layer: BROKEN is one at which a sanitizer stops the program.
TRIED = """#!/bin/sh
case $1/$2 in
check/*/refused) echo "no blob=0 offset=0 kind=cut"; exit 1 ;;
check/*/unread) echo "twkb_tool: read failed" >&2; exit 3 ;;
check/*/broken) exit "${ASAN_OPTIONS#exitcode=}" ;;
check/*/killed) kill -9 $$ ;;
check/*) echo "ok $2" ;;
esac
"""


def copied(folder):
    """The parts of a checkout that count here, and a PATH with the stand-in first."""
    for name in ("Makefile", "crates.txt", "HANDLES", "tools", "examples", "bindings", "completions", "docs"):
        source = os.path.join(TOP, name)
        (shutil.copytree if os.path.isdir(source) else shutil.copy)(source, os.path.join(folder, name))
    for crate in [*LIBRARIES, "twkb_tool"]:
        os.makedirs(os.path.join(folder, "crates", crate, "src"))
    written(os.path.join(folder, "crates", "twkb_tool", "src"), "main.rt", b"")
    os.mkdir(os.path.join(folder, "bin"))
    for name, text in (("rt", RT), ("tried", TRIED)):
        os.chmod(written(os.path.join(folder, "bin"), name, text.encode()), 0o755)
    return folder


def fresh(folder, **environment):
    """An environment with the stand-in, and the folder of its marks. Nothing is called or marked yet."""
    calls, marks = os.path.join(folder, "calls"), os.path.join(folder, "marks")
    written(folder, "calls", b"")
    shutil.rmtree(marks, ignore_errors=True)
    os.mkdir(marks)
    path, tried = f"{folder}/bin:{os.environ['PATH']}", f"{folder}/bin/tried"
    return os.environ | {"PATH": path, "CALLS": calls, "MARKS": marks, "TRIED": tried, **environment}, marks


def make(folder, *words, **environment):
    """What make says, and for each call of the stand-in whether it began or ended, the crate, and its words."""
    environment, _ = fresh(folder, **environment)
    done = subprocess.run(["make", "--no-print-directory", *words], cwd=folder, capture_output=True, text=True, env=environment)
    with open(os.path.join(folder, "calls")) as told:
        return done, [tuple(row.rstrip("\n").split(" ", 2)) for row in told]


def tried(folder):
    """The first layer is checked once a program is compiled, and the others by that program. It is said that nothing is proved."""
    done, calls = make(folder, "try", FAILS="twkb_tool")
    count("make try, nothing compiles", (done.returncode, done.stdout, "twkb_tool says something" in done.stderr), (2, "", True))
    for name, status, out in (
        ("examples/coast_lines_sized.twkb", 0, f"ok {folder}/examples/coast_lines_sized.twkb\n"),
        ("a layer.twkb", 0, f"ok {folder}/a layer.twkb\n"),
        ("refused", 1, "no blob=0 offset=0 kind=cut\n"),
        ("unread", 2, ""),
        ("broken", 2, ""),
        ("killed", 2, ""),
    ):
        is_first = name.startswith("examples")
        if not is_first:
            written(folder, name, b"")
        done, calls = make(folder, "try", *([] if is_first else [f"FILE={name}"]))
        count(f"make try, {name}", (done.returncode, done.stdout), (status, out))
        count(f"what is compiled for {name}", [call[:2] for call in calls], [("begun", "twkb_tool"), ("ended", "twkb_tool")] * is_first)
        first, *others = done.stderr.splitlines()
        count(f"what is said of {name}", ("othing is proved" in first, others != []), (True, status == 2))
    done, calls = make(folder, "try", "FILE=missing.twkb")
    count("make try, a missing file", (done.returncode, calls, "missing.twkb" in done.stderr), (2, [], True))
    count("it is no proved program", os.path.exists(os.path.join(folder, "build", "twkb_tool")), False)
    written(os.path.join(folder, "crates", "twkb_tool", "src"), "main.rt", b"// Changed.\n")
    count("make try, other sources", len(make(folder, "try")[1]), 2)
    shutil.rmtree(os.path.join(folder, "build"))


def tried_when_built(folder):
    """The built program is taken, and then nothing has to be said."""
    make(folder, "build")
    done, calls = make(folder, "try")
    count("make try, built", (done.returncode, done.stdout, done.stderr, calls), (0, "built check\n", "", []))


def installed(folder):
    """What is built of other sources isn't installed. Without a kit nobody knows, which is said."""
    make(folder, "build")
    library = os.path.join(folder, "build", "bindings")
    os.makedirs(library)
    for name in ("libtwkb.so", "libtwkb.a"):
        written(library, name, b"")
    shutil.copy(os.path.join(folder, "build", "twkb_tool.sources"), os.path.join(library, "libtwkb.so.sources"))
    without_kit = machines.only_coreutils(os.path.join(folder, "coreutils"))
    for tool in ("make", "sh"):
        os.symlink(shutil.which(tool), os.path.join(without_kit, tool))

    def install(name, status, said, **environment):
        for target, what in (("install", "build"), ("install-library", "library")):
            prefix = os.path.join(folder, f"{name} {target}")
            done, _ = make(folder, target, f"PREFIX={prefix}", **environment)
            told = done.returncode, os.path.exists(prefix), said.replace("WHAT", what) in done.stderr
            count(f"make {target}, {name}", told, (status, status == 0, True))

    install("current", 0, "")
    install("without a kit", 0, "The Rattle kit is missing", PATH=without_kit)
    written(os.path.join(folder, "crates", "twkb_layer", "src"), "lib.rt", b"// Changed.\n")
    install("of other crates", 2, "isn't of these sources, so it isn't installed: make WHAT")
    os.remove(os.path.join(folder, "crates", "twkb_layer", "src", "lib.rt"))
    os.utime(os.path.join(library, "libtwkb.so"), (0, 0))
    done, _ = make(folder, "install-library", f"PREFIX={folder}/prefix")
    count("an older library", (done.returncode, "make library" in done.stderr), (2, True))
    words = [os.path.join(folder, "tools", "is_current.sh"), "missing", "Makefile"]
    count("what isn't built is not current", subprocess.run(words, cwd=folder, env=fresh(folder)[0]).returncode, 1)


def dry(folder):
    """make -n proves, tests and installs nothing."""
    for target in ("build", "install", "install-library", "test", "try", "setup"):
        done, calls = make(folder, "-n", target, f"PREFIX={folder}/prefix")
        count(f"make -n {target}", (done.returncode, done.stderr, calls), (0, "", []))
    count("what make -n leaves", [name for name in ("build", "prefix") if os.path.exists(os.path.join(folder, name))], [])


def stands_on():
    with open(os.path.join(TOP, "crates.txt")) as rows:
        found = [re.match(r"(\w+)[^:#]*:(.*)", row) for row in rows]
    return {row[1]: row[2].split() for row in found if row}


def proved(folder):
    """Each crate is proved once, after those that it uses; and those that have nothing to do with one another at once."""
    done, calls = make(folder, "build", BESIDE="refusing:twkb_num twkb_num:refusing")
    count("make build, where some wait for one another", (done.returncode, done.stderr), (0, ""))
    words = {crate: words for what, crate, words in calls if what == "begun"}
    wanted = dict.fromkeys(LIBRARIES, "lib") | {"twkb_tool": "run -- check /dev/null"}
    count("what is proved, and by which command", (words, len(calls)), (wanted, 2 * len(wanted)))
    begun, ended = ({crate: at for at, (what, crate, _) in enumerate(calls) if what == wanted} for wanted in ("begun", "ended"))
    early = [(one, other) for one in begun for other in stands_on()[one] if other in ended and begun[one] < ended[other]]
    count("what is begun too early", early, [])
    first, *_ = done.stdout.splitlines()
    count("how long it takes, said first", bool(re.search(r"some \d+ minutes", first)), True)
    count("the program is put in its place", os.path.exists(os.path.join(folder, "build", "twkb_tool")), True)
    said = subprocess.run(["make", "-n", "build", "library"], cwd=folder, capture_output=True, text=True, env=fresh(folder)[0]).stdout
    count("make build library proves what calls need", -1 < said.find("prove.py twkb_call") < said.find("bindings/build.sh"), True)
    with open(os.path.join(folder, "build", "twkb_tool.sources")) as told:
        sources = subprocess.run([os.path.join(folder, "tools", "sources.sh")], capture_output=True, text=True, env=fresh(folder)[0]).stdout
        count("which crates it is of", (told.read(), len(sources)), (sources, 65))


def side_by_side(folder, *words, **environment):
    """A run of tools/prove.py, and the folder of the stand-in's marks."""
    environment, marks = fresh(folder, **environment)
    words = [os.path.join(folder, "tools", "prove.py"), *words]
    return subprocess.Popen(words, cwd=folder, stdout=subprocess.PIPE, stderr=subprocess.PIPE, text=True, env=environment), marks


def told(folder):
    """A line each so often says how far it is, as long as a crate is being proved."""
    held = ["twkb_num", "twkb_layer"]
    run, marks = side_by_side(folder, "--every", "0.1", *LIBRARIES, HELD=" ".join(held))
    lines = []
    for row in run.stdout:
        match = re.fullmatch(r"\d+ min: (\d) of 5 proved, at work on (\w+(?: and \w+)*)", row.rstrip("\n"))
        if match:
            lines.append(int(match[1]))
            for crate in set(held) & set(match[2].split(" and ")):
                written(marks, f"go-{crate}", b"")
    _, error = run.communicate()
    count("lines of progress", (run.returncode, error, len(lines) >= 2), (0, "", True))
    count("they go on", (lines, lines[:1] < lines[-1:]), (sorted(lines), True))


def process(marks, crate):
    """The stand-in's process for a crate, once it is begun."""
    path = os.path.join(marks, crate)
    for _ in range(300):
        if os.path.exists(path):
            with open(path) as mark:
                return int(mark.read())
        time.sleep(0.1)
    return None


def is_gone(number):
    """Whether there is no such process. One that is left over is ended here."""
    try:
        os.kill(number, signal.SIGKILL)
    except ProcessLookupError:
        return True
    return False


def fails(folder):
    """A crate that isn't proved is named with what was said of it, what runs beside it is stopped, and nothing more is begun."""
    run, marks = side_by_side(folder, *LIBRARIES, FAILS="twkb_num", SLOW="refusing", BESIDE="twkb_num:refusing")
    slow = process(marks, "refusing")
    out, error = run.communicate()
    count("the slow one is begun and stopped", (slow is not None, slow is None or is_gone(slow)), (True, True))
    count("a crate that fails", (run.returncode, error), (1, "twkb_num says something\nprove.py: twkb_num isn't proved\n"))
    count("what isn't begun", [crate for crate in LIBRARIES if f"proving {crate}," in out], LIBRARIES[:2])
    done, _ = make(folder, "build", FAILS="twkb_num")
    count("make, a crate that fails", (done.returncode, "prove.py: twkb_num isn't proved" in done.stderr), (2, True))


def stopped(folder):
    """Where it is stopped, so is what it began."""
    run, marks = side_by_side(folder, "twkb_num", SLOW="twkb_num")
    slow = process(marks, "twkb_num")
    run.send_signal(signal.SIGTERM)
    run.communicate()
    count("stopped", (run.returncode, slow is not None, slow is None or is_gone(slow)), (128 + signal.SIGTERM, True, True))
    with open(os.path.join(folder, "build", "twkb_num.log")) as log:
        count("and nothing is said after that", log.read(), "")


def words_refused(folder):
    for words, said in (([], "CRATE"), (["twkb_nmu"], "crates.txt has no twkb_nmu")):
        run, _ = side_by_side(folder, *words)
        out, error = run.communicate()
        count(f"words: {words}", (run.returncode, out, said in error), (2, "", True))


def main():
    with tempfile.TemporaryDirectory() as folder:
        copied(folder)
        for part in (tried, dry, proved, told, fails, stopped, words_refused, tried_when_built, installed):
            part(folder)
    print(f"{counts['passed']} passed, {counts['failed']} failed")
    return int(counts["failed"] > 0)


if __name__ == "__main__":
    sys.exit(main())
