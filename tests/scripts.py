#!/usr/bin/env python3
"""Runs the scripts of examples/scripts on layers of which some are certified, and shows that they judge each of them, and that they
say so where they judge none.

usage: tests/scripts.py [PROGRAM]   (build/twkb_tool where it is left out)

Of the script for Spark only what it does to a layer is run, and what status it makes of many; of that for Dask only its words are
tried, with stand-ins for what it imports. Prints each difference, and last a line `N passed, M failed`; the status is 1 where any
failed.
"""
import contextlib
import io
import os
import pwd
import re
import shutil
import signal
import subprocess
import sys
import tempfile

from harness import TOP, count, counts, left_out, written

SCRIPTS = os.path.join(TOP, "examples", "scripts")
GOOD, BAD = bytes.fromhex("01000204"), bytes.fromhex("0102030204")
LAYERS = {
    "a point.twkb": (GOOD, 0, "ok blobs=1 vertices=1"),
    "deep/nothing.twkb": (b"", 0, "ok blobs=0 vertices=0"),
    "deep/size.twkb": (BAD, 1, "no blob=0 offset=2 kind=size"),
    "deep/text.twkb": (b"01000204", 1, "no blob=0 offset=0 kind=type"),
}
CERTIFIED = [name for name, (_, status, _) in LAYERS.items() if status == 0]
# What the script for Dask imports, so that its words are looked at where neither is there.
STAND_INS = {
    "distributed.py": "Client = LocalCluster = as_completed = None",
    "dozhemik.py": "BadWindow = Refused = ValueError; Window = certify = None",
}


def folder_of(names, folder):
    os.makedirs(os.path.join(folder, "deep"))
    for name in names:
        written(folder, name, LAYERS[name][0])
    with open(os.path.join(folder, "no layer.txt"), "w") as file:
        file.write("text")


def script(name, *words, path, folder=SCRIPTS, **options):
    environment = os.environ | {"PATH": f"{path}:{os.environ['PATH']}", "LC_ALL": "C"}
    done = subprocess.run([os.path.join(folder, name), *words], capture_output=True, text=True, env=environment, timeout=60, **options)
    return done.returncode, sorted(done.stdout.splitlines()), done.stderr


def all_cores(names, folder, path):
    wanted = sorted(f"{LAYERS[name][1]}\t{folder}/{name}\t{LAYERS[name][2]}" for name in names)
    status = max(LAYERS[name][1] for name in names)
    count(f"certify_all.sh: {names}", script("certify_all.sh", folder, path=path), (status, wanted, ""))


def without_program(folder):
    status, told, _ = script("certify_all.sh", folder, "/missing/twkb_tool", path="")
    count("certify_all.sh without a program", (status, len(told)), (3, len(LAYERS)))


def parallel(names, folder, path):
    log = folder + ".log"
    wanted = sorted(f"{folder}/{name}\t{LAYERS[name][2]}" for name in names)
    status = max(LAYERS[name][1] for name in names)
    count(f"certify_parallel.sh: {names}", script("certify_parallel.sh", folder, log, path=path), (status, wanted, ""))
    with open(log) as rows:
        statuses = [int(row.split("\t")[6]) for row in list(rows)[1:]]
    count(f"its log: {names}", sorted(statuses), sorted(LAYERS[name][1] for name in names))


def nothing_judged(name, folder, path, *rest):
    """Where a folder isn't there, can't be read or has no layer, that is said. A folder that is a link is looked into."""
    os.makedirs(os.path.join(folder, "empty"), exist_ok=True)
    written(os.path.join(folder, "empty"), "no layer.txt", b"text")
    os.symlink(os.path.join(folder, "layers 0"), os.path.join(folder, f"link to {name}"))
    for what, said in (("/nosuch", "not all of /nosuch can be read"), (f"{folder}/empty", f"no layer (*.twkb) is below {folder}/empty")):
        status, told, error = script(name, what, *rest, path=path)
        count(f"{name}, {what}", (status, told, said in error), (3, [], True))
    status, told, _ = script(name, f"{folder}/link to {name}", *rest, path=path)
    count(f"{name}, a link to a folder", (status, len(told)), (1, len(LAYERS)))
    for words in ([], *([["folder"]] if rest else [["folder", "program", "more"]])):
        status, told, error = script(name, *words, path=path)
        count(f"{name} {words}", (status, told, error.startswith(f"usage: {name} FOLDER")), (2, [], True))
    unreadable(name, folder, path, *rest)


def unreadable(name, folder, path, *rest):
    """A folder below, which its owner alone may read: root reads all, so nobody has to try it."""
    place = os.path.join(folder, "closed", "below")
    os.makedirs(place, exist_ok=True)
    written(os.path.dirname(place), "point.twkb", GOOD)
    written(place, "size.twkb", BAD)
    os.chmod(place, 0)
    try:
        options = {"user": pwd.getpwnam("nobody").pw_uid, "cwd": "/"} if os.geteuid() == 0 else {}
        status, told, error = script(name, os.path.dirname(place), *rest, path=path, folder=path, **options)
        count(f"{name}, a folder that can't be read", (status, told, "not all of" in error), (3, [], True))
    finally:
        os.chmod(place, 0o700)


def odd_names(folder, path):
    """Names that no row can be made with are written as strings of C, and what is no file is no layer."""
    place = os.path.join(folder, "odd")
    os.makedirs(os.path.join(place, "folder.twkb"))
    os.mkfifo(os.path.join(place, "pipe.twkb"))
    os.symlink("folder.twkb", os.path.join(place, "link to a folder.twkb"))
    for name in ("line\n0\tforged.twkb", 'quote"back\\slash.twkb', "küste.twkb"):
        written(place, name, GOOD)
    os.rename(written(place, "name", GOOD), os.path.join(os.fsencode(place), b"k\xfcste.twkb"))
    ok = LAYERS["a point.twkb"][2]
    rows = [f'0\t"{place}/line\\n0\\tforged.twkb"\t{ok}', f'0\t"{place}/quote\\"back\\\\slash.twkb"\t{ok}']
    rows += [f"0\t{place}/küste.twkb\t{ok}", f'3\t"{place}/k\\374ste.twkb"\tnot judged: the path is not UTF-8']
    count("certify_all.sh, odd names", script("certify_all.sh", place, path=path), (3, sorted(rows), ""))
    if shutil.which("parallel"):
        rows = [f'"{place}/line\\0120\\011forged.twkb"\t{ok}', f'"{place}/quote\\042back\\134slash.twkb"\t{ok}']
        rows.append(f"{place}/küste.twkb\t{ok}")
        said = f'"{place}/k\\374ste.twkb" (not UTF-8)\ttwkb_tool: cannot read words\n'
        count("certify_parallel.sh, odd names", script("certify_parallel.sh", place, place + ".log", path=path), (3, sorted(rows), said))


def told_to_end(name, folder, *rest):
    """A run that is told to end while it judges ends, and leaves no temporary file."""
    place, fifo = os.path.join(folder, f"temporary {name}"), os.path.join(folder, f"fifo {name}")
    os.mkdir(place)
    os.mkfifo(fifo)
    os.chmod(written(place, "twkb_tool", f"#!/bin/sh\necho $$ > '{fifo}'\nexec sleep 600\n".encode()), 0o755)
    environment = os.environ | {"PATH": f"{place}:{os.environ['PATH']}", "TMPDIR": place}
    words = [os.path.join(SCRIPTS, name), os.path.join(folder, "one layer"), *rest]
    run = subprocess.Popen(words, env=environment, stderr=subprocess.DEVNULL)
    with open(fifo) as said:
        judging = int(said.read())
    run.send_signal(signal.SIGTERM)
    count(f"{name}, told to end", (run.wait(60), [left for left in os.listdir(place) if left != "twkb_tool"]), (143, []))
    os.kill(judging, signal.SIGKILL)


def killed(folder, path):
    """A program that is killed, or says something else, has judged nothing."""
    stand_in = written(folder, "killed", b"#!/bin/sh\nkill -9 $$\n")
    os.chmod(stand_in, 0o755)
    status, told, _ = script("certify_all.sh", os.path.join(folder, "layers 1"), stand_in, path=path)
    count("certify_all.sh, a program that is killed", (status, len(told)), (3, len(CERTIFIED)))


def dask(folder):
    """Words of the script for Dask: no workers, and no layers."""
    place = os.path.join(folder, "stand-ins")
    os.mkdir(place)
    for name, text in STAND_INS.items():
        written(place, name, text.encode())
    environment = os.environ | {"PYTHONPATH": place}
    words = [sys.executable, os.path.join(TOP, "examples", "dask_layers.py"), "--workers"]
    empty = os.path.join(folder, "empty")
    for workers, layers, status, said in (
        ("0", "layers 0", 2, "'0' is no number from 1 on"),
        ("-1", "layers 0", 2, "'-1' is no number from 1 on"),
        ("two", "layers 0", 2, "'two' is no number from 1 on"),
        ("1", "empty", 3, f"no layer (*.twkb) is below {empty}"),
        ("1", "missing", 3, "missing"),
    ):
        done = subprocess.run([*words, workers, os.path.join(folder, layers)], capture_output=True, text=True, env=environment, timeout=60)
        count(f"dask_layers.py --workers {workers} {layers}", (done.returncode, done.stdout, said in done.stderr), (status, "", True))


def spark(program):
    sys.path.insert(0, SCRIPTS)
    import certify_spark

    for name, (data, status, line) in LAYERS.items():
        count(f"certify_spark.py: {name}", certify_spark.verdict((name, data), program), (status, name, line))
    for statuses, status in (([0], 0), ([0, 1], 1), ([1, 3], 3), ([127, 0], 3), ([-9], 3), ([], 3)):
        with contextlib.redirect_stderr(io.StringIO()) as error:
            count(f"certify_spark.py: the status of {statuses}", certify_spark.status_of(statuses), status)
        count(f"certify_spark.py: {statuses}, said", "there is no layer" in error.getvalue(), not statuses)


def rule_for_make(folder, path):
    """The rule that examples/README.md has for make: a refused layer is shown, and nothing is left of it."""
    with open(os.path.join(TOP, "examples", "README.md"), encoding="utf-8") as page:
        rule = re.search(r"^    %\.certified: .*\n(?:    \t.*\n)+", page.read(), re.MULTILINE)[0]
    place = os.path.join(folder, "made")
    os.mkdir(place)
    for name, data in (("Makefile", re.sub("^    ", "", rule, flags=re.MULTILINE).encode()), ("good.twkb", GOOD), ("bad.twkb", BAD)):
        written(place, name, data)
    environment = os.environ | {"PATH": f"{path}:{os.environ['PATH']}"}
    words = ["make", "--no-print-directory", "-k", "good.certified", "bad.certified"]
    done = subprocess.run(words, cwd=place, capture_output=True, text=True, env=environment)
    count("make, a refused layer", (done.returncode, done.stdout.splitlines()[:1]), (2, [LAYERS["deep/size.twkb"][2]]))
    count("make, what is left", sorted(os.listdir(place)), ["Makefile", "bad.twkb", "good.certified", "good.twkb"])
    with open(os.path.join(place, "good.certified")) as told:
        count("make, a certified layer", told.read(), "ok blobs=1 vertices=1\n")


def maximum_for_width(program, folder):
    """The maximum written where the width belongs, which USAGE has under two kinds: a line in X from 1 to 5, and one from -1 to 5."""
    for name, data, told in (
        ("positive", "020309020A02080202020808", ["ok blobs=1 vertices=2", "no blob=0 offset=3 kind=loose"]),
        ("negative", "020309010A02080201020C08", ["no blob=0 offset=3 kind=box"] * 2),
    ):
        layer = written(folder, f"{name}.twkb", bytes.fromhex(data))
        runs = [subprocess.run([program, "check", *words, layer], capture_output=True, text=True) for words in ([], ["--tight"])]
        count(f"the maximum for the width, {name}", [done.stdout.rstrip("\n") for done in runs], told)
    with open(os.path.join(TOP, "docs", "USAGE.md"), encoding="utf-8") as page:
        rows = {row.split("`")[1]: row for row in page if row.startswith("| `") and "the maximum written where the width belongs" in row}
    count("the kinds that it gives, in docs/USAGE.md", sorted(rows), ["box", "loose"])


def standard_input(program):
    """What docs/USAGE.md has for a layer of a pipe."""
    with open(os.path.join(TOP, "docs", "USAGE.md"), encoding="utf-8") as page:
        words = re.search(r"`twkb_tool (check /dev/stdin)`", page.read())[1].split()
    for data, status, line in LAYERS.values():
        done = subprocess.run([program, *words], input=data, capture_output=True)
        count(f"a pipe: {line}", (done.returncode, done.stdout.decode()), (status, f"{line}\n"))


def main():
    built = os.path.abspath(sys.argv[1]) if len(sys.argv) > 1 else os.path.join(TOP, "build", "twkb_tool")
    with tempfile.TemporaryDirectory() as folder:
        path = os.path.join(folder, "bin")
        os.mkdir(path)
        program = shutil.copy(built, os.path.join(path, "twkb_tool"))
        for number, names in enumerate((list(LAYERS), CERTIFIED)):
            layers = os.path.join(folder, f"layers {number}")
            folder_of(names, layers)
            all_cores(names, layers, path)
            if shutil.which("parallel"):
                parallel(names, layers, path)
            else:
                left_out("GNU parallel is missing: apt-get install parallel; its script isn't tried")
        os.mkdir(os.path.join(folder, "one layer"))
        written(os.path.join(folder, "one layer"), "point.twkb", GOOD)
        without_program(os.path.join(folder, "layers 0"))
        os.chmod(folder, 0o755)
        for name, *rest in (["certify_all.sh"], ["certify_parallel.sh", os.path.join(folder, "log")]):
            shutil.copy(os.path.join(SCRIPTS, name), path)
            if not rest or shutil.which("parallel"):
                nothing_judged(name, folder, path, *rest)
                told_to_end(name, folder, *rest)
        odd_names(folder, path)
        killed(folder, path)
        dask(folder)
        spark(program)
        rule_for_make(folder, path)
        maximum_for_width(program, folder)
        standard_input(program)
    print(f"{counts['passed']} passed, {counts['failed']} failed")
    sys.exit(counts["failed"] > 0)


main()
