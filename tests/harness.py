"""What the end-to-end tests share: runs of the program, layers in files, and the count of what passed and failed."""
import os
import shutil
import subprocess

HERE = os.path.dirname(os.path.abspath(__file__))
TOP = os.path.dirname(HERE)

counts = {"passed": 0, "failed": 0}


def count(name, got, wanted):
    if got == wanted:
        counts["passed"] += 1
    else:
        counts["failed"] += 1
        print(f"{name}\n  wanted {wanted}\n  got    {got}")


def left_out(why):
    """Says what isn't tried here and what brings it. Where a machine has to try everything (CI=true) that is a failure."""
    print(why)
    counts["failed"] += os.environ.get("CI") == "true"


def bundler(folder):
    """Where esbuild is missing, a stand-in is there, which makes nothing shorter."""
    if not shutil.which("esbuild"):
        left_out("esbuild is missing: apt-get install esbuild; the page's scripts aren't bundled")
        os.mkdir(folder)
        os.chmod(written(folder, "esbuild", b'#!/bin/sh\ncat "$1"\n'), 0o755)
        os.environ["PATH"] = f"{folder}:{os.environ['PATH']}"


def run(words, stdout=subprocess.PIPE, **options):
    """Status, standard output and standard error. Signals stay ignored, so that a write fails and doesn't kill."""
    done = subprocess.run(words, stdout=stdout, stderr=subprocess.PIPE, timeout=60, restore_signals=False, **options)
    return (done.returncode, done.stdout, done.stderr)


def answered(text):
    """What a run gives that ends with this text: status 1 where the text refuses the layer, else 0."""
    return (int(text.startswith("no ")), text.encode(), b"")


def fault(text, status=3, stdout=b""):
    return (status, stdout, b"twkb_tool: " + text + b"\n")


def written(folder, name, data):
    path = os.path.join(folder, name)
    with open(path, "wb") as file:
        file.write(data)
    return path


def table(name):
    """The rows of a file of the tests, each by its columns; the first line names them."""
    with open(os.path.join(HERE, name)) as rows:
        next(rows)
        return [row.rstrip("\n").split("\t") for row in rows]
