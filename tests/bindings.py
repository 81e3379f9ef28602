#!/usr/bin/env python3
"""Builds the library for C, Rust and Python, and runs what calls it.

usage: tests/bindings.py [PROGRAM]   (build/twkb_tool where it is left out; rt of the kit in PATH)

Each language has a driver that takes the program's words and prints what the program prints, C another one over the archive
that the kit's second compiler makes. They run the small layers of cases.tsv, and the examples with the windows of
postgis.tsv, of which the program says what is wanted. Then come the tests of each language's own. What a language needs and
this machine lacks is named in one line, with the command that brings it, and its tests are left out. Prints each difference,
and last a line `N passed, M failed`; the status is 1 where any failed.
"""
import os
import re
import shutil
import subprocess
import sys
import tempfile

from harness import TOP, count, counts, left_out, run, table, written

BINDINGS = os.path.join(TOP, "bindings")
LIBRARY = os.path.join(TOP, "build", "bindings")
ARCHIVE = os.path.join(LIBRARY, "libtwkb.a")
SECOND = os.path.join(LIBRARY, "second", "libtwkb.a")
SHARED = os.path.join(LIBRARY, "libtwkb.so")
C = ["gcc", "-std=c11", "-Wall", "-Wextra", "-Wpedantic", "-Werror"]
CPP = ["g++", "-x", "c++", "-std=c++11", "-Wall", "-Wextra", "-Wpedantic", "-Werror"]
SANITIZED = ["-O1", "-g", "-fsanitize=address,undefined", "-fno-sanitize-recover"]
EXAMPLES = ["points_sized.twkb", "coast_lines_sized.twkb", "coast_collections.twkb", "coast_z.twkb"]
MINUTES = 10 * 60
# What each part needs, and what brings it.
NEEDS = {
    "gcc": "apt-get install gcc libc6-dev",
    "g++": "apt-get install g++",
    "valgrind": "apt-get install valgrind",
    "cargo": "apt-get install cargo",
    "cargo-clippy": "apt-get install rust-clippy",
    "pkg-config": "apt-get install pkg-config",
    "mypy": "apt-get install mypy",
}
# An interpreter that may have NumPy and pandas where the one that runs this hasn't.
DEBIANS = "/usr/bin/python3"


def has(tool):
    if shutil.which(tool):
        return True
    left_out(f"{tool} is missing: {NEEDS[tool]}; its tests are left out")
    return False


def succeeds(name, words, **options):
    """A command that judges by its status alone."""
    done = subprocess.run(words, stdout=subprocess.PIPE, stderr=subprocess.STDOUT, timeout=MINUTES, **options)
    count(name, (done.returncode, b"" if done.returncode == 0 else done.stdout[-3000:]), (0, b""))


def cases(folder):
    """Runs of the program: a name, the words with the file of the layer among them, the status and the standard output."""
    for number, (name, words, data, status, text) in enumerate(table("cases.tsv")):
        path = written(folder, f"case{number}.twkb", bytes.fromhex(data))
        yield name, words.replace("FILE", path).split(" "), int(status), text.replace("\\n", "\n").encode()


def runs_on_examples(program):
    """Runs of the program on the examples, each with the status and the text that it gives."""
    for layer in EXAMPLES:
        path = os.path.join(TOP, "examples", layer)
        windows = [row[1] for row in table("postgis.tsv") if row[0] == layer]
        for words in (["check", path], ["check", "--tight", path], ["list", path], *(["scan", path, w] for w in windows)):
            status, out, _ = run([program, *words])
            yield layer, words, status, out


def drive(language, driver, program, folder):
    """All cases through one driver."""
    for name, words, status, text in (*cases(folder), *runs_on_examples(program)):
        count(f"{language}, {name}: {' '.join(words)}", run([*driver, *words])[:2], (status, text))


def test_c(program, folder):
    if not has("gcc"):
        return
    source = os.path.join(BINDINGS, "c")

    def build(name, *flags, archive=ARCHIVE):
        out = os.path.join(folder, f"{name}{len(flags)}{os.path.basename(os.path.dirname(archive))}")
        succeeds(f"C, building {name}", [*C, *flags, f"{name}.c", archive, "-o", out], cwd=source)
        return out

    succeeds("C, layout", [*C, "-c", "layout.c", "-o", os.devnull], cwd=source)
    if has("g++"):
        succeeds("C++, layout", [*CPP, "-c", "layout.c", "-o", os.devnull], cwd=source)
    drive("C", [build("cases", "-O2")], program, folder)
    drive("C, by the second compiler", [build("cases", "-O2", archive=SECOND)], program, folder)
    succeeds("C, memory refused", [build("refuse", "-O2", "-Wl,--wrap=malloc,--wrap=realloc,--wrap=free")])
    test_shared(source, folder)
    copied(program, source, folder)
    doubles(source, folder)
    results_looked_at(source, folder)
    programs = {name: build(name, "-O2", "-g", "-pthread") for name in ("edges", "windows", "many")}
    sanitized = {name: build(name, *SANITIZED, "-pthread") for name in programs}
    for layer in EXAMPLES:
        path = os.path.join(TOP, "examples", layer)
        for name in programs:
            succeeds(f"C, {name}, {layer}", [programs[name], path])
            succeeds(f"C, {name} with sanitizers, {layer}", [sanitized[name], path])
    if has("valgrind"):
        path = os.path.join(TOP, "examples", "coast_z.twkb")
        for name, built in programs.items():
            words = ["valgrind", "-q", "--error-exitcode=9", "--leak-check=full", built, path]
            succeeds(f"C, {name} under valgrind", words)


def test_shared(source, folder):
    """A program that the loader has to find the library for."""
    out = os.path.join(folder, "shared")
    words = [*C, "cases.c", f"-L{LIBRARY}", "-ltwkb", f"-Wl,-rpath,{LIBRARY}", "-o", out]
    succeeds("C, building over the shared library", words, cwd=source)
    count("C, over the shared library", run([out, "check", os.devnull])[:2], (0, b"ok blobs=0 vertices=0\n"))


def copied(program, source, folder):
    """The program that people copy: over the shared library, as README.md of the folder builds it, and with the sanitizers."""
    layer = os.path.join(TOP, "examples", "coast_lines_sized.twkb")
    _, told, _ = run([program, "scan", layer, "x=10..30,y=35..45.5"])
    blobs = re.findall(rb"(?m)^hit blob=(\d+) ", told)
    last = re.sub(rb"(?s).*hits=(\d+) read=(\d+) of=(\d+)\n", rb"\1 hits, \2 of \3 bytes read", told)
    for name, flags in (("", ["-O2"]), (" with sanitizers", SANITIZED)):
        out = os.path.join(folder, "example")
        succeeds(f"C, building the example{name}", [*C, *flags, f"-I{source}", "example.c", ARCHIVE, "-o", out], cwd=source)
        status, lines, _ = run([out, layer, "10", "35", "30", "45.5"])
        got = (status, re.findall(rb"(?m)^blob (\d+) has ", lines), lines.splitlines()[-1])
        count(f"C, the example{name}", got, (0, blobs, last))
        for words, status, said in (
            ([layer, "10", "35", "30"], 2, b"usage: example LAYER"),
            ([layer, "10", "35", "1e1", "45"], 2, b"a bound is no decimal"),
            ([layer, "10", "35", "30", "-45"], 2, b"a lower bound is above"),
            (["/missing", "10", "35", "30", "45"], 3, b"cannot read file"),
            ([written(folder, "cut.twkb", b"\1\0\2"), "10", "35", "30", "45"], 1, b"blob=0 offset=3 kind=cut"),
        ):
            got = run([out, *words])
            count(f"C, the example{name}, {words[1:]}", (got[0], got[1], said in got[2]), (status, b"", True))


def doubles(source, folder):
    """The function of README.md that makes a range of doubles."""
    with open(os.path.join(source, "README.md"), encoding="utf-8") as page:
        written(folder, "recipe.h", re.search(r"(?s)```c\n(.*?)```", page.read())[1].encode())
    for name, flags in (("", ["-O2"]), (" with sanitizers", SANITIZED)):
        out = os.path.join(folder, "doubles")
        words = [*C, *flags, f"-I{folder}", "doubles.c", ARCHIVE, "-lm", "-o", out]
        succeeds(f"C, building doubles{name}", words, cwd=source)
        succeeds(f"C, doubles{name}", [out])


def results_looked_at(source, folder):
    """GCC refuses a call whose result nobody looks at, if it has to be."""
    calls = ["certify(b, 0)", "certify_tight(b, 0)", "window_parse(t, 0, 0)", "span_of_decimals(t, 0, t, 0, 0)", "scan(0, 0, 0, 0)"]
    calls += ["directory_build(0, 0, 0)", "directory_scan(0, 0, 0, 0, 0, 0)", "directory_scan_many(0, 0, 0, 0, 0, 0, 0, 0, 0)"]
    for call in calls:
        text = f"static const uint8_t b[1];\nstatic const char t[1];\nint main(void) {{ (void)b; (void)t; twkb_{call}; }}\n"
        path = written(folder, "unused.c", f'#include "twkb.h"\n{text}'.encode())
        status, _, told = run([*C, f"-I{source}", "-c", path, "-o", os.devnull])
        count(f"C, the result of {call} unused", (status, b"[-Werror=unused-result]" in told), (1, True))


def test_rust(program, folder):
    if not has("cargo"):
        return
    source = os.path.join(BINDINGS, "rust")
    target = os.path.join(folder, "cargo")
    environment = {**os.environ, "TWKB_LIB": LIBRARY, "CARGO_TARGET_DIR": target}
    succeeds("Rust, tests", ["cargo", "test", "--offline", "--quiet"], cwd=source, env=environment)
    succeeds("Rust, examples", ["cargo", "build", "--release", "--examples", "--offline", "--quiet"], cwd=source, env=environment)
    words = ["cargo", "doc", "--offline", "--quiet"]
    succeeds("Rust, documentation", words, cwd=source, env={**environment, "RUSTDOCFLAGS": "-D warnings"})
    if has("cargo-clippy"):
        words = ["cargo", "clippy", "--offline", "--quiet", "--all-targets", "--", "-D", "warnings"]
        succeeds("Rust, clippy", words, cwd=source, env=environment)
    drive("Rust", [os.path.join(target, "release", "examples", "cases")], program, folder)
    if has("pkg-config"):
        rust_by_pkg_config(source, folder)


def rust_by_pkg_config(source, folder):
    """Without TWKB_LIB the crate is linked with the library that pkg-config finds. In both ways its version has to be the crate's."""
    prefix, layer = os.path.join(folder, "prefix"), os.path.join(TOP, "examples", "coast_lines_sized.twkb")
    pages = os.path.join(prefix, "lib", "pkgconfig")
    os.makedirs(pages)
    with open(os.path.join(BINDINGS, "c", "twkb.pc"), "rb") as file:
        told = file.read()
    environment = {name: value for name, value in os.environ.items() if name != "TWKB_LIB"}
    environment.update(CARGO_TARGET_DIR=os.path.join(folder, "cargo-pkg-config"), PKG_CONFIG_LIBDIR=pages)
    environment.pop("PKG_CONFIG_PATH", None)
    words = ["cargo", "run", "--offline", "--quiet", "--example", "scan", layer, *"10 30 35 45".split()]

    def refused(name, said):
        done = subprocess.run(words, cwd=source, env=environment, capture_output=True, text=True, timeout=MINUTES)
        count(f"Rust, {name}", (done.returncode != 0, said in done.stderr), (True, True))

    refused("no library anywhere", "TWKB_LIB is not set")
    refused("no library anywhere, by pkg-config's own words", "PKG_CONFIG_PATH")
    written(pages, "twkb.pc", told)
    refused("no archive", "lib/libtwkb.a can't be read")
    shutil.copy(ARCHIVE, os.path.join(prefix, "lib"))
    done = subprocess.run(words, cwd=source, env=environment, capture_output=True, text=True, timeout=MINUTES)
    wanted = ["44 of them have a vertex inside; 24857 of 84045 bytes were read."]
    count("Rust, by pkg-config", (done.returncode, done.stdout.splitlines()[-1:]), (0, wanted))
    other = written(os.path.join(prefix, "lib"), "libtwkb.a", of_version(b"0.9.0"))
    refused("a library of another version, by pkg-config", "libtwkb.a is of 0.9.0, and this is dozhemik")
    environment["PKG_CONFIG"] = os.path.join(folder, "missing")
    refused("no pkg-config", "can't be run")
    environment["TWKB_LIB"] = os.path.dirname(other)
    refused("a library of another version", "libtwkb.a is of 0.9.0, and this is dozhemik")
    written(os.path.dirname(other), "libtwkb.a", of_version(None))
    refused("a library without a version", "libtwkb.a is of no known version")
    environment["TWKB_LIB"] = folder
    refused("a folder without it", "libtwkb.a can't be read")


def of_version(version):
    """The archive as one of another version, or of none."""
    with open(ARCHIVE, "rb") as file:
        data = file.read()
    return re.sub(rb"libtwkb \d[^\0]*", b"libtwkb " + version if version else b"", data)


def interpreter():
    """What runs the tests of the package: an interpreter with NumPy and pandas, if there is one."""
    for python in (sys.executable, DEBIANS):
        if os.path.exists(python) and subprocess.run([python, "-c", "import numpy, pandas"], stderr=subprocess.DEVNULL).returncode == 0:
            return python
    left_out("NumPy or pandas is missing: apt-get install python3-numpy python3-pandas; the tests of arrays and tables are left out")
    return sys.executable


# Arrays are boxes for mypy, and a number is none.
ARRAYS = """
import numpy
from dozhemik import Window, certify

certify(b"").scan(bbox=numpy.zeros(4))
certify(b"").directory().scan(bbox=numpy.zeros(4), z=(0, 1))
Window.from_bboxes(numpy.zeros((2, 4)))
Window.from_bbox(5)  # type: ignore[arg-type]
"""


def types_of_arrays(source, folder):
    told = subprocess.run(["mypy", f"--cache-dir={folder}/mypy", "-c", "import numpy"], stdout=subprocess.PIPE, timeout=MINUTES)
    if told.returncode:
        left_out("mypy finds no NumPy: apt-get install python3-numpy; types of arrays are left out")
    else:
        succeeds("Python, types of arrays", ["mypy", "--strict", f"--cache-dir={folder}/mypy", "-c", ARRAYS], cwd=source)


def test_python(program, folder):
    source = os.path.join(BINDINGS, "python")
    environment = {**os.environ, "TWKB_LIBRARY": SHARED, "PYTHONDONTWRITEBYTECODE": "1"}
    if has("mypy"):
        words = ["mypy", "--strict", f"--cache-dir={folder}/mypy", "dozhemik", "tests", "examples"]
        succeeds("Python, types", words, cwd=source)
        types_of_arrays(source, folder)
    succeeds("Python, tests", [interpreter(), "-m", "unittest", "discover", "-s", "tests"], cwd=source, env=environment)
    os.environ.update(TWKB_LIBRARY=SHARED, PYTHONDONTWRITEBYTECODE="1")
    drive("Python", [sys.executable, os.path.join(source, "tests", "cases.py")], program, folder)


def main(program):
    succeeds("the library by the second compiler", [os.path.join(BINDINGS, "build.sh"), "--second"])
    succeeds("the library", [os.path.join(BINDINGS, "build.sh")])
    if not counts["failed"]:
        sources = subprocess.run([os.path.join(TOP, "tools", "sources.sh")], stdout=subprocess.PIPE, text=True).stdout
        with open(f"{SHARED}.sources") as told:
            count("which crates it is of", told.read(), sources)
        with tempfile.TemporaryDirectory() as folder:
            test_c(program, folder)
            test_rust(program, folder)
            test_python(program, folder)
    print(f"{counts['passed']} passed, {counts['failed']} failed")
    return int(counts["failed"] > 0)


if __name__ == "__main__":
    sys.exit(main(os.path.abspath(sys.argv[1] if len(sys.argv) > 1 else os.path.join(TOP, "build", "twkb_tool"))))
