#!/usr/bin/env python3
"""Packs a release out of what is built, and uses it where no kit is: installs it, links C programs, and imports it in Python.

usage: tests/release.py [--debootstrap] [PROGRAM]   (build/twkb_tool where it is left out; rt of the kit in PATH; after
tests/bindings.py, which builds the library)

It packs in a copy of the checkout as it is, committed there. The page is made of build/web's module, or without one, which a
line says. A machine with a shell, coreutils and python3 alone is a folder that is put together of this machine's files, or with
--debootstrap of Debian's packages. What can't be done here is said in one line and left out. Prints each difference, and last a
line `N passed, M failed`; the status is 1 where any failed.
"""
import argparse
import hashlib
import os
import re
import shutil
import subprocess
import sys
import tarfile
import tempfile
import time

import machines
from harness import TOP, bundler, count, counts, left_out, run, written
from packages import crate, links, machine, packages
from pages import broken
from release_commands import here

MODULE = os.path.join(TOP, "build", "web", "twkb_web.wasm")
BUILT = ("libtwkb.a", "libtwkb.so", "libtwkb.so.0")
# What has beside it which crates it is of.
PROVED = ("twkb_tool", "bindings/libtwkb.so", "web/twkb_web.wasm")
AUTHOR = ["-c", "user.name=tests", "-c", "user.email=tests@localhost", "-c", "commit.gpgsign=false"]
NEEDS = {"git": "apt-get install git", "rt": "the Rattle kit"}
# What a release has to hold, beside the crate for Rust and the texts of licences.
WANTED = [
    "README.md CHANGELOG.md CONTRIBUTING.md NOTICES.md PROVENANCE.md SHA256SUMS VERSION install.sh uninstall.sh dozhemik.html".split(),
    "bin/twkb_tool share/man/man1/twkb_tool.1 share/zsh/site-functions/_twkb_tool".split(),
    "share/bash-completion/completions/twkb_tool include/twkb.h".split(),
    "lib/libtwkb.a lib/libtwkb.so lib/libtwkb.so.0 lib/pkgconfig/twkb.pc".split(),
    "rust/Cargo.toml rust/build.rs rust/src/lib.rs docs/USAGE.md docs/BINDINGS.md docs/FORMAT.md".split(),
    "docs/PROVED.md docs/EVIDENCE.md docs/page.png".split(),
    "examples/README.md examples/coast_z.twkb examples/scripts/publish_layer.sh examples/demo.sh examples/serve.py".split(),
    "web/twkb.js web/twkb_web.wasm".split(),
    "notices/clap-LICENSE-MIT notices/itoa-LICENSE notices/smallvec-LICENSE-MIT notices/thiserror-LICENSE".split(),
]


def git(*words, cwd=TOP):
    return subprocess.run(["git", *words], cwd=cwd, check=True, capture_output=True, text=True).stdout


def text_of(*path):
    with open(os.path.join(*path), encoding="utf-8") as file:
        return file.read()


def data_of(*path):
    with open(os.path.join(*path), "rb") as file:
        return file.read()


def committed(clone, what):
    git("add", "--all", cwd=clone)
    git(*AUTHOR, "commit", "--quiet", "--allow-empty", "--no-verify", "--message", what, cwd=clone)


def cloned(clone):
    """A repository of its own with what the checkout holds now."""
    git("init", "--quiet", clone)
    for name in filter(None, git("ls-files", "-z", "--cached", "--others", "--exclude-standard").split("\0")):
        if os.path.lexists(os.path.join(TOP, name)):
            os.makedirs(os.path.dirname(os.path.join(clone, name)), exist_ok=True)
            shutil.copy(os.path.join(TOP, name), os.path.join(clone, name))
    released(clone)
    committed(clone, "What is tested")
    return clone


def released(clone):
    """What isn't released yet is packed only here, as if it were of this day."""
    version, changes = text_of(clone, "VERSION").strip(), text_of(clone, "CHANGELOG.md")
    written(clone, "CHANGELOG.md", re.sub(r"^## .*$", f"## {version} - 2026-12-01", changes, count=1, flags=re.MULTILINE).encode())


def build_into(clone, program):
    """What is built, as if it had been built in the clone."""
    for name in ("bindings", "web"):
        os.makedirs(os.path.join(clone, "build", name))
    shutil.copy(program, os.path.join(clone, "build", "twkb_tool"))
    for name in BUILT:
        shutil.copy(os.path.join(TOP, "build", "bindings", name), os.path.join(clone, "build", "bindings", name))
    module = os.path.join(clone, "build", "web", os.path.basename(MODULE))
    if os.path.exists(MODULE):
        shutil.copy(MODULE, module)
    else:
        left_out("build/web has no module, as `make web` leaves one: the page in the release is one without")
        written(os.path.dirname(module), os.path.basename(module), b"")
    sources = subprocess.run([os.path.join(clone, "tools", "sources.sh")], check=True, capture_output=True).stdout
    for name in PROVED:
        written(os.path.join(clone, "build"), f"{name}.sources", sources)
    make_page(clone)


def make_page(clone):
    """The page, whose footer names the commit of the clone."""
    module = os.path.join(clone, "build", "web", os.path.basename(MODULE))
    maker = os.path.join(clone, "bindings", "web", "make_page.py")
    subprocess.run([sys.executable, maker, module, os.path.join(clone, "build", "dozhemik.html")], check=True, stdout=subprocess.DEVNULL)


def dist(clone, **options):
    done = subprocess.run(["make", "--no-print-directory", "dist"], cwd=clone, capture_output=True, text=True, **options)
    return done.returncode, done.stdout, done.stderr


def packed(clone, version):
    """The archive, which is the same however old and however private what is built and checked out is."""
    path = os.path.join(clone, "build", f"dozhemik-{version}-x86_64-linux.tar.gz")
    status, out, error = dist(clone)
    count("make dist", (status, error, os.path.exists(path)), (0, "", True))
    if status != 0:
        return None
    data = data_of(path)
    count("its sum is said", hashlib.sha256(data).hexdigest() in out, True)
    # The head of gzip has no time and no name.
    count("the head of gzip", (data[3], data[4:8]), (0, bytes(4)))
    earlier = time.time() - 100_000
    for at, folders, files in os.walk(clone):
        folders[:] = [folder for folder in folders if folder != ".git"]
        for file in files:
            os.utime(os.path.join(at, file), (earlier, earlier))
            os.chmod(os.path.join(at, file), os.stat(os.path.join(at, file)).st_mode & 0o700)
    count("make dist, again", dist(clone, umask=0o077)[0], 0)
    count("the same bytes twice", data_of(path) == data, True)
    return path


def members(archive, clone, version):
    """What is in the archive, whose it is and of which time."""
    seconds = int(git("log", "-1", "--format=%ct", cwd=clone))
    top = f"dozhemik-{version}-x86_64-linux"
    with tarfile.open(archive) as tar:
        found = tar.getmembers()
    names = [member.name for member in found]
    count("names are sorted", names, sorted(names, key=lambda name: name.split("/")))
    count("what is missing", sorted({f"{top}/{name}" for row in WANTED for name in row} - set(names)), [])
    wheels = [name for name in names if name.startswith(f"{top}/dozhemik-{version}-py3-none-manylinux_") and name.endswith(".whl")]
    count("wheels", len(wheels), 1)
    alike = {(member.uid, member.gid, member.uname, member.gname, member.mtime) for member in found}
    count("owner and time", alike, {(0, 0, "", "", seconds)})
    rights = {member.mode for member in found if not member.issym()}
    count("rights", rights, {0o644, 0o755})


def unpacked(archive, folder):
    with tarfile.open(archive) as tar:
        tar.extractall(folder)
    return os.path.join(folder, os.path.basename(archive).removesuffix(".tar.gz"))


def sums(release):
    """SHA256SUMS has the sum of each other file."""
    found = {}
    for row in text_of(release, "SHA256SUMS").splitlines():
        digest, name = row.split("  ")
        found[name] = digest
    paths = [os.path.join(at, name) for at, _, names in os.walk(release) for name in names]
    files = [os.path.relpath(path, release) for path in paths if not os.path.islink(path)]
    wanted = {name: hashlib.sha256(data_of(release, name)).hexdigest() for name in files if name != "SHA256SUMS"}
    count("SHA256SUMS", found, wanted)


def notes(release, clone, version):
    """The note says the version, the commit and the kit; the notices name the licence of the examples, and README that there is none."""
    kit = subprocess.run(["rt", "version"], capture_output=True, text=True).stdout.strip()
    note = text_of(release, "PROVENANCE.md")
    for what in (version, git("rev-parse", "HEAD", cwd=clone).strip(), kit):
        count(f"PROVENANCE.md has {what}", f"{what}" in note, True)
    for name in ("NOTICES.md", os.path.join("examples", "README.md")):
        count(f"{name} names the LGPL", "GNU Lesser General Public License" in text_of(release, name), True)
    count("README links PROVENANCE.md", "(PROVENANCE.md)" in text_of(release, "README.md"), True)
    for folder in (release, TOP):
        said = re.sub(r"\s+", " ", text_of(folder, "README.md"))
        count(f"README of {os.path.basename(folder)} says that no licence is chosen", "icence: none chosen yet" in said, True)


def pages_linked(release):
    """Each link of a page leads to a file, or to a heading, of the release; and no two pages have one name."""
    found = [os.path.relpath(os.path.join(at, name), release) for at, _, names in os.walk(release) for name in names if name.endswith(".md")]
    count("links that lead nowhere", list(broken(release, sorted(found))), [])
    names = [os.path.basename(page) for page in found if os.path.basename(page) != "README.md"]
    count("pages of one name", sorted({name for name in names if names.count(name) > 1}), [])


def refusals(clone, program, folder):
    """What isn't as it is committed, or isn't built of it, isn't packed."""
    archive = [os.path.join(clone, "build", name) for name in os.listdir(os.path.join(clone, "build")) if name.endswith(".gz")][0]

    def refused(name, said):
        status, _, error = dist(clone)
        count(name, (status != 0, said in error, os.path.exists(archive)), (True, True, False))

    page, header = os.path.join(clone, "build", "dozhemik.html"), os.path.join(clone, "bindings", "c", "twkb.h")
    written(clone, "more", b"")
    refused("a file more", "dist.sh: the checkout isn't what is committed: ?? more")
    os.remove(os.path.join(clone, "more"))
    os.rename(page, page + ".kept")
    refused("no page", "dist.sh: build/dozhemik.html is missing: make page")
    os.rename(page + ".kept", page)
    kept = data_of(page)
    written(os.path.dirname(page), os.path.basename(page), kept + b"\n")
    refused("another page", "dist.sh: build/dozhemik.html isn't what its parts make: make page")
    written(os.path.dirname(page), os.path.basename(page), kept)
    os.utime(header)
    refused("a header that is newer", "dist.sh: build/bindings/libtwkb.a is older than bindings/c/twkb.h: make library")
    for name in BUILT:
        os.utime(os.path.join(clone, "build", "bindings", name))
    others(clone, refused)
    make_page(clone)
    count("and then it is packed", dist(clone)[0], 0)


def others(clone, refused):
    """What is built of other crates, or by another kit."""
    for path, form, other, said in (
        ("CHANGELOG.md", r"(?m)(^## .*)$", r"## Unreleased\n\n\1", 'dist.sh: CHANGELOG.md has first "Unreleased", and not version'),
        ("CHANGELOG.md", r"(?m)(^## \S+ - )[0-9-]+$", r"\1not published", " - not published\", and not version"),
        ("README.md", r"`logic \w+`", "`logic of another kit`", "dist.sh: README.md names another logic than rt version does"),
        ("crates/twkb_c/src/lib.rt", r"\Z", "// More.\n", "dist.sh: build/twkb_tool isn't known to be of these crates: make build"),
    ):
        kept = text_of(clone, path)
        written(clone, path, re.sub(form, other, kept, count=1).encode())
        committed(clone, "Something else")
        refused(f"another {path}", said)
        written(clone, path, kept.encode())
        committed(clone, "As it was")
    for name, target in zip(PROVED, ("build", "library", "page")):
        path = os.path.join(clone, "build", f"{name}.sources")
        os.rename(path, path + ".kept")
        refused(f"{name} of unknown crates", f"dist.sh: build/{name} isn't known to be of these crates: make {target}")
        os.rename(path + ".kept", path)


def tree(folder):
    """The files below a folder: of each its rights, or a link's goal, and its content."""
    found = {}
    for at, folders, files in os.walk(folder):
        for name in files:
            path = os.path.join(at, name)
            rights = os.readlink(path) if os.path.islink(path) else oct(os.stat(path).st_mode & 0o777)
            found[os.path.relpath(path, folder)] = (rights, data_of(path))
    return found


def installs(release, clone, folder):
    """Without the kit, with nothing but coreutils in PATH, and to the same as make does."""
    path = machines.only_coreutils(os.path.join(folder, "coreutils"))

    def install(here, *words, **more):
        command = ["/bin/sh", os.path.join(here, "install.sh"), *words]
        return subprocess.run(command, cwd=folder, capture_output=True, text=True, env={"PATH": path} | more)

    done = install(release, "below/a prefix")
    prefix = os.path.join(folder, "below", "a prefix")
    count("install.sh", (done.returncode, done.stderr), (0, ""))
    by_make = os.path.join(folder, "made")
    words = ["make", "--no-print-directory", "install", "install-library", f"PREFIX={by_make}"]
    done = subprocess.run(words, cwd=clone, capture_output=True, text=True)
    count("make install install-library", (done.returncode, done.stderr), (0, ""))
    count("install.sh and make", tree(prefix) == tree(by_make), True)
    layer = os.path.join(TOP, "examples", "points_sized.twkb")
    got = run([os.path.join(prefix, "bin", "twkb_tool"), "check", layer])
    count("the installed program", got, (0, b"ok blobs=2286 vertices=2286\n", b""))
    uninstalls(release, prefix, lambda *words: subprocess.run(words, capture_output=True, env={"PATH": path}).returncode)
    subprocess.run([*words[:2], "uninstall", "uninstall-library", words[-1]], cwd=clone, check=True, stdout=subprocess.DEVNULL)
    count("what make leaves", tree(by_make), {})
    count("install.sh without a prefix", install(release).returncode, 2)
    spoiled = shutil.copytree(release, os.path.join(folder, "spoiled"), symlinks=True)
    with open(os.path.join(spoiled, "lib", "libtwkb.a"), "ab") as file:
        file.write(b"\n")
    count("install.sh of a spoiled file", install(spoiled, "nothing").returncode, 1)
    count("it installs nothing", os.path.exists(os.path.join(folder, "nothing")), False)
    processors(lambda cpuinfo: install(release, "for another", CPUINFO=cpuinfo), folder)
    return prefix


def uninstalls(release, prefix, status):
    """uninstall.sh removes what install.sh has installed, and nothing else."""
    copy = shutil.copytree(prefix, f"{prefix} once more", symlinks=True)
    other = written(os.path.join(copy, "lib"), "other", b"")
    script = os.path.join(release, "uninstall.sh")
    for attempt in ("first", "second"):
        count(f"uninstall.sh, {attempt}", (status("/bin/sh", script, copy), list(tree(copy))), (0, [os.path.relpath(other, copy)]))
    count("uninstall.sh without a prefix", status("/bin/sh", script), 2)


def processors(install, folder):
    """What install.sh says of processors, by files such as /proc/cpuinfo."""
    v2 = "fpu sse sse2 pni ssse3 cx16 sse4_1 sse4_2 popcnt lahf_lm"
    lacks = "install.sh: the processor isn't x86-64-v2, and can't run what is installed: it lacks"
    unchecked = "The processor isn't checked"
    for flags, error, is_checked in (
        (f"flags\t\t: {v2}\n", "", True),
        (f"flags\t\t: {v2.replace(' sse4_1', '')}\n", f"{lacks} sse4_1\n", True),
        # The names of other parts begin or end alike.
        ("flags\t\t: fpu sse sse2 pni ssse3x xssse3 cx16 sse4_1 sse4_2 lahf_lm\n", f"{lacks} popcnt ssse3\n", True),
        ("Features\t: fp asimd\n", "", False),
    ):
        done = install(written(folder, "cpuinfo", f"processor\t: 0\n{flags}".encode()))
        told = done.returncode, done.stderr, unchecked not in done.stdout
        count(f"install.sh with {flags.split()[2:]}", told, (0, error, is_checked))
    done = install(os.path.join(folder, "none"))
    count("install.sh without a file of the processor", (done.returncode, done.stderr, unchecked in done.stdout), (0, "", True))


def main():
    words = argparse.ArgumentParser()
    words.add_argument("program", nargs="?", default=os.path.join(TOP, "build", "twkb_tool"))
    words.add_argument("--debootstrap", action="store_true")
    asked = words.parse_args()
    missing = [tool for tool in NEEDS if not shutil.which(tool)]
    if missing:
        left_out(f"{missing[0]} is missing: {NEEDS[missing[0]]}; no release is packed")
        return int(counts["failed"] > 0)
    version = text_of(TOP, "VERSION").strip()
    with tempfile.TemporaryDirectory() as folder:
        bundler(os.path.join(folder, "stand-ins"))
        clone = cloned(os.path.join(folder, "clone"))
        build_into(clone, asked.program)
        archive = packed(clone, version)
        if archive:
            members(archive, clone, version)
            release = unpacked(archive, folder)
            sums(release)
            notes(release, clone, version)
            pages_linked(release)
            prefix = installs(release, clone, folder)
            links("installed", prefix, asked.program, folder)
            links("unpacked", release, asked.program, folder)
            crate(release, folder)
            packages(release, version, folder)
            here(release, folder)
            machine(shutil.copy(archive, folder), version, asked.debootstrap, folder)
            refusals(clone, asked.program, folder)
    print(f"{counts['passed']} passed, {counts['failed']} failed")
    return int(counts["failed"] > 0)


if __name__ == "__main__":
    sys.exit(main())
