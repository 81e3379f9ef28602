"""What a release brings, as others use it: C programs linked by pkg-config, the crate for Rust, the wheel for Python, and all but the
crate on a machine without a kit. For tests/release.py."""
import base64
import csv
import hashlib
import io
import os
import re
import shutil
import struct
import subprocess
import sys
import zipfile

import machines
from harness import TOP, count, left_out, run
from release_commands import there

CASES = os.path.join(TOP, "bindings", "c", "cases.c")
LAYER = os.path.join(TOP, "examples", "coast_lines_sized.twkb")
WINDOW = "x=10..30,y=35..45"
# What has to be said of the layer in the window: PostGIS counts 44 hits.
HITS = "hits=44 read=24857 of=84045"
ASKS = """
import dozhemik, sys
layer = dozhemik.certify(open(sys.argv[1], "rb").read())
scan = layer.scan(sys.argv[2])
print(dozhemik.__version__, f"hits={len(scan)} read={scan.bytes_read} of={layer.size}")
"""
# The folder of the machine that `machine` makes in which its user works: as it is named there, below that machine's own root.
HOME = "/root"
NEEDS = {"gcc": "apt-get install gcc libc6-dev", "pkg-config": "apt-get install pkg-config"}


def linked(prefix, out, *flags):
    """Builds the C driver of the tests by what pkg-config says below this prefix. Answers whether it is built."""
    environment = os.environ | {"PKG_CONFIG_PATH": os.path.join(prefix, "lib", "pkgconfig")}
    static = ["--static"] if "-static" in flags else []
    asked = subprocess.run(["pkg-config", "--cflags", "--libs", *static, "twkb"], capture_output=True, text=True, env=environment)
    words = ["gcc", "-std=c11", "-Wall", "-Wextra", "-Werror", *flags, CASES, *asked.stdout.split(), "-o", out]
    done = subprocess.run(words, capture_output=True, text=True)
    count(f"gcc {' '.join(flags)} by pkg-config", (asked.stderr + done.stderr, done.returncode), ("", 0))
    return done.returncode == 0


def has_linker():
    for tool in NEEDS:
        if not shutil.which(tool):
            left_out(f"{tool} is missing: {NEEDS[tool]}; no C program is linked with what is installed")
            return False
    return True


def links(name, place, program, folder):
    """A C program, over the shared library and over the archive alone, by a prefix without spaces: pkg-config's words are split."""
    if not has_linker():
        return
    prefix = os.path.join(folder, f"prefix-{name}")
    os.symlink(place, prefix)
    out, words = os.path.join(folder, f"app-{name}"), ["scan", LAYER, WINDOW]
    wanted = run([program, *words])
    if linked(prefix, out):
        lost = run([out, *words])
        count(f"{name}: not without the shared library", (lost[0], b"libtwkb.so.0" in lost[2]), (127, True))
        found = os.environ | {"LD_LIBRARY_PATH": os.path.join(prefix, "lib")}
        count(f"{name}: over the shared library", run([out, *words], env=found), wanted)
    if linked(prefix, out, "-static"):
        count(f"{name}: over the archive", run([out, *words]), wanted)


def crate(release, folder):
    """An example of the crate for Rust, over the library beside it."""
    if not shutil.which("cargo"):
        left_out("cargo is missing: apt-get install cargo; the crate for Rust isn't built out of the release")
        return
    environment = os.environ | {"TWKB_LIB": os.path.join(release, "lib"), "CARGO_TARGET_DIR": os.path.join(folder, "cargo")}
    words = ["cargo", "run", "--offline", "--quiet", "--example", "scan", LAYER, *"10 30 35 45".split()]
    done = subprocess.run(words, cwd=os.path.join(release, "rust"), capture_output=True, text=True, env=environment)
    wanted = ["44 of them have a vertex inside; 24857 of 84045 bytes were read."]
    count("the crate for Rust", (done.returncode, done.stdout.splitlines()[-1:], done.stderr), (0, wanted, ""))


def wheel_of(release):
    return next(os.path.join(release, name) for name in os.listdir(release) if name.endswith(".whl"))


def asked(place, **environment):
    """What the package below a folder answers of the layer, and whether it goes wrong."""
    kept = {name: value for name, value in os.environ.items() if name != "TWKB_LIBRARY"}
    environment = kept | {"PYTHONPATH": place, "PYTHONDONTWRITEBYTECODE": "1", **environment}
    done = subprocess.run([sys.executable, "-c", ASKS, LAYER, WINDOW], capture_output=True, text=True, env=environment)
    return done.returncode, done.stdout.rstrip("\n"), done.stderr.rstrip("\n").rpartition("\n")[2]


def recorded(wheel):
    """RECORD has the hash and the length of each file but itself, and the wheel is of its platform."""
    with zipfile.ZipFile(wheel) as files:
        found = {name: files.read(name) for name in files.namelist()}
    record = next(name for name in found if name.endswith(".dist-info/RECORD"))
    wanted = {record: ("", "")}
    for name, data in found.items():
        if name != record:
            digest = base64.urlsafe_b64encode(hashlib.sha256(data).digest()).rstrip(b"=").decode()
            wanted[name] = (f"sha256={digest}", str(len(data)))
    rows = {row[0]: tuple(row[1:]) for row in csv.reader(io.StringIO(found[record].decode()))}
    count("RECORD of the wheel", rows, wanted)
    tags = "manylinux_{}_{}_x86_64 manylinux2014_x86_64".format(*glibc_of(found["dozhemik/libtwkb.so"])).split()
    told = re.findall(rb"(?m)^Tag: (.*)$", found[record.replace("RECORD", "WHEEL")])
    count("the wheel's tags", told, [f"py3-none-{tag}".encode() for tag in tags])
    count("the wheel's name", os.path.basename(wheel).split("-py3-none-")[1], f"{'.'.join(tags)}.whl")
    return set(found)


def packages(release, version, folder):
    """The wheel as pip installs it, and the package without a library of its own."""
    wheel, place = wheel_of(release), os.path.join(folder, "site")
    names = recorded(wheel)
    words = [sys.executable, "-m", "pip", "install", "--quiet", "--no-index", "--no-deps", "--target", place, wheel]
    if subprocess.run([*words[:3], "--version"], capture_output=True).returncode == 0:
        done = subprocess.run(words, capture_output=True, text=True, env=os.environ | {"PIP_DISABLE_PIP_VERSION_CHECK": "1"})
        count("pip install", done.returncode, 0)
    else:
        left_out("pip is missing: apt-get install python3-pip; the wheel is unpacked by zipfile")
        zipfile.ZipFile(wheel).extractall(place)
    count("the package has its library", "dozhemik/libtwkb.so" in names, True)
    count("the package of the wheel", asked(place), (0, f"{version} {HITS}", ""))
    os.remove(os.path.join(place, "dozhemik", "libtwkb.so"))
    system = {"LD_LIBRARY_PATH": os.path.join(release, "lib")}
    count("the package over the system's library", asked(place, **system), (0, f"{version} {HITS}", ""))
    status, _, error = asked(place)
    count("the package without a library", (status, "libtwkb.so.0" in error, "make install-library" in error), (1, True, True))
    glibc(release)
    processor(release)


def processor(release):
    """The library is marked with the processor that it needs, as a property in its notes: the level x86-64-v2 is bit 1."""
    with open(os.path.join(release, "lib", "libtwkb.so.0"), "rb") as file:
        data = file.read()
    isa_needed = struct.pack("<II", 0xC0008002, 4)
    at = data.find(isa_needed) + len(isa_needed)
    count("lib/libtwkb.so.0: the processor that it needs", (isa_needed in data, data[at] & 2), (True, 2))


def glibc_of(data):
    """The glibc that a program or a library needs."""
    return max([int(number) for number in one] for one in re.findall(rb"GLIBC_(\d+)\.(\d+)", data))


def glibc(release):
    """docs/BINDINGS.md says which glibc they want, and they want no later one."""
    with open(os.path.join(TOP, "docs", "BINDINGS.md"), encoding="utf-8") as page:
        said = re.search(r"glibc (\d+)\.(\d+) or later,\s+and\s+`twkb_tool`\s+glibc (\d+)\.(\d+)", page.read())
    said = [int(number) for number in said.groups()] if said else [0, 0, 0, 0]
    for path, greatest in (("lib/libtwkb.so.0", said[:2]), ("bin/twkb_tool", said[2:])):
        with open(os.path.join(release, path), "rb") as file:
            count(f"{path}: glibc of docs/BINDINGS.md", glibc_of(file.read()) <= greatest, True)


def machine(archive, version, by_debootstrap, folder):
    """Unpacked by Python, installed, and used where there is nothing else."""
    root = os.path.join(folder, "root")
    machines.by_debootstrap(root) if by_debootstrap else machines.assembled(root)
    if not machines.is_possible(root):
        left_out("no program may have another root here: the release isn't tried on a machine of its own")
        return
    shutil.copy(archive, root + HOME)
    shutil.copy(LAYER, f"{root}{HOME}/layer.twkb")
    if os.path.exists(root + machines.DEBIANS):
        done = machines.run(root, "python3", "-m", "tarfile", "-e", f"{HOME}/{os.path.basename(archive)}", HOME)
        count("unpacked there", done[0::2], (0, ""))
    else:
        shutil.unpack_archive(archive, root + HOME)
    release = f"{HOME}/{os.path.basename(archive).removesuffix('.tar.gz')}"
    count("no kit and no compiler there", [machines.run(root, "sh", "-c", f"command -v {one}")[1] for one in ("rt", "gcc")], ["", ""])
    count("installed there", machines.run(root, "sh", f"{release}/install.sh", "/usr/local")[0::2], (0, ""))
    count("certified there", machines.run(root, "twkb_tool", "check", f"{HOME}/layer.twkb"), (0, "ok blobs=1715 vertices=14590\n", ""))
    status, out, error = machines.run(root, "twkb_tool", "scan", f"{HOME}/layer.twkb", WINDOW)
    count("scanned there", (status, out.splitlines()[-1:], error), (0, [HITS], ""))
    in_c(root)
    if os.path.exists(root + machines.DEBIANS):
        in_python(root, release, version)
        there(root, release)


def in_c(root):
    """Programs that are built outside by what is installed there, and run there."""
    if not has_linker():
        return
    for flags, found in (((), {"LD_LIBRARY_PATH": "/usr/local/lib"}), (("-static",), {})):
        if linked(root + "/usr/local", f"{root}{HOME}/app", *flags):
            status, out, error = machines.run(root, f"{HOME}/app", "scan", f"{HOME}/layer.twkb", WINDOW, **found)
            count(f"a C program there {' '.join(flags)}", (status, out.splitlines()[-1:], error), (0, [HITS], ""))


def in_python(root, release, version):
    wheel = f"{release}/{os.path.basename(wheel_of(root + release))}"
    count("the wheel unpacked there", machines.run(root, "python3", "-m", "zipfile", "-e", wheel, f"{HOME}/site")[0::2], (0, ""))
    got = machines.run(root, "python3", "-c", ASKS, f"{HOME}/layer.twkb", WINDOW, PYTHONPATH=f"{HOME}/site")
    count("imported in Python there", got, (0, f"{version} {HITS}\n", ""))
