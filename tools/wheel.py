#!/usr/bin/env python3
"""Writes the wheel of the package for Python, with the library beside its modules: the same bytes each time.

usage: tools/wheel.py LIBRARY FOLDER   (Python 3.11 or later; SOURCE_DATE_EPOCH is the time of all files in it, else 1980)

Says the path. The name, the version and the rest are as in bindings/python/pyproject.toml. The tag names the glibc that the library
needs, by the versions of its symbols.
"""
import base64
import hashlib
import os
import re
import sys
import time
import tomllib
import zipfile

PACKAGE = os.path.join(os.path.dirname(os.path.dirname(os.path.abspath(__file__))), "bindings", "python")


def content(*path):
    with open(os.path.join(*path), "rb") as file:
        return file.read()


def metadata(project):
    head = {
        "Metadata-Version": "2.1",
        "Name": project["name"],
        "Version": project["version"],
        "Summary": project["description"],
        "Requires-Python": project["requires-python"],
        "Description-Content-Type": "text/markdown",
    }
    return lines(head).encode() + b"\n" + content(PACKAGE, "README.md")


def lines(fields):
    return "".join(f"{name}: {value}\n" for name, value in fields.items())


def platforms(library):
    """The platforms that have the library's glibc. pip before 20.3 knows only names such as that of glibc 2.17."""
    needed = max((int(major), int(minor)) for major, minor in re.findall(rb"\0GLIBC_(\d+)\.(\d+)", library))
    return [f"manylinux_{needed[0]}_{needed[1]}_x86_64"] + ["manylinux2014_x86_64"] * (needed <= (2, 17))


def files(project, library, tags):
    """What a wheel holds by its paths, but for the record of it."""
    name = project["name"]
    modules = sorted(file for file in os.listdir(os.path.join(PACKAGE, name)) if file.endswith((".py", ".typed")))
    found = {f"{name}/{file}": content(PACKAGE, name, file) for file in modules}
    found[f"{name}/libtwkb.so"] = library
    about = {"Wheel-Version": "1.0", "Generator": "tools/wheel.py", "Root-Is-Purelib": "false"}
    info = f"{name}-{project['version']}.dist-info"
    found[f"{info}/METADATA"] = metadata(project)
    found[f"{info}/WHEEL"] = (lines(about) + "".join(f"Tag: py3-none-{tag}\n" for tag in tags)).encode()
    return found, f"{info}/RECORD"


def recorded(found, record):
    """A line for each file: its path, its hash and its length."""
    rows = []
    for path, data in found.items():
        digest = base64.urlsafe_b64encode(hashlib.sha256(data).digest()).rstrip(b"=").decode()
        rows.append(f"{path},sha256={digest},{len(data)}\n")
    return "".join([*rows, f"{record},,\n"]).encode()


def written(path, found, when):
    with zipfile.ZipFile(path, "w", zipfile.ZIP_DEFLATED) as wheel:
        for name, data in found.items():
            entry = zipfile.ZipInfo(name, when)
            entry.create_system, entry.external_attr = 3, 0o100644 << 16
            entry.compress_type = zipfile.ZIP_DEFLATED
            wheel.writestr(entry, data)


def main(library, folder):
    project = tomllib.loads(content(PACKAGE, "pyproject.toml").decode())["project"]
    data = content(library)
    tags = platforms(data)
    found, record = files(project, data, tags)
    found[record] = recorded(found, record)
    # A zip has no times before 1980.
    when = max(time.gmtime(int(os.environ.get("SOURCE_DATE_EPOCH", "0")))[:6], (1980, 1, 1, 0, 0, 0))
    path = os.path.join(folder, f"{project['name']}-{project['version']}-py3-none-{'.'.join(tags)}.whl")
    written(path, found, when)
    print(path)


if __name__ == "__main__":
    if len(sys.argv) != 3:
        sys.exit("usage: tools/wheel.py LIBRARY FOLDER")
    main(*sys.argv[1:])
