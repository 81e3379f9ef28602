"""Folders to be the root of a program, with a shell, coreutils and Debian's python3 and nothing else: no kit, no compiler."""
import os
import re
import shutil
import subprocess

from harness import left_out

# What coreutils brings, but for some that nobody needs here.
COREUTILS = (
    "arch basename cat chgrp chmod chown cksum comm cp csplit cut date dd df dirname du echo env expand expr factor false fmt fold "
    "head id install join link ln ls md5sum mkdir mkfifo mknod mktemp mv nice nl nohup nproc numfmt od paste pathchk pr printenv "
    "printf ptx pwd readlink realpath rm rmdir seq sha1sum sha256sum sha512sum shred shuf sleep sort split stat stty sum sync tac "
    "tail tee test timeout touch tr true truncate tsort tty uname unexpand uniq unlink users wc whoami yes ["
).split()
DEBIANS = "/usr/bin/python3"
# Parts of the library of Python that are large and not wanted here.
LEFT_OUT = shutil.ignore_patterns("__pycache__", "test", "idlelib", "tkinter", "lib2to3", "ensurepip", "dist-packages", "config-*")


def coreutils():
    """The paths of those that this machine has."""
    return [path for path in map(shutil.which, COREUTILS) if path]


def only_coreutils(folder):
    """A folder for PATH with coreutils alone."""
    os.mkdir(folder)
    for path in coreutils():
        os.symlink(path, os.path.join(folder, os.path.basename(path)))
    return folder


def needed(path):
    """The shared libraries that a program or a library is loaded with."""
    done = subprocess.run(["ldd", path], capture_output=True, text=True)
    return re.findall(r"(/\S+) \(0x", done.stdout)


def into(root, path, name=None):
    """Copies a file to its own path, or another, below the root."""
    place = root + (name or path)
    os.makedirs(os.path.dirname(place), exist_ok=True)
    if not os.path.exists(place):
        shutil.copy(path, place)


def standard_library():
    words = [DEBIANS, "-c", "import sysconfig; print(sysconfig.get_path('stdlib'))"]
    return subprocess.run(words, capture_output=True, text=True, check=True).stdout.strip()


def assembled(root):
    """A root out of copies of this machine's files. Without Debian's python3 it has none, which a line says."""
    for folder in ("usr/bin", "usr/lib", "usr/lib64", "tmp", "root"):
        os.makedirs(os.path.join(root, folder))
    for name in ("bin", "lib", "lib64"):
        os.symlink(f"usr/{name}", os.path.join(root, name))
    programs = {path: path for path in coreutils()} | {"/bin/sh": "/bin/sh"}
    libraries = []
    if os.path.exists(DEBIANS):
        programs[os.path.realpath(DEBIANS)] = DEBIANS
        library = standard_library()
        shutil.copytree(library, root + library, ignore=LEFT_OUT)
        dynamic = os.path.join(library, "lib-dynload")
        libraries = [os.path.join(dynamic, name) for name in os.listdir(dynamic) if name.endswith(".so")]
    else:
        left_out(f"{DEBIANS} is missing: apt-get install python3; the package for Python isn't tried without a kit")
    for path, name in programs.items():
        into(root, os.path.realpath(path), name)
    for path in set().union(*(needed(path) for path in (*programs, *libraries))):
        into(root, path)
    return root


def by_debootstrap(root):
    """A root out of Debian's packages, which takes a minute and a network."""
    words = ["debootstrap", "--variant=minbase", "--include=python3", "bookworm", root]
    subprocess.run(words, check=True, stdout=subprocess.DEVNULL)
    return root


def run(root, *words, **environment):
    """Runs a program with this root: its status, its standard output and its standard error."""
    inside = ["chroot", root, *words] if os.geteuid() == 0 else ["unshare", "--map-root-user", "chroot", root, *words]
    environment = {"PATH": "/usr/local/bin:/usr/bin:/bin", "PYTHONDONTWRITEBYTECODE": "1", **environment}
    done = subprocess.run(inside, capture_output=True, text=True, env={**environment, "PATH": environment["PATH"] + ":/usr/sbin:/sbin"})
    return done.returncode, done.stdout, done.stderr


def is_possible(root):
    """Whether this machine lets a program have another root."""
    try:
        return run(root, "/usr/bin/true")[0] == 0
    except OSError:
        return False
