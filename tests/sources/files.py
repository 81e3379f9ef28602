"""Finds and reads the files of the crates."""
import os

TOP = os.path.dirname(os.path.dirname(os.path.dirname(os.path.abspath(__file__))))
# The crates with contracts for users of the program or of the library. A crate comes after those that it uses.
CRATES = ("twkb_num", "twkb_head", "twkb_body", "twkb_layer", "twkb_tool", "twkb_call", "twkb_c", "twkb_web")


def text_of(*path):
    """Reads a file. The path can be given in parts."""
    with open(os.path.join(*path), encoding="utf-8") as file:
        return file.read()


def write(text, *path):
    """Writes a file, and creates its folder if needed."""
    os.makedirs(os.path.dirname(os.path.join(*path)), exist_ok=True)
    with open(os.path.join(*path), "w", encoding="utf-8") as file:
        file.write(text)


def all_crates(top):
    """Lists the folders of all crates."""
    return sorted(entry.name for entry in os.scandir(os.path.join(top, "crates")) if entry.is_dir())


def listed_crates(top=TOP):
    """Maps the name of each crate in crates.txt to its line, which is `NAME:` or `NAME KIND:` and the crates that it uses."""
    lines = [line for line in text_of(top, "crates.txt").splitlines() if line and not line.startswith("#")]
    return {line.partition(":")[0].split()[0]: line for line in lines}


def files(top, crate, folder, ending=".antt"):
    """Yields the paths of the files with this ending in a folder of a crate, and in the folders below it, in a fixed order."""
    for place, folders, names in os.walk(os.path.join(top, "crates", crate, folder)):
        folders.sort()
        yield from (os.path.join(place, name) for name in sorted(names) if name.endswith(ending))
