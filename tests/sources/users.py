"""Finds which modules of a crate use which, by their imports, and whether the first lines of a module say so."""
import os
import re

from sources.files import files, text_of

IMPORT = re.compile(r"^\s*use (?:(crate|self|super(?:::super)*)::)?((?:\w+::)*)(?:\{([^}]*)\}|(\w+))", re.MULTILINE)
EXPORT = re.compile(r"^pub use (\w+)::", re.MULTILINE)
SAID = re.compile(r"Used by ([^.]*)\.")
# The root of a library only exports, and laws are functions that nothing calls.
LIBRARY, PROGRAM, LAWS = "lib", "main", "laws"


def modules(top, crate):
    """Maps each module of a crate but tests to its text. A module is named by its path, such as `cursor/points`."""
    folder = os.path.join(top, "crates", crate, "src")
    paths = (path for path in files(top, crate, "src", ".rt") if "tests" not in os.path.relpath(path, folder)[:-3].split(os.sep))
    return {os.path.relpath(path, folder)[:-3]: text_of(path) for path in paths}


def imported(module, text, all_modules):
    """Yields the modules from which a module imports something."""
    for start, path, group, name in IMPORT.findall(text):
        parts = module.split("/") if start not in ("", "crate") else []
        full = [*parts[: len(parts) - start.count("super")], *path.split("::")[:-1]]
        for item in (group or name).split(","):
            whole = [*full, item.strip().split("::")[0]]
            found = ("/".join(whole[:length]) for length in range(len(whole), 0, -1))
            if last := next((one for one in found if one in all_modules), None):
                yield last


def users(top, crate):
    """Maps each module to the modules that use it, and to "other crates" if something of it is exported."""
    texts = modules(top, crate)
    found = {module: set() for module in texts}
    for module, text in texts.items():
        for used in imported(module, text, texts) if module != LIBRARY else ():
            if used != module and not module.startswith(f"{used}/"):
                found[used].add(module)
    for module in EXPORT.findall(texts.get(LIBRARY, "")):
        found.get(module, set()).add("other crates")
    return {module: names for module, names in found.items() if module not in (LIBRARY, PROGRAM, LAWS)}


def unsaid(top, crate):
    """Yields an error for each module that is used elsewhere and whose first lines say otherwise."""
    texts = modules(top, crate)
    for module, names in users(top, crate).items():
        comment = " ".join(line[4:] for line in texts[module].splitlines() if line.startswith("//!"))
        said = SAID.search(comment)
        told = set(re.findall(r"`([^`]*)`|(other crates)", said[1])) if said else set()
        if names != {one or other for one, other in told}:
            yield f"crates/{crate}/src/{module}.rt doesn't say that it is used by {', '.join(sorted(names)) or 'nothing'}"
