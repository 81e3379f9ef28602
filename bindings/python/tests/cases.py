#!/usr/bin/env python3
"""Takes the words of the program twkb_tool, and prints what it prints on standard output, by the package.

usage: cases.py check [--tight] FILE | list FILE | scan FILE WINDOW..

As the program does, it makes a directory first where there are two windows or more. The status is the program's: 0, 1 for a layer that is refused, 2 for bad words, else 3.
"""
import os
import sys
from pathlib import Path
from typing import Iterable, Iterator, List, Tuple

sys.path.insert(0, os.path.join(os.path.dirname(os.path.abspath(__file__)), ".."))
import dozhemik

USAGE = "usage: cases.py check [--tight] FILE | list FILE | scan FILE WINDOW.."


class BadWords(ValueError):
    pass


def asked(words: List[str]) -> Tuple[str, bool, str, List[dozhemik.Window]]:
    """The command, whether it is tight, the file, and the windows."""
    tight = words[:1] == ["check"] and len(words) == 3 and "--tight" in words[1:]
    if tight:
        words = [word for word in words if word != "--tight"]
    command, file = words[:2] if len(words) > 1 else ("", "")
    if command == "scan" and len(words) > 2:
        return command, False, file, [dozhemik.Window.parse(text) for text in words[2:]]
    if command not in ("check", "list") or len(words) != 2:
        raise BadWords(USAGE)
    return command, tight, file, []


def lines(layer: dozhemik.Layer, command: str, windows: List[dozhemik.Window]) -> Iterator[str]:
    if command == "check":
        yield f"ok blobs={layer.blobs} vertices={layer.vertices}"
    if command == "list":
        yield from map(str, layer.list())
    scans: Iterable[dozhemik.Scan] = layer.scan_many(windows) if len(windows) > 1 else map(layer.scan, windows)
    for scan in scans:
        yield from (f"hit {hit}" for hit in scan)
        yield f"hits={len(scan)} read={scan.bytes_read} of={layer.size}"


def answered(words: List[str]) -> Tuple[int, str]:
    """The status and the text of a run with these words."""
    command, tight, path, windows = asked(words)
    try:
        with dozhemik.certify(Path(path), tight=tight) as layer:
            return 0, "".join(f"{line}\n" for line in lines(layer, command, windows))
    except dozhemik.Refused as why:
        return 1, f"no {why}\n"


def main() -> int:
    try:
        status, text = answered(sys.argv[1:])
    except (BadWords, dozhemik.BadWindow) as why:
        print(f"cases.py: {why}", file=sys.stderr)
        return 2
    except (OSError, MemoryError) as why:
        print(f"cases.py: {why}", file=sys.stderr)
        return 3
    sys.stdout.write(text)
    return status


if __name__ == "__main__":
    sys.exit(main())
