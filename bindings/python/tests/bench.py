#!/usr/bin/env python3
"""Times certifying and listing a layer, scanning it for a thousand windows, with a directory and without, by one thread,
by four and by four processes, and calls on a layer of seven bytes. With a directory the windows are scanned for in one
call of the library, and once more in a call for each.

usage: bench.py FILE

The windows are tiles of the world, nine degrees wide and seven high. bindings/c/bench.c times the same, and prints the
same sums.
"""
import os
import sys
import time
from concurrent.futures import ThreadPoolExecutor
from pathlib import Path
from typing import Callable, Iterable, List, Tuple, TypeVar

sys.path.insert(0, os.path.join(os.path.dirname(os.path.abspath(__file__)), ".."))
import dozhemik

WINDOWS, CALLS, THREADS = 1000, 100_000, 4
# A line from 1 1 to 5 5.
LINE = bytes((2, 0, 2, 2, 2, 8, 8))
Answer = TypeVar("Answer")


def timed(work: Callable[[], Answer]) -> Tuple[float, Answer]:
    """The seconds that it takes, and its answer."""
    start = time.perf_counter()
    answer = work()
    return time.perf_counter() - start, answer


def tile(number: int) -> dozhemik.Window:
    """One of a thousand tiles: forty columns and 25 rows."""
    x, y = 9 * (number % 40) - 180, 7 * (number // 40) - 90
    return dozhemik.Window((x, x + 9), (y, y + 7))


def sums(scans: Iterable[dozhemik.Scan]) -> Tuple[int, int]:
    """How many hits and bytes read they have together."""
    hits = read = 0
    for scan in scans:
        hits, read = hits + len(scan), read + scan.bytes_read
    return hits, read


def show(title: str, took: float, answer: Tuple[int, int]) -> None:
    print(f"{title}, {WINDOWS} windows: {took * 1e3:.1f} ms, {answer[0]} hits, {answer[1]} bytes read")


def time_scans(layer: dozhemik.Layer, windows: List[dozhemik.Window]) -> None:
    show("scan", *timed(lambda: sums(map(layer.scan, windows))))
    took, directory = timed(layer.directory)
    print(f"directory: {took * 1e3:.1f} ms")
    alone, answer = timed(lambda: sums(directory.scan_many(windows)))
    show("directory scan", alone, answer)
    show("directory scan one by one", *timed(lambda: sums(map(directory.scan, windows))))
    with ThreadPoolExecutor(THREADS) as pool:
        threads, answers = timed(lambda: list(pool.map(lambda _: sums(directory.scan_many(windows)), range(THREADS))))
    assert answers == [answer] * THREADS
    processes, _ = timed(lambda: in_processes(lambda: directory.scan_many(windows)))
    print(f"directory scan by {THREADS} threads, to one: {THREADS * alone / threads:.2f} times")
    print(f"directory scan by {THREADS} threads, to {THREADS} processes: {processes / threads:.2f} times")


def in_processes(work: Callable[[], object]) -> None:
    """The work by as many processes at once as there are threads, which share no lock."""
    children = []
    for _ in range(THREADS):
        child = os.fork()
        if child == 0:
            work()
            os._exit(0)
        children.append(child)
    for child in children:
        os.waitpid(child, 0)


def time_calls() -> None:
    took, _ = timed(lambda: [dozhemik.certify(LINE) for _ in range(CALLS)])
    print(f"certify, a call on seven bytes: {took / CALLS * 1e9:.1f} ns")
    layer, window = dozhemik.certify(LINE), dozhemik.Window((0, 1), (0, 1))
    took, _ = timed(lambda: [layer.scan(window) for _ in range(CALLS)])
    print(f"scan, a call on seven bytes: {took / CALLS * 1e9:.1f} ns")
    took, _ = timed(lambda: [dozhemik.Window((0.25, 1.5), (0, 1)) for _ in range(CALLS)])
    print(f"a window of two floats and two ints: {took / CALLS * 1e9:.1f} ns")


def main() -> int:
    if len(sys.argv) != 2:
        print("usage: bench.py FILE", file=sys.stderr)
        return 2
    data = Path(sys.argv[1]).read_bytes()
    took, layer = timed(lambda: dozhemik.certify(data))
    print(f"certify: {took * 1e3:.1f} ms, {layer.blobs} blobs, {layer.vertices} vertices")
    took, table = timed(layer.table)
    print(f"list: {took * 1e3:.1f} ms, {len(table) // 40} rows")
    took, rows = timed(layer.list)
    print(f"list, an object a row: {took * 1e3:.1f} ms, {len(rows)} rows")
    del table, rows
    time_scans(layer, [tile(number) for number in range(WINDOWS)])
    time_calls()
    return 0


if __name__ == "__main__":
    sys.exit(main())
