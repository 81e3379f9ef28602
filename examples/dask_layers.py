#!/usr/bin/env python3
"""Certifies each layer below a folder on a Dask cluster, and scans it if windows are given.

usage: dask_layers.py [--scheduler ADDRESS | --workers N] [--batch BYTES] [--tight] FOLDER [WINDOW ..]

A task is a batch of layers of some megabytes, and tasks share no state. So if a worker is lost, another one runs its batch
again, and each layer has one result. If a batch ends several workers in turn, its layers are run again one by one, so that
only the layer that does so isn't judged. Prints what `twkb_tool check` prints for a layer, or `twkb_tool scan` for each
window separately, with the file's name and a tab before each line. Layers are printed in the order in which they are done.
A path with control characters, or bytes that aren't text, is printed as a string of JSON. If standard error is a terminal, it
gets a line of progress. The exit status is 0 if all layers are certified, 1 if some are refused, 2 for a
bad command line, and 3 if some weren't judged, or if there is no layer at all: standard error says why.

FOLDER is a folder of this machine, or with fsspec (python3-fsspec) an address that it reads, such as s3://BUCKET/LAYERS: the
workers then need the package that fsspec needs for it, and its secrets. Without --scheduler the cluster is N processes of
this machine, which end with the script; by default N is the number of cores. With --scheduler, every worker has to reach
FOLDER under this name, and to have dozhemik and its library:

    dask-scheduler
    PYTHONPATH=bindings/python TWKB_LIBRARY=build/bindings/libtwkb.so dask-worker ADDRESS    (on each machine)
"""
import argparse
import json
import os
import sys
import time
from concurrent.futures import ThreadPoolExecutor

try:
    from distributed import Client, LocalCluster, as_completed
except ImportError:
    print("dask_layers.py: distributed is missing: apt-get install python3-distributed", file=sys.stderr)
    sys.exit(3)
from dozhemik import BadWindow, Refused, Window, certify

# The default of --batch. A task costs some 7 ms on top of its work, and certifying this many bytes takes about as long.
BATCH = 4_000_000
# As many bytes are certified in the time that it takes to open a file, so a batch of small layers has a hundred at most.
OPENING = 40_000
# How many layers of its batch a worker reads at once: object storage answers each after some time.
READERS = 16


def answers(paths, windows, tight):
    """A task: returns the status and the lines of each layer."""
    with ThreadPoolExecutor(READERS) as readers:
        return [answer(data, windows, tight) for data in readers.map(content, paths)]


def content(path):
    """The bytes of a layer, or why there are none."""
    try:
        if "://" not in path:
            with open(path, "rb") as file:
                return file.read()
        import fsspec

        with fsspec.open(path, "rb") as file:
            return file.read()
    except Exception as why:
        # The packages that fsspec uses have errors of their own.
        return why


def answer(data, windows, tight):
    if isinstance(data, Exception):
        return 3, [not_judged(data)]
    try:
        with certify(data, tight=tight) as layer:
            return 0, list(lines(layer, windows))
    except Refused as why:
        return 1, [f"no {why}"]
    except MemoryError as why:
        return 3, [not_judged(why)]


def lines(layer, windows):
    if not windows:
        yield f"ok blobs={layer.blobs} vertices={layer.vertices}"
    for window in windows:
        scan = layer.scan(window)
        yield from (f"hit {hit}" for hit in scan)
        yield f"hits={len(scan)} read={scan.bytes_read} of={layer.size}"


def not_judged(why):
    return f"not judged: {type(why).__name__}: {why}".replace("\n", " ")


def layers_below(folder):
    """The name and the size of each layer, in the order of names."""
    found = addresses_below(folder) if "://" in folder else files_below(folder)
    layers = sorted((path, size) for path, size in found if path.endswith(".twkb"))
    if not layers:
        raise OSError(f"no layer (*.twkb) is below {folder}")
    return layers


def files_below(folder):
    def fail(why):
        raise why

    for place, _, names in os.walk(folder, onerror=fail):
        for path in (os.path.join(place, name) for name in names):
            # A broken link is a layer that can't be read. A pipe is no layer.
            if os.path.isfile(path):
                yield path, os.path.getsize(path)
            elif not os.path.exists(path):
                yield path, 0


def addresses_below(folder):
    try:
        import fsspec
    except ImportError:
        raise OSError("fsspec is missing: apt-get install python3-fsspec")
    try:
        system, place = fsspec.core.url_to_fs(folder)
        found = system.find(place, detail=True)
    except Exception as why:
        # The packages that fsspec uses have errors of their own.
        raise OSError(f"{folder}: {type(why).__name__}: {why}")
    for path, told in found.items():
        # What is neither a file nor a link, such as a pipe, is no layer.
        if told["type"] == "file" or told.get("islink"):
            yield system.unstrip_protocol(path), told["size"] or 0


def batches_of(layers, most):
    """The paths of layers, in batches of at most this many bytes or of one layer."""
    batch, weight = [], 0
    for path, size in layers:
        if batch and weight + size + OPENING > most:
            yield batch
            batch, weight = [], 0
        batch.append(path)
        weight += size + OPENING
    yield batch


class Run:
    """The batches that are running, and the results of those that are done."""

    def __init__(self, client, windows, tight):
        self.client, self.windows, self.tight = client, windows, tight
        self.batches, self.statuses = {}, {0: 0, 1: 0, 3: 0}

    def start(self, paths):
        # Not pure, so that two runs share no results: the files may have changed.
        names = [path if "://" in path else os.path.abspath(path) for path in paths]
        future = self.client.submit(answers, names, self.windows, self.tight, pure=False)
        self.batches[future] = paths
        return future

    def end(self, future):
        """Prints the lines of a batch that is done. Returns the batches that are started again instead."""
        paths = self.batches.pop(future)
        try:
            told = future.result()
        except Exception as why:
            # For example, a batch that has ended several workers in turn.
            if len(paths) > 1:
                return [self.start([path]) for path in paths]
            told = [(3, [not_judged(why)])]
        future.release()
        for path, (status, text) in zip(paths, told):
            self.statuses[status] += 1
            stream = sys.stderr if status == 3 else sys.stdout
            shown = path if path.isprintable() else json.dumps(path)
            stream.write("".join(f"{shown}\t{line}\n" for line in text))
            stream.flush()
        return []


def run(client, layers, words):
    """Prints the lines of each layer as its batch is done. Returns how many layers have each status."""
    work, start = Run(client, words.windows, words.tight), time.monotonic()
    futures = as_completed([work.start(batch) for batch in batches_of(layers, words.batch)])
    watched = sys.stderr.isatty()
    for future in futures:
        if watched:
            # A result begins on an empty line.
            print("\r\x1b[K", end="", file=sys.stderr, flush=True)
        futures.update(work.end(future))
        if watched:
            done, refused, unjudged = sum(work.statuses.values()), work.statuses[1], work.statuses[3]
            progress = f"{done} of {len(layers)} layers, {refused} refused, {unjudged} not judged"
            print(f"{progress}, {time.monotonic() - start:.2f} s", end="", file=sys.stderr, flush=True)
    if watched:
        print(file=sys.stderr)
    return work.statuses


def asked():
    words = argparse.ArgumentParser(description="Certifies and scans the layers below a folder on a Dask cluster.")
    where = words.add_mutually_exclusive_group()
    where.add_argument("--scheduler", metavar="ADDRESS", help="of a cluster that runs")
    where.add_argument("--workers", metavar="N", type=some, default=os.cpu_count(), help="processes of this machine, from 1")
    words.add_argument("--batch", metavar="BYTES", type=some, default=BATCH, help=f"of the layers of a task, about: {BATCH}")
    words.add_argument("--tight", action="store_true", help="refuse loose boxes too")
    words.add_argument("folder", metavar="FOLDER")
    words.add_argument("windows", metavar="WINDOW", nargs="*", type=window, help="x=A..B,y=C..D[,z=E..F][,m=G..H]")
    return words.parse_args()


def some(text):
    """A number of workers or bytes. With no workers the cluster would wait for ever."""
    if not text.isdecimal() or int(text) < 1:
        raise argparse.ArgumentTypeError(f"{text!r} is no number from 1 on")
    return int(text)


def window(text):
    try:
        return Window.parse(text)
    except BadWindow as why:
        raise argparse.ArgumentTypeError(str(why))


def run_asked(words):
    layers = layers_below(words.folder)
    if words.scheduler:
        with Client(words.scheduler) as client:
            statuses = run(client, layers, words)
    else:
        local = {"n_workers": words.workers, "threads_per_worker": 1, "dashboard_address": None}
        with LocalCluster(**local) as cluster, Client(cluster) as client:
            statuses = run(client, layers, words)
    return max((status for status, count in statuses.items() if count), default=0)


def main():
    words = asked()
    # File names are bytes, whatever they say.
    sys.stdout.reconfigure(errors="surrogateescape")
    sys.stderr.reconfigure(errors="surrogateescape")
    try:
        return run_asked(words)
    except OSError as why:
        print(f"dask_layers.py: {why}", file=sys.stderr)
        return 3


if __name__ == "__main__":
    sys.exit(main())
