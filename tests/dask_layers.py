#!/usr/bin/env python3
"""Runs examples/dask_layers.py on local clusters, of which one loses a worker in mid-run, and one has a layer that ends each worker:
each layer is answered once.

usage: tests/dask_layers.py [PROGRAM]   (build/twkb_tool where it is left out)

The environment names the library (TWKB_LIBRARY). What is answered is compared with what the program prints of the same
layers. Where the interpreter has no distributed, Debian's is tried, and where that has none either, it is only seen that
the script says what brings it. Prints each difference, and last a line `N passed, M failed`; the status is 1 where any
failed.
"""
import importlib.util
import itertools
import json
import os
import re
import signal
import subprocess
import sys
import tempfile
import time

from harness import TOP, count, counts, left_out, written

SCRIPT = os.path.join(TOP, "examples", "dask_layers.py")
ENVIRONMENT = os.environ | {"PYTHONPATH": os.path.join(TOP, "bindings", "python")}
DEBIANS = "/usr/bin/python3"
WINDOWS = ["x=10..30,y=35..45", "x=-0.5..180,y=-90..90,z=0..10"]
WORKERS, COPIES = 3, 40


def example(name):
    with open(os.path.join(TOP, "examples", f"{name}.twkb"), "rb") as file:
        return file.read()


def contents():
    """Layers that take some time, of which one is refused at its end, and small ones."""
    lines = example("coast_lines_sized") * 100
    return {
        "lines": lines,
        "cut": lines[:-1],
        "z": example("coast_z") * 200,
        "nothing": b"",
        "text": b"01000204",
    }


def folder_of(folder, copies):
    """A folder with many names of few layers, and with what is none."""
    os.makedirs(os.path.join(folder, "deep"))
    first = {name: written(folder, f"{name}.twkb", data) for name, data in contents().items()}
    for name, number in itertools.product(first, range(copies)):
        os.link(first[name], os.path.join(folder, "deep", f"{name} {number}.twkb"))
    written(folder, "no layer.txt", b"text")
    os.mkfifo(os.path.join(folder, "pipe.twkb"))


def wanted(program, folder, windows):
    """The lines of each layer as the program prints them, and the status."""
    told, statuses = {}, {0}
    runs = [["check"]] if not windows else [["scan", window] for window in windows]
    for name in contents():
        lines = []
        for words in runs:
            layer = os.path.join(folder, f"{name}.twkb")
            done = subprocess.run([program, words[0], layer, *words[1:]], stdout=subprocess.PIPE, text=True)
            lines += done.stdout.splitlines()
            statuses.add(done.returncode)
        # A refused layer is refused once, however many windows there are.
        told[name] = lines[:1] if lines[0].startswith("no ") else lines
    return told, max(statuses)


def compare(name, folder, told, wanted_lines):
    """Each layer is printed once, with its lines together and in their order."""
    rows = [row.split("\t") for row in told.splitlines()]
    blocks = [(path, [row[1] for row in rows]) for path, rows in itertools.groupby(rows, key=lambda row: row[0])]
    paths = [os.path.join(at, file) for at, _, files in os.walk(folder) for file in files if file.endswith(".twkb")]
    paths = [path for path in paths if os.path.isfile(path)]
    count(f"{name}: each layer once", sorted(path for path, _ in blocks), sorted(paths))
    kinds = [(path, os.path.basename(path).split(".")[0].split()[0]) for path, _ in blocks]
    differ = [path for (path, kind), (_, lines) in zip(kinds, blocks) if lines != wanted_lines[kind]]
    count(f"{name}: as the program prints them", differ, [])


def script(*words):
    return [sys.executable, SCRIPT, *words]


def of_its_own(program, folder):
    """The script starts its cluster, and nothing is lost."""
    for windows in ([], WINDOWS):
        done = subprocess.run(script("--workers", "2", folder, *windows), env=ENVIRONMENT, capture_output=True)
        lines, status = wanted(program, folder, windows)
        count(f"its status: {windows}", done.returncode, status)
        compare(f"its cluster: {windows}", folder, done.stdout.decode(), lines)
        count("no progress where nobody watches", done.stderr, b"")


def on_a_terminal(program, folder):
    """Results and progress on one terminal share no line."""
    leader, follower = os.openpty()
    run = subprocess.Popen(script("--workers", "2", folder), env=ENVIRONMENT, stdout=follower, stderr=follower)
    os.close(follower)
    told = progress_until(leader, sys.maxsize)
    os.close(leader)
    lines, status = wanted(program, folder, [])
    count("on a terminal: its status", run.wait(60), status)
    # What a line shows is what follows the last time that it was emptied.
    shown = [line.rsplit("\r\x1b[K", 1)[-1] for line in told.split("\r\n")]
    compare("on a terminal", folder, "".join(f"{line}\n" for line in shown if "\t" in line), lines)
    count("on a terminal: progress", re.sub(r"\d+\.\d\d", "T", shown[-2]), "205 of 205 layers, 82 refused, 0 not judged, T s")


def certified_alone(folder):
    os.mkdir(folder)
    written(folder, "point.twkb", bytes.fromhex("01000204"))
    written(folder, "a\nfalse.twkb", b"")
    os.rename(written(folder, "name", b""), os.path.join(os.fsencode(folder), b"a\xff.twkb"))
    done = subprocess.run(script("--workers", "1", folder), env=ENVIRONMENT, capture_output=True)
    lines = [f'"{folder}/a\\nfalse.twkb"\tok blobs=0 vertices=0', f'"{folder}/a\\udcff.twkb"\tok blobs=0 vertices=0']
    lines = [line.encode() for line in (*lines, f"{folder}/point.twkb\tok blobs=1 vertices=1")]
    count("names that are no text", sorted(done.stdout.splitlines()), lines)
    count("the status of certified layers", done.returncode, 0)


def words_refused(folder):
    os.mkdir(folder + " with none")
    tried = [([], 2), ([folder, "x=1..0,y=0..1"], 2), ([folder + "/missing"], 3), ([folder + " with none"], 3)]
    for workers, (words, status) in [*(("1", one) for one in tried), ("0", ([folder], 2)), ("-2", ([folder], 2)), ("1", (["--batch", "0", folder], 2))]:
        done = subprocess.run(script("--workers", workers, *words), env=ENVIRONMENT, capture_output=True, text=True, timeout=60)
        count(f"bad words: --workers {workers} {words}", (done.returncode, done.stdout), (status, ""))


def link_to_nothing(folder):
    """A layer that can't be read isn't passed over."""
    os.mkdir(folder)
    os.symlink("nothing", os.path.join(folder, "lost.twkb"))
    done = subprocess.run(script("--workers", "1", folder), env=ENVIRONMENT, capture_output=True, text=True)
    count("a link to nothing", (done.returncode, done.stdout, "lost.twkb\tnot judged" in done.stderr), (3, "", True))


def unreadable(folder):
    """A layer that no memory holds, beside one that is read."""
    os.mkdir(folder)
    written(folder, "point.twkb", bytes.fromhex("01000204"))
    with open(os.path.join(folder, "vast.twkb"), "wb") as file:
        file.truncate(1 << 43)
    done = subprocess.run(script("--workers", "1", folder), env=ENVIRONMENT, capture_output=True, text=True)
    said = f"{folder}/vast.twkb\tnot judged: MemoryError" in done.stderr
    count("a layer that no memory holds", (done.returncode, done.stdout, said), (3, f"{folder}/point.twkb\tok blobs=1 vertices=1\n", True))


# Ends the process that certifies a certain layer, as a layer would that no memory of its worker holds.
POISON = """
import os
import dozhemik

certify_it = dozhemik.certify


def certify(data, **words):
    if data == b"poison":
        os._exit(9)
    return certify_it(data, **words)


dozhemik.certify = certify
"""


def poisoned(folder):
    """A batch that ends each of its workers is run again layer by layer, and only the layer that does it isn't judged."""
    layers, place = os.path.join(folder, "layers"), os.path.join(folder, "place")
    os.makedirs(layers)
    os.mkdir(place)
    written(place, "sitecustomize.py", POISON.encode())
    for number in range(4):
        written(layers, f"{number}.twkb", bytes.fromhex("01000204"))
    written(layers, "2 poison.twkb", b"poison")
    path = os.pathsep.join((place, ENVIRONMENT["PYTHONPATH"]))
    done = subprocess.run(script("--workers", "2", layers), env=ENVIRONMENT | {"PYTHONPATH": path}, capture_output=True, text=True)
    wanted = [f"{layers}/{number}.twkb\tok blobs=1 vertices=1" for number in range(4)]
    count("a batch with a layer that ends its workers", (done.returncode, sorted(done.stdout.splitlines())), (3, wanted))
    count("that layer", done.stderr.count(f"{layers}/2 poison.twkb\tnot judged: KilledWorker"), 1)


def batches():
    """Runs of layers, each once and in order, of as many bytes as are asked for or of one layer."""
    sys.path.insert(0, os.path.dirname(SCRIPT))
    sys.path.insert(0, ENVIRONMENT["PYTHONPATH"])
    from dask_layers import BATCH, OPENING, batches_of

    for sizes in ([], [0], [10**9], [0] * 250, [5, 10**7, 5, 10**7], [1_000_000] * 10, list(range(0, 3_000_000, 70_000))):
        layers = [(f"{number}", size) for number, size in enumerate(sizes)]
        found = list(batches_of(layers, BATCH)) if layers else []
        count(f"batches of {len(sizes)}: all, in order", [path for batch in found for path in batch], [path for path, _ in layers])
        weights = [sum(sizes[int(path)] + OPENING for path in batch) for batch in found]
        count(f"batches of {len(sizes)}: not too large", [len(batch) for batch, weight in zip(found, weights) if weight > BATCH and len(batch) > 1], [])
        full = [weight + sizes[int(after[0])] + OPENING > BATCH for weight, after in zip(weights, found[1:])]
        count(f"batches of {len(sizes)}: full", all(full), True)


def by_fsspec(program, folder):
    """The folder of the layers is named by an address."""
    if importlib.util.find_spec("fsspec") is None:
        left_out("fsspec is missing, so no address was tried: apt-get install python3-fsspec")
        return
    done = subprocess.run(script("--workers", "2", f"file://{folder}", *WINDOWS), env=ENVIRONMENT, capture_output=True, text=True)
    lines, status = wanted(program, folder, WINDOWS)
    count("by an address: its status", done.returncode, status)
    compare("by an address", folder, done.stdout.replace("file://", ""), lines)
    for address, said in ((f"file://{folder}/missing", "no layer"), ("nosuch://layers", "dask_layers.py: nosuch://layers: ValueError")):
        done = subprocess.run(script("--workers", "1", address), env=ENVIRONMENT, capture_output=True, text=True)
        count(f"by an address: {address}", (done.returncode, done.stdout, said in done.stderr), (3, "", True))


def started(words, **options):
    return subprocess.Popen([sys.executable, "-m", *words], env=ENVIRONMENT, **options)


def cluster(folder, stack):
    """A scheduler and workers, processes that nothing starts again. Answers the address, and the workers by name."""
    file, log = os.path.join(folder, "scheduler.json"), open(os.path.join(folder, "log"), "w")
    words = ["distributed.cli.dask_scheduler", "--host", "127.0.0.1", "--port", "0", "--no-dashboard"]
    stack.append(started([*words, "--scheduler-file", file], stdout=log, stderr=log))
    workers = {}
    for name in map(str, range(WORKERS)):
        words = ["distributed.cli.dask_worker", "--scheduler-file", file, "--no-nanny", "--no-dashboard"]
        workers[name] = started([*words, "--nthreads", "1", "--name", name], stdout=log, stderr=log)
        stack.append(workers[name])
    until(lambda: os.path.exists(file) and os.path.getsize(file) > 0)
    with open(file) as told:
        return json.load(told)["address"], workers


def until(there):
    end = time.monotonic() + 60
    while not there():
        if time.monotonic() > end:
            raise TimeoutError("the cluster doesn't get there")
        time.sleep(0.01)


def progress_until(terminal, done, text=""):
    """Reads the progress until `done` layers are done. Answers what was read."""
    while not any(int(number) >= done for number in re.findall(r"\r\x1b\[K(\d+) of", text)):
        try:
            text += os.read(terminal, 4096).decode()
        except OSError:
            # The terminal of a process that has ended.
            break
    return text


def one_lost(program, folder, scratch):
    """A worker is stopped in mid-run, and killed while tasks are its own."""
    from distributed import Client

    processes = []
    try:
        address, workers = cluster(scratch, processes)
        with Client(address) as client:
            client.wait_for_workers(WORKERS)
            addresses = {str(info["name"]): place for place, info in client.scheduler_info()["workers"].items()}
            out, (terminal, follower) = open(os.path.join(scratch, "out"), "w+"), os.openpty()
            run = subprocess.Popen(script("--scheduler", address, folder, *WINDOWS), env=ENVIRONMENT, stdout=out, stderr=follower)
            os.close(follower)
            processes.append(run)
            told = progress_until(terminal, COPIES)
            workers["1"].send_signal(signal.SIGSTOP)
            held = client.processing()[addresses["1"]]
            workers["1"].kill()
            workers["1"].wait()
            told = progress_until(terminal, sys.maxsize, told)
            os.close(terminal)
            status = run.wait(60)
            count("the workers that are left", len(client.scheduler_info()["workers"]), WORKERS - 1)
        out.seek(0)
        lines, wanted_status = wanted(program, folder, WINDOWS)
        count("the lost worker had tasks", len(held) > 0, True)
        print(f"lost in mid-run: a worker with {len(held)} tasks; {told.rstrip().rsplit(chr(13), 1)[-1][3:]}")
        count("its status", status, wanted_status)
        compare("a worker lost", folder, out.read(), lines)
        out.close()
    finally:
        for process in processes:
            if process.poll() is None:
                process.kill()
            process.wait()


def without_distributed():
    done = subprocess.run([sys.executable, "-S", SCRIPT, "."], env=ENVIRONMENT, capture_output=True, text=True)
    said = "dask_layers.py: distributed is missing: apt-get install python3-distributed\n"
    count("without distributed", (done.returncode, done.stdout, done.stderr), (3, "", said))


def has_distributed(python):
    return subprocess.run([python, "-c", "import distributed"], stderr=subprocess.DEVNULL).returncode == 0


def main():
    program = os.path.abspath(sys.argv[1] if len(sys.argv) > 1 else os.path.join(TOP, "build", "twkb_tool"))
    if not has_distributed(sys.executable):
        if os.path.exists(DEBIANS) and not os.path.samefile(DEBIANS, sys.executable) and has_distributed(DEBIANS):
            os.execv(DEBIANS, [DEBIANS, os.path.abspath(__file__), program])
        left_out("distributed is missing, so no cluster was tried: apt-get install python3-distributed")
    without_distributed()
    if has_distributed(sys.executable):
        with tempfile.TemporaryDirectory() as folder:
            layers = os.path.join(folder, "layers")
            folder_of(layers, COPIES)
            of_its_own(program, layers)
            on_a_terminal(program, layers)
            certified_alone(os.path.join(folder, "certified"))
            words_refused(layers)
            link_to_nothing(os.path.join(folder, "links"))
            unreadable(os.path.join(folder, "vast"))
            poisoned(os.path.join(folder, "poisoned"))
            batches()
            by_fsspec(program, layers)
            one_lost(program, layers, folder)
    print(f"{counts['passed']} passed, {counts['failed']} failed")
    return int(counts["failed"] > 0)


if __name__ == "__main__":
    sys.exit(main())
