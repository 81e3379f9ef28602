"""Layers with bytes cut or changed, and windows with a character changed, by which the program is compared with plain.py."""
import os
import random
import threading
from concurrent.futures import ThreadPoolExecutor

import plain
from harness import answered, count, fault, run, table, written

# Where a layer is refused its windows don't matter; else its windows are near its own vertices and boxes.
ANYWHERE = ["x=0..1,y=0..1", "x=2..3,y=-1..4,z=0..1"]
# Layers longer than this are collections nested deep, whose bytes before the last ones are all alike.
LAST = 64
# Numbers of a window have at most 27 digits before the point.
GREATEST = 10**34 - 1
FORM = b"not of the form x=A..B,y=C..D[,z=E..F][,m=G..H]"
ORDER = b"lower bound above upper bound"
WINDOWS = ["x=-0.5..0.0000001,y=1..1", "x=007..7.0,y=-0..0,z=0..10,m=0.25..3"]


def variants(layer):
    """The layer cut before each of its last bytes, and with each of them changed."""
    for place, byte in list(enumerate(layer))[-LAST:]:
        yield layer[:place]
        for other in {0, 1, byte ^ 1, byte ^ 2, byte ^ 16, byte ^ 128, 255} - {byte}:
            yield layer[:place] + bytes([other]) + layer[place + 1 :]


def number(units):
    whole, fraction = divmod(abs(units), 10**7)
    return f"{'-' * (units < 0)}{whole}" + f".{fraction:07}" * (fraction > 0)


def near(values, chance):
    """A range that begins and ends at two of these values, or a unit beside them."""
    ends = [chance.choice(values) + chance.choice([-1, 0, 0, 1]) for _ in range(2)]
    low, high = sorted(max(-GREATEST, min(end, GREATEST)) for end in ends)
    return f"{number(low)}..{number(high)}"


def windows_near(blobs, chance):
    """Two windows whose ranges end where vertices and boxes of the blobs do, or a unit before or after."""
    values = [{0} for _ in plain.AXES]
    for blob in blobs:
        for axis, found in enumerate(values):
            found.update(vertex[axis] for vertex in blob.vertices if vertex[axis] is not None)
            found.update(blob.head.box[axis] or () if blob.head.box else ())
    chosen = [plain.AXES[:2] + chance.choice(["", "", "z", "m", "zm"]) for _ in range(2)]
    return [",".join(f"{axis}={near(sorted(values[plain.AXES.index(axis)]), chance)}" for axis in axes) for axes in chosen]


def comparison(program, folder, data):
    """The words of commands on a layer, with what they gave and what they have to give.

    A refused layer gives one line under every command, so besides `check` only one of the others is tried on it.
    """
    layer = written(folder, f"changed_{threading.get_ident()}.twkb", data)
    chance = random.Random(data)
    certified = not plain.check(data).startswith("no")
    texts = windows_near(plain.blobs_of(data), chance) if certified else ANYWHERE
    windows = [plain.window_of(text) for text in texts]
    others = [
        (["list", layer], plain.rows(data)),
        (["scan", layer, texts[0]], plain.scan(data, windows[:1])),
        (["scan", layer, *texts], plain.scan(data, windows)),
    ]
    checks = [(["check", layer], plain.check(data)), (["check", "--tight", layer], plain.check(data, tight=True))]
    wanted = [*checks, *(others if certified else [chance.choice(others)])]
    return [(words, run([program, *words]), answered(text)) for words, text in wanted]


def layers(program, folder):
    small = {row[2] for row in table("cases.tsv")}
    changed = sorted({variant for row in small for variant in variants(bytes.fromhex(row))})
    with ThreadPoolExecutor(os.cpu_count()) as pool:
        for data, runs in zip(changed, pool.map(lambda data: comparison(program, folder, data), changed)):
            for words, got, wanted in runs:
                count(f"changed: {words[0]} {words[2:]}: {data.hex()}", got, wanted)


def window_texts():
    """Texts of windows with a character left out or changed; one that begins with `-` would be no window but a flag."""
    for text in WINDOWS:
        for place in range(len(text)):
            yield text[:place] + text[place + 1 :]
            for other in "0.-,x" if place else "0.,x":
                yield text[:place] + other + text[place + 1 :]


def windows(program, layer, data):
    texts = sorted(set(window_texts()))
    with ThreadPoolExecutor(os.cpu_count()) as pool:
        for text, got in zip(texts, pool.map(lambda text: run([program, "scan", layer, text]), texts)):
            window = plain.window_of(text)
            reasons = {"form": FORM, "order": ORDER}
            why = reasons.get(window) if isinstance(window, str) else None
            count(f"window {text}", got, fault(b"window 1: " + why, 2) if why else answered(plain.scan(data, [window])))
