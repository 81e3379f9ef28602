"""Layers to measure on: the examples over and over, of a size that is given."""
import os
import random

TOP = os.path.dirname(os.path.dirname(os.path.abspath(__file__)))
EXAMPLES = {
    "points": ["points_sized"],
    "lines": ["coast_lines_sized"],
    "Z and M": ["coast_z"],
    "collections": ["coast_collections"],
    "the mix": ["coast_collections", "coast_lines_sized", "coast_z", "points_sized"],
}
BARE_POINTS = "bare points"
BARE_LINES = "bare lines"
BARE_PARTS = "bare polygons and multilinestrings"
IDS = "lists with ids"
LONG = "long lines"
KINDS = [*EXAMPLES, BARE_POINTS, BARE_LINES, BARE_PARTS, IDS, LONG]
# A first byte that no blob begins with: a program reads the whole file, and then refuses its first byte.
NO_BLOB = b"\x0f"


def repeated(kind):
    """The bytes that are repeated: whole blobs, so that they stay a layer."""
    if kind in EXAMPLES:
        return b"".join(example(name) for name in EXAMPLES[kind])
    if kind == LONG:
        return long_line(random.Random(1), 400_000)
    if kind == BARE_POINTS:
        return bare_points(example("points_sized"))
    made_of_lines = {BARE_LINES: bare_lines, BARE_PARTS: bare_parts, IDS: lists_with_ids}[kind]
    return made_of_lines(list(lines_of(example("coast_lines_sized"))))


def example(name):
    return open(os.path.join(TOP, "examples", name + ".twkb"), "rb").read()


def write_layer(folder, kind, least_bytes, first=None):
    """Writes a layer of at least that many bytes, perhaps with another first byte, and gives its path and its copies."""
    piece = repeated(kind)
    copies = -(-least_bytes // len(piece))
    path = os.path.join(folder, f"{kind.replace(' ', '_')}_{least_bytes}{'_refused' if first else ''}.twkb")
    # In pieces: a process that is started from here counts this one's greatest memory as its own.
    with open(path, "wb") as file:
        file.write((first or piece[:1]) + piece[1:])
        for _ in range(copies - 1):
            file.write(piece)
    return path, copies


def varint(number):
    groups = bytearray()
    while number > 127:
        groups.append(number & 127 | 128)
        number >>= 7
    groups.append(number)
    return bytes(groups)


def signed(number):
    return varint(2 * number if number >= 0 else -2 * number - 1)


def number(data, place):
    """The number that a varint spells, and the place after it."""
    value = shift = 0
    while True:
        value |= (data[place] & 127) << shift
        place, shift = place + 1, shift + 7
        if data[place - 1] < 128:
            return value, place


def unsigned_to_signed(value):
    return value >> 1 ^ -(value & 1)


def lines_of(data):
    """The type byte, the body and the points of each line of a layer of lines with a size and a box."""
    place = 0
    while place < len(data):
        kind = data[place]
        size, place = number(data, place + 2)
        stop = place + size
        for _ in range(4):
            _, place = number(data, place)
        body, points, last = data[place:stop], [], [0, 0]
        count, place = number(data, place)
        for _ in range(count):
            for axis in range(2):
                difference, place = number(data, place)
                last[axis] += unsigned_to_signed(difference)
            points.append(tuple(last))
        yield kind, body, points


def bare_points(data):
    """A layer of points with a size, each without it."""
    out, place = bytearray(), 0
    while place < len(data):
        size, body = number(data, place + 2)
        out += bytes([data[place], 0]) + data[body : body + size]
        place = body + size
    return bytes(out)


def bare_lines(lines):
    """The lines with neither size nor box."""
    return b"".join(bytes([kind, 0]) + body for kind, body, _ in lines)


def bare_parts(lines):
    """Three lines each as a polygon of three rings or as a multiline, in turn, with neither size nor box."""
    out = bytearray()
    for first in range(0, len(lines) - 2, 3):
        kind = 3 if first % 2 == 0 else 5
        parts = parts_of([points for _, _, points in lines[first : first + 3]])
        out += bytes([lines[first][0] & 0xF0 | kind, 0]) + varint(3) + parts
    return bytes(out)


def parts_of(parts):
    """Lists of points under one header, whose differences run on from list to list."""
    body, last = bytearray(), (0, 0)
    for points in parts:
        body += varint(len(points))
        for point in points:
            body += signed(point[0] - last[0]) + signed(point[1] - last[1])
            last = point
    return bytes(body)


def lists_with_ids(lines):
    """Three lines each as a list of lines with ids, a size and a box."""
    out = bytearray()
    for first in range(0, len(lines) - 2, 3):
        three = [points for _, _, points in lines[first : first + 3]]
        box = bytearray()
        for axis in range(2):
            places = [point[axis] for points in three for point in points]
            box += signed(min(places)) + signed(max(places) - min(places))
        ids = b"".join(signed(first + index) for index in range(3))
        rest = bytes(box) + varint(3) + ids + parts_of(three)
        out += bytes([lines[first][0] & 0xF0 | 5, 0x07]) + varint(len(rest)) + rest
    return bytes(out)


def long_line(chance, vertices):
    """One line with a size and a box, whose differences are at most 5,000."""
    body = bytearray(varint(vertices))
    place, least, greatest = [0, 0], [5000, 5000], [-5000, -5000]
    for _ in range(vertices):
        for axis in range(2):
            step = chance.randint(-5000, 5000)
            body += signed(step)
            place[axis] += step
            least[axis] = min(least[axis], place[axis])
            greatest[axis] = max(greatest[axis], place[axis])
    box = b"".join(signed(low) + signed(high - low) for low, high in zip(least, greatest))
    return bytes([0x02, 0x03]) + varint(len(box) + len(body)) + box + bytes(body)
