"""A plain second program, by the rules of docs/FORMAT.md, to compare the program with.

`check(bytes)`, `check(bytes, tight=True)`, `rows(bytes)` and `scan(bytes, windows)` are the lines that `check`, `check
--tight`, `list` and `scan` have to print. `is_blob(bytes)` says whether bytes are one blob, whatever it claims. It is
short rather than fast: a geometry is read into a tree, and its claims are listed and judged afterwards; a scan looks at
every vertex for its hits, and adds up for what it reads.
"""
import functools
import re

TYPES = ["point", "linestring", "polygon", "multipoint", "multilinestring", "multipolygon", "geometrycollection"]
COLLECTION = 7
DEEPEST = 64
AXES = "xyzm"
RANGE = r"(-?\d{1,27}(?:\.\d{1,7})?)\.\.(-?\d{1,27}(?:\.\d{1,7})?)"
WINDOW = re.compile(f"x={RANGE},y={RANGE}(?:,z={RANGE})?(?:,m={RANGE})?", re.ASCII)


class Malformed(Exception):
    """A field that can't follow: its offset and the kind of the refusal."""


class Refused(Exception):
    """A layer that isn't certified: the blob, the offset and the kind."""


class Reader:
    def __init__(self, data):
        self.data, self.place = data, 0

    def byte(self):
        if self.place == len(self.data):
            raise Malformed(self.place, "cut")
        self.place += 1
        return self.data[self.place - 1]

    def unsigned(self):
        start, number = self.place, 0
        for group in range(10):
            if self.place == len(self.data):
                raise Malformed(start, "cut")
            byte = self.byte()
            number += byte % 128 * 128**group
            if group == 9 and byte > 1:
                raise Malformed(start, "varint")
            if byte < 128:
                return number

    def signed(self):
        return zigzag(self.unsigned())


def zigzag(number):
    return number // 2 if number % 2 == 0 else -(number + 1) // 2


class Head:
    """The header of a geometry at a depth, and where its size and its box are."""

    def __init__(self, reader, depth):
        at, first = reader.place, reader.byte()
        self.kind = first % 16
        if not 1 <= self.kind <= len(TYPES):
            raise Malformed(at, "type")
        if self.kind == COLLECTION and depth == DEEPEST:
            raise Malformed(at, "depth")
        self.metadata = reader.byte()
        self.precisions = [zigzag(first // 16), zigzag(first // 16), None, None]
        if self.metadata & 8:
            extended = reader.byte()
            self.precisions[2] = extended // 4 % 8 if extended & 1 else None
            self.precisions[3] = extended // 32 if extended & 2 else None
        self.axes = [axis for axis in range(4) if self.precisions[axis] is not None]
        self.size_at = reader.place
        self.size = reader.unsigned() if self.metadata & 2 else None
        self.box_at = reader.place
        self.box = [self.range(reader, axis) for axis in range(4)] if self.metadata & 1 else None

    def range(self, reader, axis):
        if axis not in self.axes:
            return None
        low = reader.signed()
        return self.units(axis, low), self.units(axis, low + reader.signed())

    def units(self, axis, coordinate):
        return coordinate * 10 ** (7 - self.precisions[axis])

    def holds(self, vertex):
        """Whether the box has the vertex in each axis that both have."""
        return all(
            self.box[axis] is None or vertex[axis] is None or self.box[axis][0] <= vertex[axis] <= self.box[axis][1]
            for axis in range(4)
        )

    def is_loose(self, vertices):
        """Whether an end of the box is a step of its precision or more beyond the vertices, in an axis that both have."""
        for axis in range(4):
            values = [vertex[axis] for vertex in vertices if vertex[axis] is not None]
            if self.box[axis] is not None and values:
                low, high = self.box[axis]
                step = self.units(axis, 1)
                if min(values) - low >= step or high - max(values) >= step:
                    return True
        return False

    def misses(self, window):
        """Whether there is a box, and it ends before the window or begins after it in an axis that both have."""
        return self.box is not None and any(
            ours is not None and its is not None and (ours[1] < its[0] or its[1] < ours[0])
            for ours, its in zip(self.box, window)
        )


class Geometry:
    """A geometry with its vertices, in units, as lists of a coordinate or None for each of X, Y, Z and M.

    Its header begins at `start`, its body at `body`, its first member at `inside`, and it ends before `stop`. What it and
    its members claim falsely goes to the claims, with its offset.
    """

    def __init__(self, reader, depth, claims):
        self.reader, self.depth, self.claims, self.start = reader, depth, claims, reader.place
        self.head = Head(reader, depth)
        self.last, self.vertices, self.members, self.ids_at, self.ids = [0] * 4, [], [], None, []
        self.body = self.inside = reader.place
        if not self.head.metadata & 16:
            self.read()
        self.stop = reader.place
        self.judge()

    def read(self):
        kind = self.head.kind
        if kind <= 3:
            [self.point, self.line, self.polygon][kind - 1]()
            return
        count = self.reader.unsigned()
        if self.head.metadata & 4:
            self.ids_at = self.reader.place
            while len(self.ids) < count:
                self.ids.append(self.reader.signed())
        self.inside = self.reader.place
        self.many(count, [self.point, self.line, self.polygon, self.member][kind - 4])

    def many(self, count, part):
        while count > 0:
            part()
            count -= 1

    def point(self):
        vertex = [None] * 4
        for axis in self.head.axes:
            offset = self.reader.place
            self.last[axis] += self.reader.signed()
            if not -(2**63) <= self.last[axis] < 2**63:
                raise Malformed(offset, "range")
            vertex[axis] = self.head.units(axis, self.last[axis])
        self.vertices.append(vertex)

    def line(self):
        self.many(self.reader.unsigned(), self.point)

    def polygon(self):
        self.many(self.reader.unsigned(), self.line)

    def member(self):
        self.members.append(Geometry(self.reader, self.depth + 1, self.claims))
        self.vertices.extend(self.members[-1].vertices)

    def judge(self):
        head = self.head
        if head.size is not None and head.size != self.stop - head.box_at:
            self.claims.append((head.size_at, "size"))
        if head.box is not None and not all(map(head.holds, self.vertices)):
            self.claims.append((head.box_at, "box"))
        if head.box is not None and head.is_loose(self.vertices):
            self.claims.append((head.box_at, "loose"))
        if len(set(self.ids)) < len(self.ids):
            self.claims.append((self.ids_at, "ids"))

    def read_of(self, window):
        """How many bytes of it a scan for the window reads."""
        if self.head.size is not None and self.head.misses(window):
            return self.body - self.start
        if self.head.kind == COLLECTION and not self.head.metadata & 16:
            return self.inside - self.start + sum(member.read_of(window) for member in self.members)
        return self.stop - self.start


def is_blob(data):
    """Whether the bytes are one blob, be its claims true or false."""
    reader = Reader(data)
    try:
        Geometry(reader, 1, [])
    except Malformed:
        return False
    return reader.place == len(data)


@functools.lru_cache(maxsize=2)
def blobs_of(data, tight=False):
    """The blobs of a certified layer; in tight checking a loose box refuses it too."""
    reader, blobs = Reader(data), []
    while reader.place < len(data):
        claims = []
        try:
            blob = Geometry(reader, 1, claims)
        except Malformed as fault:
            raise Refused(len(blobs), *fault.args) from None
        judged = [claim for claim in claims if tight or claim[1] != "loose"]
        if judged:
            raise Refused(len(blobs), *min(judged))
        blobs.append(blob)
    return blobs


def window_of(text):
    """The ranges of a window in units, None for an axis that it doesn't bound; the word `form` or `order` where it is none."""
    match = WINDOW.fullmatch(text)
    if match is None:
        return "form"
    ends = [None if end is None else units_of(end) for end in match.groups()]
    ranges = [None if low is None else (low, high) for low, high in zip(ends[::2], ends[1::2])]
    return "order" if any(low > high for low, high in filter(None, ranges)) else ranges


def units_of(number):
    whole, _, fraction = number.partition(".")
    return int(whole + fraction) * 10 ** (7 - len(fraction))


def is_inside(vertex, window):
    return all(
        bounds is None or value is not None and bounds[0] <= value <= bounds[1] for value, bounds in zip(vertex, window)
    )


def lines(data, text, tight=False):
    """The text of the blobs of a layer, or the line of its refusal."""
    try:
        return text(blobs_of(data, tight))
    except Refused as refusal:
        return "no blob={} offset={} kind={}\n".format(*refusal.args)


def check(data, tight=False):
    return lines(
        data, lambda blobs: f"ok blobs={len(blobs)} vertices={sum(len(blob.vertices) for blob in blobs)}\n", tight
    )


def rows(data):
    return lines(data, lambda blobs: "".join(row(number, blob) for number, blob in enumerate(blobs)))


def row(number, blob):
    head = blob.head
    size, box = ("no" if there is None else "yes" for there in (head.size, head.box))
    return (
        f"blob={number} offset={blob.start} bytes={blob.stop - blob.start} type={TYPES[head.kind - 1]}"
        f" precision={head.precisions[0]} vertices={len(blob.vertices)} size={size} box={box}\n"
    )


def scan(data, windows):
    """The lines of a scan for windows by their ranges: from two windows on the tool keeps where each blob is, and its box."""
    return lines(data, lambda blobs: "".join(found(blobs, len(data), window, len(windows) > 1) for window in windows))


def found(blobs, length, window, with_directory):
    hits = [number for number, blob in enumerate(blobs) if any(is_inside(vertex, window) for vertex in blob.vertices)]
    read = sum(0 if with_directory and blob.head.misses(window) else blob.read_of(window) for blob in blobs)
    listed = "".join(f"hit blob={number} offset={blobs[number].start}\n" for number in hits)
    return f"{listed}hits={len(hits)} read={read} of={length}\n"
