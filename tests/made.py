"""Layers and windows made at random, by the rules of docs/FORMAT.md, for fuzz.py.

Most layers are certified. In some a claim is false, a number is spelled long, a coordinate passes 64 bits, or bytes are changed
after that. What comes of it is for plain.py to say: nothing here is told what a layer has to give.
"""
import plain
from changed import GREATEST, number

COLLECTION, DEEPEST = plain.COLLECTION, plain.DEEPEST
LEAST, MOST = -(2**63), 2**63 - 1


def varint(value, more=0):
    """The number, spelled with some groups more than it needs."""
    groups = [value % 128]
    while value >= 128:
        value //= 128
        groups.append(value % 128)
    groups += [0] * min(more, 10 - len(groups))
    return bytes(group + 128 for group in groups[:-1]) + bytes(groups[-1:])


def zigzag(value):
    return 2 * value if value >= 0 else -2 * value - 1


class Made:
    """Geometries by one chance: their bytes, and their vertices in units."""

    def __init__(self, chance):
        self.chance = chance
        # How often a claim is false, and a number long or large: in most layers never.
        self.wrong = chance.choice([0, 0, 0, 0.02, 0.2])
        self.odd = chance.choice([0, 0, 0, 0.05, 0.3])
        self.reach = chance.choice([3, 60, 60, 3_000, 3_000, 10**6, 2**31, 2**40, 2**57])

    def is_so(self, often):
        return self.chance.random() < often

    def unsigned(self, value):
        return varint(value, self.chance.randint(1, 9) if self.is_so(self.odd) else 0)

    def signed(self, value):
        return self.unsigned(zigzag(max(LEAST, min(value, MOST))))

    def count(self):
        return self.chance.choice([17, 40] if self.is_so(0.03) else [0, 1, 1, 2, 2, 3, 5])

    def geometry(self, depth, room):
        """A geometry at a depth, of some forty bytes at most for each member that has room below it."""
        chance = self.chance
        kinds = range(1, COLLECTION + (depth < DEEPEST and room > 0))
        kind = chance.choice([*kinds, *[COLLECTION] * (2 if len(kinds) == COLLECTION else 0)])
        precisions = [chance.randint(-8, 7) if self.is_so(self.odd) else chance.choice([0, 0, 1, 5, 7])] * 2 + [None] * 2
        extended = chance.randrange(256) if self.is_so(0.3) else None
        if extended is not None:
            precisions[2:] = [extended // 4 % 8 if extended & 1 else None, extended // 32 if extended & 2 else None]
        bits = [(16, 0.1), (4, 0.3), (2, 0.5), (1, 0.5), (32, self.odd), (128, self.odd)]
        metadata = sum(bit for bit, often in bits if self.is_so(often)) + 8 * (extended is not None)
        body, vertices = b"", []
        if not metadata & 16:
            body, vertices = self.body(kind, metadata & 4, precisions, depth, room)
        box = self.box(precisions, vertices) if metadata & 1 else b""
        if box is None:
            metadata, box = metadata & ~1, b""
        size = self.unsigned(len(box + body) + self.wrong_by()) if metadata & 2 else b""
        first = bytes([kind + 16 * zigzag(precisions[0]), metadata]) + (b"" if extended is None else bytes([extended]))
        return first + size + box + body, vertices

    def wrong_by(self):
        return self.chance.choice([1, 1, 2, 100]) if self.is_so(self.wrong) else 0

    def box(self, precisions, vertices):
        """A box of the vertices, tight or wider; none where no number of 64 bits spells one."""
        spelled = b""
        for axis, precision in enumerate(precisions):
            if precision is None:
                continue
            step = 10 ** (7 - precision)
            values = [vertex[axis] for vertex in vertices if vertex[axis] is not None] or [0]
            low, high = min(values) // step, -(-max(values) // step)
            low -= self.chance.choice([0, 0, 0, 1, 1000]) - self.wrong_by()
            high += self.chance.choice([0, 0, 0, 1, 1000]) - self.wrong_by()
            if not all(LEAST <= end <= MOST for end in (low, high - low)):
                return None
            spelled += self.signed(low) + self.signed(high - low)
        return spelled

    def body(self, kind, has_ids, precisions, depth, room):
        if kind <= 3:
            last = [0] * 4
            return [self.point, self.line, self.polygon][kind - 1](precisions, last)
        count = self.count() if kind < COLLECTION else self.chance.choice([0, 1, 2, 3])
        ids = self.ids(count) if has_ids else b""
        if kind < COLLECTION:
            body, vertices = self.many(count, [self.point, self.line, self.polygon][kind - 4], precisions, [0] * 4)
            return self.unsigned(count) + ids + body, vertices
        members = [self.geometry(depth + 1, room // (count + 1) if count > 1 else room - 1) for _ in range(count)]
        vertices = [vertex for _, there in members for vertex in there]
        return self.unsigned(count) + ids + b"".join(member for member, _ in members), vertices

    def ids(self, count):
        """Ids that rise, that fall, or in no order; some of them equal where a claim is to be false."""
        ids = self.chance.sample(range(-300, 300), count)
        order = self.chance.choice([sorted, lambda ids: sorted(ids, reverse=True), list])
        ids = order(ids)
        if count > 1 and self.is_so(3 * self.wrong):
            ids[self.chance.randrange(1, count)] = ids[0]
        return b"".join(map(self.signed, ids))

    def many(self, count, part, precisions, last):
        made = [part(precisions, last) for _ in range(count)]
        return b"".join(one for one, _ in made), [vertex for _, there in made for vertex in there]

    def point(self, precisions, last):
        spelled, vertex = b"", [None] * 4
        for axis, precision in enumerate(precisions):
            if precision is None:
                continue
            by = self.chance.randint(-self.reach, self.reach)
            by = self.chance.choice([LEAST, MOST, -by, 0]) if self.is_so(self.odd / 4) else by
            last[axis] += by
            spelled += self.signed(by)
            vertex[axis] = last[axis] * 10 ** (7 - precision)
        return spelled, [vertex]

    def line(self, precisions, last):
        count = self.count()
        spelled, vertices = self.many(count, self.point, precisions, last)
        return self.unsigned(count) + spelled, vertices

    def polygon(self, precisions, last):
        count = self.chance.choice([0, 1, 1, 2])
        spelled, vertices = self.many(count, self.line, precisions, last)
        return self.unsigned(count) + spelled, vertices


def nested(inside, levels):
    """A geometry in nested collections, each of one member."""
    return b"\x07\x00\x01" * levels + inside


def layer(chance):
    """A layer of some blobs, now and then inside of many collections, and changed in some bytes."""
    made = Made(chance)
    blobs = [made.geometry(1, chance.choice([0, 3, 9]))[0] for _ in range(chance.choice([0, 1, 1, 2, 3, 5, 8]))]
    if blobs and made.is_so(0.06):
        blobs[-1] = nested(made.geometry(DEEPEST - 1, chance.randint(0, 1))[0], chance.choice([3, 40, 62, 63, 63, 64]))
    data = b"".join(blobs)
    for _ in range(chance.choice([0, 0, 0, 0, 0, 1, 1, 1, 2, 5])):
        data = changed(data, chance)
    return data


def changed(data, chance):
    """The bytes with one set, in one bit or whole, put in or left out, or with a long varint, or cut, or a part of them twice."""
    place = chance.randrange(len(data) + 1)
    stop = chance.randint(place, min(len(data), place + 20))
    front, behind = data[:place], data[place + 1 :]
    byte = chance.choice([0, 1, 2, 7, 127, 128, 255, chance.randrange(256)])
    bit = bytes([data[place] ^ 1 << chance.randrange(8)]) if place < len(data) else b""
    long = bytes([255] * chance.choice([9, 10]) + [chance.randrange(3)])
    forms = [front + bit + behind] * 3 + [front + bytes([byte]) + behind] * 3
    put_in = [front + bytes([byte]) + data[place:], front + long + behind]
    return chance.choice([*forms, *put_in, front + behind, front, data[:stop] + data[place:]])


def windows(data, chance):
    """Windows of all axes, as ranges in units: about the vertices and boxes of a certified layer. Some are upside down."""
    values = [{0, 10**7} for _ in plain.AXES]
    for blob in [] if plain.check(data).startswith("no ") else plain.blobs_of(data):
        for axis, found in enumerate(values):
            found.update(vertex[axis] for vertex in blob.vertices if vertex[axis] is not None)
            found.update(blob.head.box[axis] or () if blob.head.box else ())
    values = [sorted(found) for found in values]
    axes = chance.choice([(0, 1), (0, 1), (0, 1, 2), (0, 1, 3), (0, 1, 2, 3)])
    count = chance.randint(1, 4)
    return [[span(values[axis], chance) if axis in axes else None for axis in range(4)] for _ in range(count)]


def span(values, chance):
    """A range that begins and ends at two of these values, or a unit beside them; one in thirty is upside down."""
    ends = [chance.choice(values) + chance.choice([-1, 0, 0, 1]) for _ in range(2)]
    low, high = sorted(max(-GREATEST, min(end, GREATEST)) for end in ends)
    return (high, low) if chance.random() < 1 / 30 else (low, high)


def text_of(window):
    return ",".join(f"{axis}={number(span[0])}..{number(span[1])}" for axis, span in zip(plain.AXES, window) if span)


def is_upside_down(window):
    return any(span[0] > span[1] for span in window if span)
