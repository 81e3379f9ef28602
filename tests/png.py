"""Makes the pictures of browsers small: `shrunk(data)` is the PNG with its 64 commonest colours alone, and packed as well as can be."""
import collections
import struct
import zlib

SIGNATURE = b"\x89PNG\r\n\x1a\n"
TRUE_COLOUR, WITH_ALPHA, PALETTE = 2, 6, 3
MOST = 64


def shrunk(data):
    width, height, pixels = pixels_of(data)
    common = [colour for colour, _ in collections.Counter(pixels).most_common(MOST)]
    nearest = {colour: min(range(len(common)), key=lambda i: apart(common[i], colour)) for colour in set(pixels)}
    lines = (pixels[width * y : width * (y + 1)] for y in range(height))
    packed = zlib.compress(b"".join(b"\0" + bytes(nearest[pixel] for pixel in line) for line in lines), 9)
    header = struct.pack(">IIBBBBB", width, height, 8, PALETTE, 0, 0, 0)
    parts = ((b"IHDR", header), (b"PLTE", b"".join(common)), (b"IDAT", packed), (b"IEND", b""))
    return SIGNATURE + b"".join(chunk(name, part) for name, part in parts)


def apart(one, other):
    return sum((a - b) ** 2 for a, b in zip(one, other))


def chunk(name, data):
    return struct.pack(">I", len(data)) + name + data + struct.pack(">I", zlib.crc32(name + data))


def pixels_of(data):
    """The width, the height, and each pixel's three bytes."""
    chunks, at = collections.defaultdict(bytes), len(SIGNATURE)
    while at < len(data):
        (length,) = struct.unpack_from(">I", data, at)
        chunks[data[at + 4 : at + 8]] += data[at + 8 : at + 8 + length]
        at += length + 12
    width, height, _, kind, *_ = struct.unpack(">IIBBBBB", chunks[b"IHDR"])
    each = {TRUE_COLOUR: 3, WITH_ALPHA: 4}[kind]
    raw, line, pixels = zlib.decompress(chunks[b"IDAT"]), bytes(width * each), []
    for y in range(height):
        start = y * (width * each + 1)
        line = unfiltered(raw[start], raw[start + 1 : start + 1 + width * each], line, each)
        pixels += [line[i : i + 3] for i in range(0, len(line), each)]
    return width, height, pixels


def unfiltered(kind, line, above, each):
    """A line of bytes by what PNG says of it: as it is, or as differences to its left, to the line above, or to both."""
    made = bytearray(line)
    for i, byte in enumerate(line):
        left, up, corner = (made[i - each], above[i], above[i - each]) if i >= each else (0, above[i], 0)
        nearest = min((left, up, corner), key=lambda one: abs(left + up - corner - one))
        made[i] = (byte + (0, left, up, (left + up) // 2, nearest)[kind]) & 255
    return bytes(made)
