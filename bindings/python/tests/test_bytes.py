"""What is taken for the bytes of a layer, and what is refused: paths, mapped files and buffers."""
import array
import gc
import mmap
import os
import tempfile
import unittest
from pathlib import Path
from typing import Any, Tuple

import example
from dozhemik import Data, Layer, Refused, certify

LINES = example.example("coast_lines_sized")
EUROPE = "x=10..30,y=35..45"
numpy = example.package("numpy")


class Lies(bytes):
    """Bytes that don't say how many they are."""

    def __len__(self) -> int:
        return 1 << 40


class OtherPath(os.PathLike):  # type: ignore[type-arg]
    """A path that is none of pathlib."""

    def __fspath__(self) -> str:
        return example.path_of("coast_lines_sized")


class Taken(unittest.TestCase):
    def same(self, layer: Layer) -> None:
        self.assertEqual((len(layer), layer.vertices, layer.size), (1715, 14590, 84045))
        scan = layer.scan(EUROPE)
        self.assertEqual((len(scan), scan.bytes_read), (44, 24857))
        row = layer.list()[664]
        self.assertEqual(layer.blob(row), LINES[row.offset : row.offset + row.bytes])

    def test_bytes(self) -> None:
        for data in (LINES, Lies(LINES), bytes(bytearray(LINES))):
            self.same(certify(data))

    def test_paths(self) -> None:
        name = example.path_of("coast_lines_sized")
        paths: Tuple[Data, ...] = (name, Path(name), OtherPath())
        for path in paths:
            self.same(certify(path))
        with self.assertRaisesRegex(FileNotFoundError, "'layer.twkb'"):
            certify("layer.twkb")
        with self.assertRaises(FileNotFoundError):
            certify(Path("/missing/layer.twkb"))
        with self.assertRaises(IsADirectoryError):
            certify(Path("/"))

    def test_views_of_bytes(self) -> None:
        self.same(certify(memoryview(LINES)))
        self.same(certify(memoryview(b"\1" + LINES + b"\1")[1:-1]))
        self.same(certify(memoryview(memoryview(LINES))[:]))
        # Rows of five bytes, one after another.
        self.same(certify(memoryview(LINES).cast("B", (16809, 5))))
        for signed in "bc":
            self.same(certify(memoryview(LINES).cast(signed)))

    def test_mapped_file(self) -> None:
        with open(example.path_of("coast_lines_sized"), "rb") as file:
            mapped = mmap.mmap(file.fileno(), 0, access=mmap.ACCESS_READ)
        layer = certify(mapped)
        # The layer keeps it mapped.
        with self.assertRaises(BufferError):
            mapped.close()
        self.same(layer)
        layer.close()
        mapped.close()

    def test_keeps_the_bytes(self) -> None:
        layer = certify(memoryview(bytes(bytearray(LINES))))
        gc.collect()
        others = [os.urandom(len(LINES)) for _ in range(50)]
        self.same(layer)
        del others

    def test_a_view_that_is_released_afterwards(self) -> None:
        view = memoryview(bytes(bytearray(LINES)))
        layer = certify(view)
        view.release()
        self.same(layer)
        with self.assertRaises(ValueError):
            certify(view)

    def test_nothing(self) -> None:
        for data in (b"", memoryview(b""), memoryview(b"ab")[:0], memoryview(b"ab")[::2][:0]):
            layer = certify(data)
            self.assertEqual((len(layer), layer.list(), list(layer.scan(EUROPE))), (0, [], []))

    def test_refused_alike(self) -> None:
        with self.assertRaises(Refused) as caught:
            certify(memoryview(LINES)[:80000])
        self.assertEqual(str(caught.exception), "blob=1638 offset=79998 kind=cut")


class NotTaken(unittest.TestCase):
    def refused(self, data: Any, said: str) -> None:
        with self.subTest(kind=type(data).__name__), self.assertRaisesRegex(TypeError, said):
            certify(data)

    def test_what_may_be_written(self) -> None:
        for data in (bytearray(LINES), array.array("B", LINES), memoryview(bytearray(LINES))):
            self.refused(data, r"may be written.*pass bytes\(")
        # What can't be written through these can still be written.
        self.refused(memoryview(bytearray(LINES)).toreadonly(), "may be written")
        self.refused(memoryview(memoryview(bytearray(LINES)).toreadonly())[:], "may be written")

    def test_mapped_for_writing(self) -> None:
        with tempfile.NamedTemporaryFile() as file:
            file.write(LINES)
            file.flush()
            for access in (mmap.ACCESS_WRITE, mmap.ACCESS_COPY):
                with mmap.mmap(file.fileno(), 0, access=access) as mapped:
                    self.refused(mapped, r"may be written.*access=mmap.ACCESS_READ")

    def test_what_is_no_run_of_bytes(self) -> None:
        self.refused(memoryview(LINES)[::2], "follow one another")
        self.refused(memoryview(LINES)[::-1], "follow one another")
        self.refused(memoryview(LINES[:84040]).cast("I"), "follow one another")

    def test_no_buffers(self) -> None:
        for data in (None, 4, [1, 0], object()):
            self.refused(data, f"not of {type(data).__name__}")


@unittest.skipUnless(numpy, "NumPy is missing: apt-get install python3-numpy")
class Arrays(unittest.TestCase):
    def fixed(self) -> Any:
        found = numpy.array(list(LINES), dtype=numpy.uint8)
        found.flags.writeable = False
        return found

    def test_taken(self) -> None:
        fixed = self.fixed()
        mapped = numpy.memmap(example.path_of("coast_lines_sized"), dtype=numpy.uint8, mode="r")
        for data in (fixed, fixed[:], numpy.frombuffer(LINES, numpy.uint8), fixed.reshape(16809, 5), mapped):
            self.assertEqual(len(certify(data).scan(EUROPE)), 44)
        self.assertEqual(len(certify(fixed[:0])), 0)

    def test_not_taken(self) -> None:
        open_ = numpy.array(list(LINES), dtype=numpy.uint8)
        view = open_.view()
        view.flags.writeable = False
        lent = numpy.frombuffer(bytearray(LINES), numpy.uint8)
        lent.flags.writeable = False
        for data in (open_, view, lent):
            with self.assertRaisesRegex(TypeError, "may be written.*flags.writeable = False"):
                certify(data)
        fixed = self.fixed()
        for data in (fixed[::2], fixed[:84040].view(numpy.uint32), numpy.asfortranarray(fixed.reshape(16809, 5))):
            data.flags.writeable = False
            with self.assertRaises(TypeError):
                certify(data)


if __name__ == "__main__":
    unittest.main()
