"""Directories: what they find, how much they read, and bad use that gets an error."""
import os
import pickle
import unittest
from concurrent.futures import ThreadPoolExecutor
from typing import List, Union
from unittest import mock

from dozhemik import BadWindow, Directory, Window, _layer, _library, certify

EXAMPLES = os.path.join(os.path.dirname(os.path.abspath(__file__)), "..", "..", "..", "examples")
WINDOWS = ("x=10..30,y=35..45", "x=100..140,y=-10..10", "x=-1000..1000,y=-1000..1000", "x=0..20,y=0..60,z=0..9")


def example(name: str) -> bytes:
    with open(os.path.join(EXAMPLES, name), "rb") as file:
        return file.read()


class Directories(unittest.TestCase):
    def test_finds_what_the_layer_finds(self) -> None:
        names = ("coast_collections.twkb", "coast_lines_sized.twkb", "coast_z.twkb", "points_sized.twkb")
        for data in (b"", b"\1\0\2\4" * 5000, *map(example, names)):
            layer = certify(data)
            directory = layer.directory()
            for text in WINDOWS:
                wanted, scan = layer.scan(text), directory.scan(text)
                self.assertEqual(list(scan), list(wanted))
                self.assertLessEqual(scan.bytes_read, wanted.bytes_read)

    def test_reads_what_the_program_says(self) -> None:
        directory = certify(example("coast_lines_sized.twkb")).directory()
        for scan in (directory.scan(x=(10, 30), y=(35, 45)), directory.scan(Window((10, 30), (35, 45))), directory.scan(WINDOWS[0])):
            self.assertEqual((len(scan), scan.bytes_read), (44, 2272))

    def test_many_windows(self) -> None:
        for name in ("coast_collections.twkb", "coast_lines_sized.twkb", "coast_z.twkb", "points_sized.twkb"):
            layer = certify(example(name))
            directory = layer.directory()
            wanted = [directory.scan(text) for text in WINDOWS]
            windows: List[Union[Window, str]] = [Window.parse(text) for text in WINDOWS[:2]]
            windows += WINDOWS[2:]
            for scans in (directory.scan_many(windows), layer.scan_many(windows), directory.scan_many(iter(windows))):
                self.assertEqual([list(scan) for scan in scans], [list(scan) for scan in wanted])
                self.assertEqual([scan.bytes_read for scan in scans], [scan.bytes_read for scan in wanted])
            self.assertEqual(directory.scan_many([]), [])

    def test_more_hits_than_a_room_has(self) -> None:
        # Each of these windows has a hit for each blob, for each second one, or none. A call has room for a few hits, or for all.
        all_, half, none = "x=0..9,y=0..9", "x=2..9,y=0..9", "x=7..9,y=0..9"
        texts = [all_, half, none, half, half, all_, all_, none, none]
        for count in (1, 2, 3, 1000):
            layer = certify((b"\1\0\2\4" + b"\1\0\4\4") * (count // 2) + b"\1\0\2\4" * (count % 2))
            wanted = {all_: range(count), half: range(1, count, 2), none: range(0)}
            for room in (0, 1, 2, count // 2, count - 1, count, count + 1, 3 * count, 1 << 22):
                with mock.patch.object(_layer, "_ROOM", room):
                    scans = layer.scan_many(texts)
                self.assertEqual(len(scans), len(texts))
                for text, scan in zip(texts, scans):
                    self.assertEqual([hit.blob for hit in scan], list(wanted[text]))
                    self.assertEqual([hit.offset for hit in scan], [4 * blob for blob in wanted[text]])
                    self.assertEqual(scan.bytes_read, layer.directory().scan(text).bytes_read)

    def test_one_call_answers_all_windows(self) -> None:
        directory = certify(example("coast_lines_sized.twkb")).directory()
        name = "twkb_directory_scan_many"
        with mock.patch.object(_library.library, name, wraps=getattr(_library.library, name)) as call:
            self.assertEqual(len(directory.scan_many(250 * WINDOWS)), 1000)
            self.assertEqual(call.call_count, 1)
            directory.scan_many([])
            self.assertEqual(call.call_count, 1)

    def test_no_memory_for_hits(self) -> None:
        directory = certify(b"\1\0\2\4").directory()
        with mock.patch("mmap.mmap", side_effect=OSError(12, "Cannot allocate memory")):
            self.assertRaises(MemoryError, directory.scan_many, [WINDOWS[2]])
        self.assertEqual([len(scan) for scan in directory.scan_many([WINDOWS[2]])], [1])

    def test_threads(self) -> None:
        directory = certify(example("coast_lines_sized.twkb")).directory()
        with ThreadPoolExecutor(8) as pool:
            found = {len(scan) for scan in pool.map(directory.scan, 100 * WINDOWS[:1])}
        self.assertEqual(found, {44})

    def test_bad_use(self) -> None:
        layer = certify(b"\1\0\2\4")
        directory = layer.directory()
        self.assertRaises(TypeError, Directory)
        self.assertRaises(TypeError, pickle.dumps, directory)
        self.assertRaises(TypeError, directory.scan)
        for windows in (None, 5, [5], [None], [b"x=0..1,y=0..1"], [(0, 0, 1, 1)], WINDOWS[0], Window.parse(WINDOWS[0])):
            self.assertRaises(TypeError, directory.scan_many, windows)
        for text in ("x=1..0,y=0..1", "", "x"):
            self.assertRaises(BadWindow, directory.scan_many, [WINDOWS[0], text])
        layer.close()
        self.assertRaises(ValueError, directory.scan_many, [WINDOWS[0]])
        self.assertRaises(ValueError, directory.scan_many, [])
        self.assertRaises(ValueError, layer.directory)
        self.assertRaises(ValueError, directory.scan, WINDOWS[0])
        self.assertEqual(repr(directory), "<Directory of <Layer, closed>>")


if __name__ == "__main__":
    unittest.main()
