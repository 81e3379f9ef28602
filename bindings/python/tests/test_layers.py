"""Layers: what is certified, refused, listed and scanned, and bad use that gets an error."""
import copy
import gc
import os
import pickle
import subprocess
import sys
import tempfile
import threading
import unittest
from collections.abc import Sequence
from typing import Callable, List, Tuple

import example
from dozhemik import Hit, Layer, Refused, Row, Window, __version__, certify
from dozhemik._library import library

LINES = example.example("coast_lines_sized")
EUROPE = "x=10..30,y=35..45"


class Certifying(unittest.TestCase):
    def test_numbers(self) -> None:
        layer = certify(LINES)
        self.assertEqual((layer.blobs, len(layer), layer.vertices, layer.size), (1715, 1715, 14590, 84045))
        self.assertEqual(repr(layer), "<Layer of 1715 blobs, 14590 vertices>")

    def test_refused(self) -> None:
        with self.assertRaises(Refused) as caught:
            certify(LINES[:80000])
        why = caught.exception
        self.assertEqual((why.blob, why.offset, why.kind), (1638, 79998, "cut"))
        self.assertEqual(str(why), "blob=1638 offset=79998 kind=cut")
        self.assertIsInstance(why, ValueError)
        again = pickle.loads(pickle.dumps(why))
        self.assertEqual((again.blob, again.offset, again.kind), (1638, 79998, "cut"))

    def test_tight(self) -> None:
        loose = bytes.fromhex("020309020A02080202020808")
        self.assertEqual(len(certify(loose)), 1)
        with self.assertRaises(Refused) as caught:
            certify(loose, tight=True)
        self.assertEqual(caught.exception.kind, "loose")

    def test_tight_is_named(self) -> None:
        with self.assertRaises(TypeError):
            certify(LINES, True)  # type: ignore[misc]

    def test_made_by_certify_alone(self) -> None:
        with self.assertRaises(TypeError):
            Layer()
        layer = certify(LINES)
        ways: Tuple[Callable[[Layer], object], ...] = (copy.copy, copy.deepcopy, pickle.dumps)
        for way in ways:
            with self.assertRaises(TypeError):
                way(layer)
        with self.assertRaises(AttributeError):
            Layer.__new__(Layer).blobs

    def test_holds_its_bytes(self) -> None:
        layer = certify(bytes(bytearray(LINES)))
        gc.collect()
        others = [os.urandom(len(LINES)) for _ in range(50)]
        self.assertEqual(len(layer.scan(EUROPE)), 44)
        del others


class Answers(unittest.TestCase):
    def test_list(self) -> None:
        rows = certify(LINES).list()
        self.assertEqual(rows[0], Row(0, 0, 39, 6, "linestring", 4, True, True))
        self.assertEqual((len(rows), sum(row.bytes for row in rows)), (1715, 84045))
        self.assertEqual(sum(row.vertices for row in rows), 14590)
        self.assertEqual((rows[0].type, rows[0].kind), ("linestring", "linestring"))
        text = "blob=0 offset=0 bytes=39 type=linestring precision=4 vertices=6 size=yes box=yes"
        self.assertEqual(str(rows[0]), text)
        self.assertIs(type(rows[0].has_size), bool)

    def test_scan(self) -> None:
        scan = certify(LINES).scan(x=(10, 30), y=(35, 45))
        self.assertIsInstance(scan, Sequence)
        self.assertEqual((len(scan), scan.bytes_read), (44, 24857))
        self.assertEqual((scan[2][:2], scan[-1][:2]), ((664, 30695), (771, 36560)))
        self.assertEqual(scan[:2], tuple(scan)[:2])
        self.assertEqual((scan[::-1][0], scan[5:2], scan[-3:]), (scan[43], (), tuple(scan)[41:]))
        self.assertIn(scan[2], scan)
        for place in (44, -45):
            with self.assertRaisesRegex(IndexError, f"there is no hit {place} in a scan of 44 hits"):
                scan[place]
        other: Callable[..., object] = scan.__getitem__
        for index in ("blob", 1.0, None):
            with self.assertRaisesRegex(TypeError, f"a hit of a scan has an int or a slice as its index, not {index!r}"):
                other(index)
        self.assertEqual(str(scan[2]), "blob=664 offset=30695")

    def test_scans_are_values(self) -> None:
        layer = certify(LINES)
        scan, many = layer.scan(EUROPE), layer.scan_many([EUROPE, EUROPE, "x=10..30,y=85..89"])
        self.assertEqual((scan, many[0]), (layer.scan(bbox=(10, 35, 30, 45)), many[1]))
        # The directory reads less for the hits.
        self.assertEqual(len({scan, layer.scan(EUROPE), *many}), 3)
        self.assertNotEqual(scan, many[0])
        self.assertNotEqual(scan, tuple(scan))
        for one in (scan, many[0], many[2]):
            for again in (pickle.loads(pickle.dumps(one)), copy.copy(one), copy.deepcopy(one)):
                self.assertEqual((again, list(again), again.bytes_read, hash(again)), (one, list(one), one.bytes_read, hash(one)))

    def test_hits_have_the_lengths_of_rows(self) -> None:
        for name in example.EXAMPLES:
            layer = certify(example.example(name))
            rows = layer.list()
            scan = layer.scan("x=0..180,y=-90..90")
            self.assertGreater(len(scan), 0)
            self.assertEqual([hit.bytes for hit in scan], [rows[hit.blob].bytes for hit in scan])

    def test_blobs(self) -> None:
        layer = certify(LINES)
        hit, row = layer.scan(EUROPE)[2], layer.list()[664]
        self.assertEqual(layer.blob(hit), LINES[row.offset : row.offset + row.bytes])
        self.assertEqual((layer.blob(row), len(certify(layer.blob(hit)))), (layer.blob(hit), 1))
        self.assertEqual(b"".join(map(layer.blob, layer.list())), LINES)

    def test_blobs_of_another_layer(self) -> None:
        layer = certify(LINES)
        for hit in (Hit(0, len(LINES), 1), Hit(0, 0, len(LINES) + 1), Hit(0, -1, 5), Hit(0, 5, -1), Hit(0, 1 << 70, 1)):
            with self.subTest(hit=hit), self.assertRaisesRegex(ValueError, "of another"):
                layer.blob(hit)
        for no_hit in (0, (0, 0, 39), None, "0"):
            with self.subTest(hit=no_hit), self.assertRaises(TypeError):
                layer.blob(no_hit)  # type: ignore[arg-type]

    def test_bbox(self) -> None:
        layer = certify(LINES)
        wanted = list(layer.scan(EUROPE))
        self.assertEqual(list(layer.scan(bbox=(10, 35, 30, 45))), wanted)
        self.assertEqual(list(layer.scan(bbox=(10, 35, 30, 45), z=(0, 1))), [])
        self.assertEqual(list(layer.directory().scan(bbox=(10, 35, 30, 45))), wanted)

    def test_more_hits_than_the_first_room(self) -> None:
        for copies in (1, 2, 3, 5):
            data = LINES * copies
            scan = certify(data).scan("x=-360..360,y=-360..360")
            self.assertEqual([hit.offset for hit in scan], [row.offset for row in certify(data).list()])
            self.assertEqual([hit.blob for hit in scan], list(range(1715 * copies)))

    def test_nothing(self) -> None:
        layer = certify(b"")
        self.assertEqual((len(layer), layer.list(), list(layer.scan(EUROPE))), (0, [], []))
        self.assertTrue(layer)

    def test_zeros_in_bytes(self) -> None:
        data = bytes.fromhex("01000000") + example.POINT
        layer = certify(data)
        self.assertEqual([row.offset for row in layer.list()], [0, 4])
        self.assertEqual(list(layer.scan(x=(0, 0), y=(0, 0))), [Hit(0, 0, 4)])

    def test_bad_words(self) -> None:
        scan: Callable[..., object] = certify(LINES).scan
        tried: Tuple[Tuple[object, ...], ...] = ((), (5,), (b"x=0..1,y=0..1",), (EUROPE, EUROPE))
        for words in tried:
            with self.subTest(words=words), self.assertRaises(TypeError):
                scan(*words)
        given = {"window": EUROPE, "x": (0, 1), "y": (0, 1), "z": (0, 1), "bbox": (0, 0, 1, 1)}
        for names in ("x", "y", "z", "window x y", "window z", "window bbox", "x bbox", "y bbox"):
            with self.subTest(names=names), self.assertRaises(TypeError):
                scan(**{name: given[name] for name in names.split()})


class Closing(unittest.TestCase):
    def test_closed(self) -> None:
        layer = certify(LINES)
        layer.close()
        layer.close()
        hit = Hit(0, 0, 39)
        uses: Tuple[Callable[[], object], ...] = (
            lambda: layer.blobs, lambda: layer.vertices, lambda: layer.size, lambda: len(layer), layer.list, layer.table,
            lambda: bool(layer),
            lambda: layer.scan(EUROPE), lambda: layer.scan(Window.parse(EUROPE)), layer.__enter__, layer.directory,
            lambda: layer.scan_many([EUROPE]), lambda: layer.blob(hit),
        )
        for number, use in enumerate(uses):
            with self.subTest(use=number), self.assertRaisesRegex(ValueError, "closed"):
                use()
        self.assertEqual(repr(layer), "<Layer, closed>")

    def test_context(self) -> None:
        with certify(LINES) as layer:
            self.assertEqual(len(layer.scan(EUROPE)), 44)
        with self.assertRaises(ValueError):
            layer.list()

    def test_many_threads_and_a_close(self) -> None:
        layer = certify(LINES * 20)
        wanted, started = 44 * 20, threading.Barrier(9)
        faults: List[object] = []

        def use() -> None:
            started.wait()
            for _ in range(200):
                try:
                    if len(layer.scan(EUROPE)) != wanted:
                        faults.append("another answer")
                except ValueError as why:
                    if "closed" not in str(why):
                        faults.append(why)
                except Exception as why:
                    faults.append(why)

        threads = [threading.Thread(target=use) for _ in range(8)]
        for thread in threads:
            thread.start()
        started.wait()
        threading.Event().wait(0.05)
        layer.close()
        for thread in threads:
            thread.join()
        self.assertEqual(faults, [])


class Loading(unittest.TestCase):
    def told(self, words: str, **environment: str) -> Tuple[int, str]:
        run = {**os.environ, "PYTHONPATH": example.PACKAGE, **environment}
        done = subprocess.run([sys.executable, "-c", words], env=run, capture_output=True, text=True)
        return done.returncode, done.stderr

    def test_missing(self) -> None:
        status, told = self.told("import dozhemik", TWKB_LIBRARY="/missing/libtwkb.so")
        self.assertEqual(status, 1)
        self.assertRegex(told, "ImportError: .*/missing/libtwkb.so.*make library")

    def test_another_library(self) -> None:
        status, told = self.told("import dozhemik", TWKB_LIBRARY="libc.so.6")
        self.assertEqual(status, 1)
        self.assertRegex(told, "ImportError: .*twkb_version.*make library")

    def test_another_version(self) -> None:
        with open(library._name, "rb") as file:
            data = file.read()
        own = f"libtwkb {__version__}\0".encode()
        self.assertEqual(data.count(own), 1)
        with tempfile.NamedTemporaryFile(suffix=".so") as other:
            other.write(data.replace(own, b"libtwkb 0.9.0\0"))
            other.flush()
            status, told = self.told("import dozhemik", TWKB_LIBRARY=other.name)
        self.assertEqual(status, 1)
        self.assertRegex(told, rf"WrongVersion: {other.name} has version 0\.9\.0, and this package {__version__}")

    def test_sizes_are_compared(self) -> None:
        words = "import ctypes; ctypes.sizeof = lambda struct: 41; import dozhemik"
        status, told = self.told(words)
        self.assertEqual(status, 1)
        self.assertRegex(told, "ImportError: a Verdict has 41 bytes here, and 40 in libtwkb.so")


if __name__ == "__main__":
    unittest.main()
