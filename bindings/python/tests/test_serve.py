"""The example server, asked over real sockets."""
import hashlib
import json
import os
import subprocess
import sys
import tempfile
import unittest
from concurrent.futures import ThreadPoolExecutor
from pathlib import Path
from typing import IO, Dict, List, Tuple
from unittest import mock
from urllib.error import HTTPError
from urllib.parse import quote
from urllib.request import Request, urlopen

import example
from dozhemik import Layer, certify

SERVER = os.path.join(example.PACKAGE, "examples", "serve.py")
DATA = example.example("coast_lines_sized")


def started(*words: str) -> "subprocess.Popen[str]":
    environment = {**os.environ, "PYTHONPATH": example.PACKAGE}
    return subprocess.Popen(
        [sys.executable, SERVER, *words], env=environment, stdout=subprocess.PIPE, stderr=subprocess.PIPE, text=True
    )


class Asked(unittest.TestCase):
    log: IO[bytes]
    server: "subprocess.Popen[str]"
    address: str
    layer: Layer

    @classmethod
    def setUpClass(cls) -> None:
        cls.log = tempfile.TemporaryFile()
        environment = {**os.environ, "PYTHONPATH": example.PACKAGE}
        words = [sys.executable, SERVER, example.path_of("coast_lines_sized"), "0"]
        cls.server = subprocess.Popen(words, env=environment, stdout=subprocess.PIPE, stderr=cls.log, text=True)
        assert cls.server.stdout
        cls.address = cls.server.stdout.readline().rstrip("\n").rpartition(" ")[2]
        cls.layer = certify(DATA)

    @classmethod
    def tearDownClass(cls) -> None:
        cls.server.terminate()
        cls.server.wait()
        assert cls.server.stdout
        cls.server.stdout.close()
        cls.log.seek(0)
        told = cls.log.read().decode()
        cls.log.close()
        assert "Traceback" not in told, told

    def ask_bytes(self, path: str, method: str = "GET") -> Tuple[int, str, int, bytes]:
        """The status, the kind, the length that is said and the body of an answer."""
        try:
            answer = urlopen(Request(self.address + path, method=method), timeout=30)
        except HTTPError as refused:
            answer = refused
        with answer:
            headers = answer.headers
            return answer.getcode(), headers["Content-Type"], int(headers["Content-Length"]), answer.read()

    def ask(self, path: str) -> Tuple[int, str, str]:
        """The status, the kind and the text of an answer."""
        status, kind, length, body = self.ask_bytes(path)
        self.assertEqual(length, len(body))
        return status, kind, body.decode()

    def wanted(self, window: str) -> Dict[str, object]:
        scan = self.layer.directory().scan(window)
        hits = [{"blob": hit.blob, "offset": hit.offset, "bytes": hit.bytes} for hit in scan]
        return {"hits": hits, "read": scan.bytes_read, "of": len(DATA)}

    def test_scan(self) -> None:
        status, kind, text = self.ask("/scan?x=10..30&y=35..45")
        self.assertEqual((status, kind, json.loads(text)), (200, "application/json", self.wanted("x=10..30,y=35..45")))
        self.assertEqual((len(json.loads(text)["hits"]), json.loads(text)["read"]), (44, 2272))

    def test_bbox(self) -> None:
        for query in ("bbox=10,35,30,45", "bbox=10.0,35,30,45.00000000"):
            status, _, text = self.ask(f"/scan?{query}")
            self.assertEqual((status, json.loads(text)), (200, self.wanted("x=10..30,y=35..45")))

    def test_any_decimals(self) -> None:
        status, _, text = self.ask("/scan?x=9.99999999999999..30.000000001&y=35..45")
        self.assertEqual((status, json.loads(text)), (200, self.wanted("x=10..30,y=35..45")))

    def test_exponents(self) -> None:
        for query in ("x=1e1..3E1&y=3.5e1..450e-1", "x=1e1..3e%2B1&y=35..45", "bbox=1e1,35,30,4.5e1"):
            status, _, text = self.ask(f"/scan?{query}")
            self.assertEqual((status, json.loads(text)), (200, self.wanted("x=10..30,y=35..45")))

    def test_blobs(self) -> None:
        status, kind, _, body = self.ask_bytes("/blobs?bbox=10,35,30,45")
        hits = self.layer.scan("x=10..30,y=35..45")
        self.assertEqual((status, kind), (200, "application/octet-stream"))
        self.assertEqual(body, b"".join(map(self.layer.blob, hits)))
        self.assertEqual(len(certify(body)), 44)
        self.assertEqual(self.ask_bytes("/blobs?bbox=200,35,300,45")[2:], (0, b""))

    def test_head(self) -> None:
        for path in ("/scan?x=10..30&y=35..45", "/blobs?x=10..30&y=35..45", "/list", "/scan?x=1", "/nothing"):
            with self.subTest(path=path):
                self.assertEqual(self.ask_bytes(path, "HEAD"), (*self.ask_bytes(path)[:3], b""))

    def test_bounds_of_z_and_m_and_another_order(self) -> None:
        status, _, text = self.ask("/scan?m=0..1&y=-0.5..90&z=0..1&x=-180..180")
        self.assertEqual((status, json.loads(text)), (200, self.wanted("x=-180..180,y=-0.5..90,z=0..1,m=0..1")))

    def test_list(self) -> None:
        status, _, text = self.ask("/list")
        self.assertEqual((status, json.loads(text)), (200, {"rows": [row._asdict() for row in self.layer.list()]}))

    def test_bad_windows(self) -> None:
        bad = ["", "&&&", "x&y", "x=0..1", "x=0..1&y=0", "x=1..0&y=0..1"]
        bad += ["x=0..1&y=0..1&y=0..1", "x=0..1&y=0..1&w=0..1"]
        bad += ["x=0..1&y=0..1e+5", "x=0..1&y=0..1e2000000"]
        bad += ["x=nan..1&y=0..1", "x=0...1&y=0..1", "x=" * 9000, "bbox=", "bbox=0,1,2", "bbox=0,1,2,3,4"]
        bad += ["bbox=0,0,1,1&x=0..1", "bbox=0,0,1,1&y=0..1", "bbox=1,0,0,1", "bbox=0,0,1,a", "bbox=0..1,0,1,1"]
        bad += ["x=0..1&y=" + quote(text) for text in ("0..1,z=0..1", "0..1\n", "0..é", "\0..1")] + ["x=0..1&y=0..%ff"]
        for query in bad:
            status, kind, text = self.ask(f"/scan?{query}")
            with self.subTest(query=query[:80]):
                self.assertEqual((status, kind), (400, "text/plain; charset=utf-8"))
                self.assertRegex(text, r"\A[^\n]+\n\Z")

    def test_what_is_wrong(self) -> None:
        for query, said in (
            ("", "x and y missing: ?x=A..B"),
            ("x=0..1", "y missing: ?x=A..B"),
            ("x=0..1&y=0..1&w=0..1", "'w' is no part of a window: ?x=A..B"),
            ("x=0..1&y=0..1&y=0..1", "y is given twice"),
            ("x=0..1&y=5", "y='5' is no range: y=A..B"),
            ("x=0..1&y=0..north", "y='0'..'north': an end is no decimal such as -12.5"),
            ("x=2..1&y=0..1", "x='2'..'1': the lower bound is above the upper bound"),
            ("bbox=0,1,2", "bbox='0,1,2' isn't XMIN,YMIN,XMAX,YMAX"),
            ("bbox=0,0,1,1&x=0..1", "neither is given beside it"),
        ):
            with self.subTest(query=query):
                self.assertIn(said, self.ask(f"/scan?{query}")[2])

    def test_other_paths(self) -> None:
        for path in ("/", "/scan/", "/lists", "/../etc/passwd", "/%2e"):
            with self.subTest(path=path):
                self.assertEqual(self.ask(path)[0], 404)

    def test_many_at_once(self) -> None:
        windows = [(x, y) for x in range(-180, 180, 20) for y in range(-90, 90, 15)]

        def same(place: Tuple[int, int]) -> bool:
            x, y = place
            status, _, text = self.ask(f"/scan?x={x}..{x + 20}&y={y}..{y + 15}")
            return status == 200 and bool(json.loads(text) == self.wanted(f"x={x}..{x + 20},y={y}..{y + 15}"))

        with ThreadPoolExecutor(16) as pool:
            self.assertEqual(list(pool.map(same, windows)), [True] * len(windows))


class Starting(unittest.TestCase):
    def told(self, *words: str) -> Tuple[int, str, str]:
        with started(*words) as server:
            out, told = server.communicate(timeout=30)
        return server.returncode, out, told

    def test_refused(self) -> None:
        with tempfile.NamedTemporaryFile() as file:
            file.write(DATA[:80000])
            file.flush()
            said = f"serve.py: {file.name} is refused: blob=1638 offset=79998 kind=cut\n"
            self.assertEqual(self.told(file.name, "0"), (1, "", said))

    def test_ids(self) -> None:
        """The ids that publish_layer.sh writes are found by the layer's SHA-256, behind a link too."""
        with tempfile.TemporaryDirectory() as folder:
            path, link = Path(folder, "points.twkb"), Path(folder, "link")
            path.write_bytes(example.POINT + bytes.fromhex("01000608"))
            link.symlink_to("points.twkb")
            ids = Path(f"{path}.ids", hashlib.sha256(path.read_bytes()).hexdigest())
            ids.parent.mkdir()
            ids.write_text("7\nk\u00fcste 8\n", encoding="utf-8")
            with started(str(link), "0") as server:
                try:
                    assert server.stdout
                    address = server.stdout.readline().rstrip("\n").rpartition(" ")[2]
                    found = [self.ids_at(f"{address}/{query}") for query in ("scan?bbox=3,4,3,4", "scan?bbox=0,0,9,9", "list")]
                finally:
                    server.terminate()
            self.assertEqual(found, [["k\u00fcste 8"], ["7", "k\u00fcste 8"], ["7", "k\u00fcste 8"]])
            ids.write_text("7\n", encoding="utf-8")
            self.assertEqual(self.told(str(path), "0")[:2], (3, ""))
            ids.unlink()
            status, out, told = self.told(str(path), "0")
            self.assertEqual((status, out, ids.name in told), (3, "", True))

    def ids_at(self, address: str) -> List[str]:
        with urlopen(address, timeout=30) as answer:
            told = json.loads(answer.read())
        return [blob["id"] for blob in told.get("hits", told.get("rows"))]

    def test_replaced_while_it_is_opened(self) -> None:
        """A layer whose ids are gone once it is read is read again."""
        sys.path.insert(0, os.path.dirname(SERVER))
        import serve

        with tempfile.TemporaryDirectory() as folder:
            path = Path(folder, "points.twkb")
            path.write_bytes(example.POINT)
            Path(f"{path}.ids").mkdir()
            after = example.POINT + bytes.fromhex("01000608")
            # A layer, the ids that are gone, the layer after it, and its ids.
            found = [example.POINT, FileNotFoundError, after, b"7\n8\n"]
            with mock.patch.object(Path, "read_bytes", side_effect=found):
                layer, ids = serve.opened(str(path))
            self.assertEqual((layer.blobs, ids), (2, ["7", "8"]))
            with self.assertRaises(FileNotFoundError):
                serve.opened(str(path))

    def test_bad_words(self) -> None:
        tried: Tuple[Tuple[str, ...], ...] = ((), ("a", "b"), ("a", "1", "2"), ("a", "-1"))
        for words in tried:
            with self.subTest(words=words):
                self.assertEqual(self.told(*words)[0], 2)
        self.assertEqual(self.told("/missing/layer.twkb")[0], 3)
        self.assertEqual(self.told(example.path_of("coast_z"), "70000")[0], 3)


if __name__ == "__main__":
    unittest.main()
