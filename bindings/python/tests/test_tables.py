"""Tables of rows and of hits: what they hold, and that NumPy, pandas and memoryview take them."""
import unittest

import example
from dozhemik import HIT_DTYPE, ROW_DTYPE, TYPES, Hit, Row, certify

numpy, pandas = example.package("numpy"), example.package("pandas")

WORLD = "x=-360..360,y=-360..360"


class Tables(unittest.TestCase):
    def test_rows(self) -> None:
        for name in example.EXAMPLES:
            layer = certify(example.example(name))
            table, rows = layer.table(), layer.list()
            self.assertEqual((table.format, table.itemsize, len(table)), ("B", 1, 40 * len(rows)))
            words = table.cast("Q")
            # Five words a row: the fifth has the small numbers, the lowest byte first.
            self.assertEqual([tuple(words[at : at + 4]) for at in range(0, len(words), 5)], [row[:4] for row in rows])
            self.assertEqual([TYPES[word & 255] for word in words[4::5]], [row.type for row in rows])
            flags = [(bool(word >> 16 & 255), bool(word >> 24 & 255)) for word in words[4::5]]
            self.assertEqual(flags, [(row.has_size, row.has_box) for row in rows])

    def test_hits(self) -> None:
        layer = certify(example.example("coast_lines_sized"))
        for scan in (layer.scan(WORLD), layer.scan("x=10..30,y=35..45"), *layer.scan_many([WORLD, "x=9..9,y=0..0", WORLD])):
            words = scan.table().cast("Q")
            self.assertEqual([Hit(*words[at : at + 3]) for at in range(0, len(words), 3)], list(scan))

    def test_none_of_them(self) -> None:
        layer = certify(b"")
        scan, (many,) = layer.scan(WORLD), layer.scan_many([WORLD])
        self.assertEqual([bytes(table) for table in (layer.table(), scan.table(), many.table())], [b"", b"", b""])

    def test_they_are_read_alone(self) -> None:
        layer = certify(example.POINT)
        for table in (layer.table(), layer.scan(WORLD).table(), layer.scan_many([WORLD])[0].table()):
            self.assertTrue(table.readonly)
            with self.assertRaises(TypeError):
                table[0] = 1

    def test_they_outlive_the_layer(self) -> None:
        layer = certify(example.POINT)
        table, scan = layer.table(), layer.scan(WORLD)
        layer.close()
        self.assertEqual((bytes(table[:24]), list(scan)), (bytes(16) + b"\4" + bytes(7), [Hit(0, 0, 4)]))


@unittest.skipUnless(numpy, "NumPy is missing: apt-get install python3-numpy")
class Arrays(unittest.TestCase):
    def test_numpy(self) -> None:
        layer = certify(example.example("coast_z"))
        rows, scan = layer.list(), layer.scan("x=0..90,y=0..90")
        table = numpy.frombuffer(layer.table(), ROW_DTYPE)
        self.assertEqual(table.dtype.names, Row._fields)
        for name in Row._fields:
            wanted = [TYPES.index(row.type) if name == "type" else getattr(row, name) for row in rows]
            self.assertEqual(table[name].tolist(), wanted, name)
        self.assertEqual(table["bytes"].sum(), layer.size)
        hits = numpy.frombuffer(scan.table(), HIT_DTYPE)
        self.assertEqual([Hit(*hit) for hit in hits.tolist()], list(scan))
        self.assertEqual(len(numpy.frombuffer(layer.scan("x=999..999,y=0..0").table(), HIT_DTYPE)), 0)

    @unittest.skipUnless(pandas, "pandas is missing: apt-get install python3-pandas")
    def test_pandas(self) -> None:
        layer = certify(example.example("coast_z"))
        frame = pandas.DataFrame(numpy.frombuffer(layer.table(), ROW_DTYPE))
        self.assertEqual(frame["vertices"].sum(), layer.vertices)
        self.assertEqual(list(frame.columns), list(Row._fields))
        self.assertEqual(set(frame["type"].map(TYPES.__getitem__)), {"linestring"})


if __name__ == "__main__":
    unittest.main()
