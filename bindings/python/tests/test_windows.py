"""Windows: numbers are taken exactly, and rounded inward to units by the library."""
import array
import copy
import decimal
import math
import pickle
import random
import unittest
from decimal import Decimal
from enum import IntEnum
from fractions import Fraction
from typing import Callable, Dict, List, Tuple, Union

import example
from dozhemik import BadWindow, Window, certify

numpy = example.package("numpy")
UNIT = 10**7
Number = Union[int, float, Decimal, str]
# No coordinate has as many units, so windows of more are cut there or beyond.
MOST = 2**63 * 10**15


def units(coordinate: Decimal) -> int:
    """The units of a coordinate of a window, which has a whole number of them."""
    number = Fraction(coordinate) * UNIT
    assert number.denominator == 1
    return number.numerator


def inward(value: Union[int, float, Decimal, str]) -> Tuple[int, int]:
    """The units of an exact value as a lower end and as an upper one."""
    exact = Fraction(value) * UNIT
    return math.ceil(exact), math.floor(exact)


class Numbers(unittest.TestCase):
    def taken(self, value: Number) -> None:
        """As each end of a range the number is its exact value, rounded inward."""
        window = Window((value, value), (0, 0))
        got, wanted = tuple(map(units, window.x)), inward(value)
        for one, exact in zip(got, wanted):
            # Beyond all coordinates it doesn't matter where the end is.
            if abs(exact) <= MOST:
                self.assertEqual(one, exact, value)
            else:
                self.assertTrue(abs(one) > MOST and (one > 0) == (exact > 0), value)

    def refused(self, *values: Number) -> None:
        for value in values:
            with self.subTest(value=repr(value)[:80]), self.assertRaises(BadWindow) as caught:
                Window((value, value), (0, 0))
            self.assertNotIn("\n", str(caught.exception))

    def test_known(self) -> None:
        known: List[Tuple[Number, int, int]] = [
            (0, 0, 0), (-3, -3 * UNIT, -3 * UNIT), (0.5, UNIT // 2, UNIT // 2), (-0.0, 0, 0), (1e22, 10**29, 10**29),
            # The float 0.1 is above a tenth, and the float 0.7 below seven tenths.
            (0.1, 1000001, 1000000), (-0.1, -1000000, -1000001), (0.7, 7000000, 6999999),
            (0.1 + 0.2, 3000001, 3000000), (5e-324, 1, 0), (-5e-324, 0, -1), (1e-8, 1, 0),
            ("0.1", 1000000, 1000000), ("-0.0000001", -1, -1), ("0.00000001", 1, 0), ("-0.99999999", -9999999, -10000000),
            ("007.50", 75000000, 75000000), (Decimal("0.1"), 1000000, 1000000), (Decimal("1E+3"), 10**10, 10**10),
            (Decimal("0E+999999"), 0, 0), (Decimal("-0E-999999"), 0, 0), (Decimal("100E-9"), 1, 1),
            (10**27, 10**34, 10**34), (Decimal("1.00000000000000000000000000000000001"), UNIT + 1, UNIT),
        ]
        for value, lo, hi in known:
            window = Window((value, 10**30), (-(10**30), value))
            with self.subTest(value=value):
                self.assertEqual((units(window.x[0]), units(window.y[1])), (lo, hi))

    def test_floats_are_their_exact_values(self) -> None:
        chance = random.Random(5)
        floats = [chance.uniform(-180, 180) for _ in range(2000)]
        floats += [round(value, places) for value in floats for places in range(0, 9)]
        floats += [chance.uniform(-1, 1) * 10.0 ** chance.randint(-300, 300) for _ in range(2000)]
        floats += [value * (1 + 2**-52) for value in floats[:500]] + [1.7976931348623157e308, 5e-324]
        for value in floats:
            self.taken(value)

    def test_decimals_of_any_context(self) -> None:
        chance = random.Random(6)
        with decimal.localcontext() as context:
            context.prec, context.Emax, context.Emin = 3, 5, -5
            for _ in range(3000):
                digits = tuple(chance.randint(0, 9) for _ in range(chance.randint(1, 60)))
                self.taken(Decimal((chance.randint(0, 1), digits, chance.randint(-80, 60))))

    def test_texts(self) -> None:
        chance = random.Random(7)
        for _ in range(3000):
            whole = "".join(chance.choices("0123456789", k=chance.randint(1, 40)))
            decimals = "".join(chance.choices("059", k=chance.randint(0, 40)))
            self.taken(chance.choice(("", "-")) + whole + ("." + decimals if decimals else ""))

    def test_texts_with_an_exponent(self) -> None:
        known = [("5e-05", 500, 500), ("1e-7", 1, 1), ("1E+21", 10**28, 10**28), ("-1.5e-8", 0, -1), ("25e-8", 3, 2)]
        known += [("0e999999999", 0, 0), ("1e-100000", 1, 0), ("-007.50e1", -75 * UNIT, -75 * UNIT)]
        known += [("1.00000000000000000000000000001e0", UNIT + 1, UNIT)]
        for text, lo, hi in known:
            window = Window((text, 10**30), (-(10**30), text))
            with self.subTest(text=text):
                self.assertEqual((units(window.x[0]), units(window.y[1])), (lo, hi))
        chance = random.Random(8)
        for _ in range(2000):
            number = chance.uniform(-1, 1) * 10.0 ** chance.randint(-300, 20)
            self.taken(f"{number!r}" if "e" in repr(number) else f"{number:.17e}")
        with decimal.localcontext() as context:
            context.prec, context.capitals, context.traps[decimal.InvalidOperation] = 3, 0, False
            self.assertEqual(Window(("1.23456e2", 124), (1e-300, 1)), Window(("123.456", 124), ("0.0000001", 1)))
            self.refused("1e-99999999999999999999", "1e99999999999999999999")
        self.refused("1e3000000", "1e-3000000", "-7e999999999999", "1e-999999999999")

    def test_long_ones(self) -> None:
        small: List[Number] = ["0." + "0" * 100000 + "1", Decimal("1E-100000")]
        for value in small:
            self.assertEqual(Window((value, 1), (-1, value)), Window(("0.0000001", 1), (-1, 0)))
        large: List[Number] = [10**5000, "1" * 100000, Decimal("7E+100000")]
        for value in large:
            window = Window((0, value), (0, 0))
            self.assertGreater(units(window.x[1]), MOST)
        self.assertLess(units(Window((-(10**5000), 0), (0, 0)).x[0]), -MOST)

    def test_ranges_without_a_unit(self) -> None:
        """They are no error, and have no vertices."""
        layer = certify(example.POINT)
        ranges: List[Tuple[Number, Number]] = [
            (0.1, 0.1), (1 + 1e-9, 1 + 2e-9), ("1.00000001", "1.00000002"), (Decimal("0.99999999"), Decimal("0.999999999"))
        ]
        for lo, hi in ranges:
            window = Window((lo, hi), (0, 5))
            self.assertGreater(window.x[0], window.x[1])
            self.assertEqual(list(layer.scan(window)), [])
            self.assertEqual(list(layer.directory().scan(window)), [])
        self.assertEqual(len(layer.scan(x=(0.99999999999, 1.0000000000001), y=("1.99999999", "2"))), 1)

    def test_too_long(self) -> None:
        self.refused(Decimal("1E+3000000"), Decimal("1E-3000000"), Decimal("1E+999999999999"), Decimal("-1E-999999999999"))

    def test_no_numbers(self) -> None:
        self.refused(math.nan, math.inf, -math.inf, Decimal("nan"), Decimal("-Infinity"), Decimal("sNaN"))

    def test_texts_of_no_number(self) -> None:
        self.refused("", "-", "+1", "1.", ".5", " 1", "1 ", "1\n", "1_000", "0x1", "nan", "٣", "1\0", "1\udc80")
        self.refused("e5", "1e", "1e+", ".5e1", "1.e1", "+1e5", "1e5 ", "1e5\n", "1e 5", "1e5.5", "1_0e5", "1e1_0", "1e٣", "1ee5")
        # Texts that are more of a window than a number.
        self.refused("1..2", "0,y=0..1,z=0", "1,2", "x=1")

    def test_no_coordinates(self) -> None:
        for value in (True, None, b"1", 1j, [1], Fraction(1, 3), object()):
            with self.subTest(value=value), self.assertRaises(TypeError):
                Window((value, value), (0, 0))  # type: ignore[arg-type]

    def test_subclasses_of_numbers(self) -> None:
        class Loud(float):
            def __repr__(self) -> str:
                return "Loud(1.5)"

        class Place(IntEnum):
            HERE = 1

        self.assertEqual(Window((Loud(1.5), Place(1) + 1), (Place.HERE, 2)), Window((1.5, 2), (1, 2)))


    @unittest.skipUnless(numpy, "NumPy is missing: apt-get install python3-numpy")
    def test_numbers_of_numpy(self) -> None:
        for kind in ("float64", "float32", "float16", "int64", "uint8", "longdouble"):
            values = numpy.array([0, 1, 2, 100], dtype=kind)
            self.assertEqual(Window((values.min(), values[2]), (values[1], values[2])), Window((0, 2), (1, 2)))
        tenth = numpy.float32(0.1)
        self.assertEqual(Window((tenth, 1), (0, tenth)), Window((float(tenth), 1), (0, float(tenth))))
        for number in (numpy.longdouble("0.1"), numpy.bool_(True), numpy.complex64(1)):
            with self.subTest(kind=type(number)), self.assertRaises(TypeError):
                Window((number, 1), (0, 1))
        self.refused(numpy.float32("nan"), numpy.float32("inf"))


class Windows(unittest.TestCase):
    def test_no_ranges(self) -> None:
        made: Callable[..., Window] = Window
        for ends in (1, "12", (1,), (1, 2, 3), {1, 2}, None, iter((1, 2))):
            with self.subTest(ends=ends), self.assertRaises(TypeError):
                made(ends, (0, 0))
            with self.subTest(ends=ends), self.assertRaises(TypeError):
                made((0, 0), ends)

    def test_upside_down(self) -> None:
        made: Callable[..., Window] = Window
        for ranges in (((2, 1), (0, 1)), ((0, 1), (0, 1), None, (0.5, 0.4))):
            with self.subTest(ranges=ranges), self.assertRaisesRegex(BadWindow, "lower bound"):
                made(*ranges)
        with self.assertRaisesRegex(BadWindow, "lower bound"):
            Window(("0.00000002", "0.00000001"), (0, 1))

    def test_axes(self) -> None:
        window = Window(x=(1, 2), y=(3, 4), m=(5, 6.5))
        self.assertEqual(str(window), "x=1..2,y=3..4,m=5..6.5")
        self.assertEqual(repr(window), "<Window x=1..2,y=3..4,m=5..6.5>")
        self.assertEqual((window.x, window.y, window.z, window.m), ((1, 2), (3, 4), None, (5, Decimal("6.5"))))
        self.assertEqual(Window((-0.5, 0), (-1, 1), z=("0.0000001", 7)).z, (Decimal("0.0000001"), 7))
        self.assertEqual(str(Window((-1000, "-0.0000001"), ("-12.5", 10**26))), f"x=-1000..-0.0000001,y=-12.5..{10**26}")
        for name in "xyzm":
            with self.assertRaises(AttributeError):
                setattr(window, name, (0, 1))

    def test_axes_of_any_context(self) -> None:
        with decimal.localcontext() as context:
            context.prec = 3
            window = Window(("123456789.1234567", 10**27), (0, 1))
            self.assertEqual(str(window), f"x=123456789.1234567..{10**27},y=0..1")

    def test_bbox(self) -> None:
        window = Window.from_bbox((10, "35", 30.0, Decimal(45)))
        self.assertEqual(window, Window.parse("x=10..30,y=35..45"))
        self.assertEqual(Window.from_bbox((0, 1, 2, 3), z=(4, 5), m=(6, 7)), Window((0, 2), (1, 3), (4, 5), (6, 7)))
        made: Callable[..., Window] = Window.from_bbox
        for bbox in (None, 5, (1, 2, 3), (1, 2, 3, 4, 5), "1234", ((0, 1), (2, 3)), {1, 2, 3, 4}):
            with self.subTest(bbox=bbox), self.assertRaises(TypeError):
                made(bbox)
        values: Dict[int, float] = {0: 10, 1: 35, 2: 30, 3: 45}
        for bbox in (b"1234", values, numpy and numpy.zeros((2, 2)), numpy and numpy.zeros((4, 4)), numpy and numpy.zeros(3)):
            with self.subTest(bbox=bbox), self.assertRaises(TypeError) as caught:
                made(bbox)
            self.assertNotIn("\n", str(caught.exception))
        # The order of GDAL's extents, which is another.
        with self.assertRaises(BadWindow):
            Window.from_bbox((10, 30, 35, 5))

    def test_bbox_of_any_sequence(self) -> None:
        wanted, layer = Window((10, 30), (35, 45)), certify(example.example("coast_lines_sized"))
        doubles = array.array("d", [10, 35, 30, 45])
        self.assertEqual(Window.from_bbox(doubles), wanted)
        self.assertEqual(Window.from_bbox(range(1, 5)), Window((1, 3), (2, 4)))
        self.assertEqual(Window.from_bbox(memoryview(doubles)), wanted)
        self.assertEqual((len(layer.scan(bbox=doubles)), len(layer.directory().scan(bbox=doubles))), (44, 44))

    @unittest.skipUnless(numpy, "NumPy is missing: apt-get install python3-numpy")
    def test_bbox_of_numpy(self) -> None:
        layer, wanted = certify(example.example("coast_lines_sized")), Window((10, 30), (35, 45))
        for kind in ("float64", "float32", "int64", "longdouble", object):
            bbox = numpy.array([10, 35, 30, 45], dtype=kind)
            self.assertEqual((Window.from_bbox(bbox), len(layer.scan(bbox=bbox))), (wanted, 44))
            many = numpy.array([[10, 35, 30, 45], [100, -10, 140, 10]], dtype=kind)
            self.assertEqual([len(scan) for scan in layer.scan_many(Window.from_bboxes(many))], [44, 158])
        self.assertEqual(Window.from_bboxes(numpy.zeros((0, 4))), [])
        bad = [[0, 0, 1, 1], [0, 0, 1, math.nan]]
        with self.assertRaisesRegex(BadWindow, "box 1: .* range of y is NaN"):
            Window.from_bboxes(numpy.array(bad))
        for shape in ((4,), (3, 3), (2, 4, 1)):
            with self.subTest(shape=shape), self.assertRaisesRegex(TypeError, "box 0: "):
                Window.from_bboxes(numpy.zeros(shape))

    def test_bboxes(self) -> None:
        chance = random.Random(9)
        corners = [(chance.uniform(-180, 180), chance.uniform(-90, 90)) for _ in range(500)]
        boxes = [(x, y, x + 1.1, y + 0.3) for x, y in corners]
        self.assertEqual(Window.from_bboxes(boxes), [Window.from_bbox(box) for box in boxes])
        windows = Window.from_bboxes(iter(boxes[:9]), z=(0, 1), m=("1e-7", 2))
        self.assertEqual(windows, [Window.from_bbox(box, z=(0, 1), m=("1e-7", 2)) for box in boxes[:9]])
        with self.assertRaisesRegex(BadWindow, "box 2: y=4..3: the lower bound"):
            Window.from_bboxes([(1, 2, 3, 4), [1, "2", 3, 4], (1, 4, 3, 3)])
        made: Callable[..., List[Window]] = Window.from_bboxes
        with self.assertRaisesRegex(TypeError, r"box 1: a bbox is \(xmin, ymin, xmax, ymax\), not 5"):
            made([(1, 2, 3, 4), 5])
        for boxes_ in (None, 5, "1234", (1, 2, 3, 4)):
            with self.subTest(boxes=boxes_), self.assertRaises(TypeError):
                made(boxes_)

    def test_equal(self) -> None:
        windows = [Window((0, 1), (0, 1)), Window((0, 1.0), ("0.00", Decimal(1))), Window.parse("x=0..1,y=0..1.0000000")]
        self.assertEqual((len(set(windows)), windows[0], windows[1]), (1, windows[1], windows[2]))
        others = [Window((0, 1), (0, 1), z=(0, 0)), Window((0, 1), (0, 1), m=(0, 0)), Window((0, 1), (0, 2)), Window((0, 2), (0, 1))]
        self.assertEqual(len({*windows, *others}), 5)
        self.assertNotEqual(windows[0], "x=0..1,y=0..1")
        self.assertTrue(windows[0] != others[0])

    def test_parsing(self) -> None:
        for text in ("", "x=0..1", "x=0..1,y=0..1,", "y=0..1,x=0..1", "x=0..1,y=0..1,m=0..1,z=0..1", "x=0..é,y=0..1",
                     "x=0..1,y=0..1\n", "x=0..1,y=0..1\0", "x=0..1,y=0..1\udc80", "x=0..0.12345678,y=0..1"):
            with self.subTest(text=text), self.assertRaisesRegex(BadWindow, "form"):
                Window.parse(text)
        with self.assertRaises(TypeError):
            Window.parse(b"x=0..1,y=0..1")  # type: ignore[arg-type]

    def test_texts_and_ranges_are_alike(self) -> None:
        layer = certify(example.example("coast_lines_sized"))
        x, y = (Decimal("10.0"), 30.0), ("35", 45)
        scans = [layer.scan(x=x, y=y), layer.scan(Window(x, y)), layer.scan("x=10..30,y=35..45"), layer.scan(bbox=(10, 35, 30, 45))]
        self.assertEqual([(list(scan), scan.bytes_read) for scan in scans], 4 * [(list(scans[0]), 24857)])

    def test_pickled_and_copied(self) -> None:
        # The range of X has no unit in it, so no text says it.
        for window in (Window((0.1, 1), (2, 3)), Window((0.1, 0.1), (2, 3), m=(-(10**30), 10**400))):
            for again in (pickle.loads(pickle.dumps(window)), copy.copy(window), copy.deepcopy(window)):
                self.assertEqual((again, bytes(again._struct)), (window, bytes(window._struct)))


if __name__ == "__main__":
    unittest.main()
