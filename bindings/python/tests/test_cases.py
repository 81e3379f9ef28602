"""The package answers what the program answers: each row of tests/cases.tsv, and the examples."""
import os
import subprocess
import tempfile
import unittest
from typing import List

import example
from cases import answered

# A program that the examples are compared with, where it is built.
PROGRAM = os.environ.get("TWKB_TOOL") or os.path.join(example.TOP, "build", "twkb_tool")
WINDOWS = ("x=10..30,y=35..45", "x=100..140,y=-10..10", "x=10..30,y=85..89", "x=-360..360,y=-360..360")


def rows() -> List[List[str]]:
    with open(os.path.join(example.TOP, "tests", "cases.tsv")) as file:
        next(file)
        return [row.rstrip("\n").split("\t") for row in file]


class Cases(unittest.TestCase):
    def test_rows(self) -> None:
        compared = 0
        with tempfile.TemporaryDirectory() as folder:
            path = os.path.join(folder, "case.twkb")
            for name, line, data, status, text in rows():
                with open(path, "wb") as layer:
                    layer.write(bytes.fromhex(data))
                wanted = int(status), text.replace("\\n", "\n")
                got = answered([path if word == "FILE" else word for word in line.split()])
                with self.subTest(name=name):
                    self.assertEqual(got, wanted)
                compared += 1
        self.assertGreater(compared, 100)

    @unittest.skipUnless(os.path.exists(PROGRAM), "the program is not built: make build, or name it by TWKB_TOOL")
    def test_examples(self) -> None:
        for name in example.EXAMPLES:
            path = example.path_of(name)
            runs = [["check", path], ["check", "--tight", path], ["list", path]]
            runs += [["scan", path, window] for window in WINDOWS]
            for words in runs:
                done = subprocess.run([PROGRAM, *words], stdout=subprocess.PIPE, text=True)
                with self.subTest(words=words):
                    self.assertEqual(answered(words), (done.returncode, done.stdout))


if __name__ == "__main__":
    unittest.main()
