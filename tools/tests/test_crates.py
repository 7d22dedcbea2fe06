"""The drawing of the crates: what is joined, what is left out, and that docs/crates.svg is what crates.txt gives."""

import unittest
import xml.etree.ElementTree as xml

import crates_picture
from support import REPOSITORY, run_tool

SPACE = "{http://www.w3.org/2000/svg}"
TEXT = """# ground
low: byteorder
lists:
# house
middle may_wait=2: low lists
high: middle low
tests: low rand_core
alone:
"""


class Crates(unittest.TestCase):
    def test_floors_and_lines(self):
        crates = crates_picture.read_crates(TEXT)
        self.assertEqual([(name, crates_picture.floor_of(crates, name)) for name in crates],
                         [("low", 1), ("lists", 1), ("middle", 2), ("high", 3), ("tests", 2), ("alone", 1)])
        self.assertEqual(crates_picture.direct(crates, "high"), ["middle"])
        self.assertEqual(crates_picture.below(crates, "high"), {"middle", "low", "lists"})
        self.assertEqual((crates["low"].uses, crates["tests"].heading), (["byteorder"], "house"))

    def test_a_line_past_a_floor_has_a_bend(self):
        crates = crates_picture.read_crates("a:\nb: a\nc: b\nd: c a2\na2:\n")
        self.assertEqual([len(line) for line in crates_picture.lines_of(crates)], [2, 2, 2, 4])

    def test_boxes_lie_apart(self):
        root = xml.fromstring(crates_picture.draw(TEXT))
        boxes = [one for one in root.iter(SPACE + "rect") if float(one.get("height")) == crates_picture.BOX]
        self.assertEqual(len(boxes), 6)
        spans = sorted((float(one.get("y")), float(one.get("x")), float(one.get("width"))) for one in boxes)
        for (y, x, width), (next_y, next_x, _) in zip(spans, spans[1:]):
            self.assertTrue(next_y > y or next_x >= x + width, (y, x, next_x))
        self.assertEqual(sum(one.get("stroke-dasharray") is not None for one in boxes), 3)
        self.assertEqual(len(list(root.iter(SPACE + "path"))), 4)

    def test_the_drawing_is_current(self):
        status, _, error = run_tool(REPOSITORY, "crates", "--check")
        self.assertEqual((status, error), (0, ""))


if __name__ == "__main__":
    unittest.main()
