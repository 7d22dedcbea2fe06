"""The picture of a run: what is drawn of each call, at a few, a hundred and ten thousand places."""

import os
import tempfile
import unittest
import xml.etree.ElementTree as xml

import capsule_text
import run_files
import run_picture
from made import make_run
from support import run_tool

SPACE = "{http://www.w3.org/2000/svg}"


class Pictures(unittest.TestCase):
    def setUp(self):
        self.folder = tempfile.TemporaryDirectory()
        self.addCleanup(self.folder.cleanup)
        here = os.getcwd()
        self.addCleanup(os.chdir, here)
        os.chdir(self.folder.name)

    def draw(self):
        """The run in the folder, the picture's elements, and what its marks say."""
        run = run_files.read_run("plan")
        root = xml.fromstring(run_picture.draw(run, "plan"))
        titles = [title.text for title in root.iter(SPACE + "title")]
        return run, root, titles

    def assert_inside(self, root):
        """Every rectangle lies on the sheet."""
        width, height = float(root.get("width")), float(root.get("height"))
        for one in root.iter(SPACE + "rect"):
            x, y, wide, tall = (float(one.get(key)) for key in ("x", "y", "width", "height"))
            self.assertTrue(0 <= x and x + wide <= width + 0.5 and 0 <= y and y + tall <= height + 0.5, one.attrib)

    def test_a_hundred_calls(self):
        make_run(".", commands=16, queues=3, disables=3)
        run, root, titles = self.draw()
        self.assert_inside(root)
        texts = [text.text for text in root.iter(SPACE + "text")]
        for lane in ("editor", "q0", "q1", "q2"):
            self.assertIn(lane, texts)
        drains = run_picture.drains_of([call for call in run.calls if call.edit])
        spans = [span for number in (1, 2, 3) for span in
                 run_picture.spans_of([call for call in run.calls if call.queue == number])]
        self.assertEqual(len(drains), 3)
        self.assertEqual(sum("done at place" in title for title in titles if title.startswith("disable")) >= 3, True)
        self.assertEqual(sum(": held at place" in title for title in titles), len(spans))
        for span in spans:
            self.assertTrue(any("held at place %d, executed at place %d" % (span.start, span.end) in title
                                for title in titles))
        self.assertTrue(any("EBUSY" in title for title in titles))
        self.assertIn("EBUSY", texts)

    def test_every_call_is_drawn(self):
        make_run(".", commands=40, queues=4, disables=8, seed=3)
        run, _, titles = self.draw()
        said = " ".join(titles)
        for call in run.calls:
            self.assertRegex(said, r"place %d\b" % call.place)

    def test_events_answer_their_requests(self):
        make_run(".", commands=60, queues=4, disables=12)
        run, root, titles = self.draw()
        answers = [call for call in run.calls if call.request]
        self.assertTrue(answers)
        places = {call.place: call for call in run.calls}
        for poll in answers:
            request = places[poll.request[0]]
            self.assertEqual((request.command, request.cid), ("event-request", poll.record.completion.cid))
            self.assertTrue(any("place %d: poll" % poll.place in title
                                and "answers the request #%d of place %d" % (poll.request[1], request.place) in title
                                for title in titles))

    def test_ten_thousand_calls_are_bands(self):
        places = make_run(".", commands=1100, queues=5, disables=120)
        self.assertGreater(places, 9000)
        run, root, titles = self.draw()
        self.assert_inside(root)
        self.assertLess(float(root.get("width")), 1700)
        self.assertLess(len(list(root.iter())), 20000)
        self.assertEqual(sum(title.startswith("disable of") for title in titles) >= 120, True)
        refused = sum(run_picture.is_refused(call) for call in run.calls)
        told = sum(int(title.split()[0]) for title in titles if title.endswith(("refused command", "refused commands")))
        self.assertEqual((refused > 0, told), (True, refused))

    def test_an_empty_run_and_a_held_command(self):
        with open("plan", "w") as file:
            file.write("nvmet-plan 1\nsimple\ndisk /dev/ram0 9 16\nqueue 1 q1 r1\n")
        for text, records in (("", b""), ("read", bytes([0, 0, 0, 0, 1]) + bytes(27))):
            with open("q1", "wb") as file:
                file.write(capsule_text.build(text))
            with open("r1", "wb") as file:
                file.write(records)
            _, root, titles = self.draw()
            self.assert_inside(root)
            self.assertEqual(any("never executed" in title for title in titles), bool(records))

    def test_a_script_with_control_bytes(self):
        make_run(".", commands=4)
        with open("s", "wb") as file:
            file.write(b"set \x1b[31m\x00<&\xff\n")
        _, _, titles = self.draw()
        self.assertTrue(any("set ?[31m?<&?" in title for title in titles))

    def test_the_command(self):
        make_run(".", commands=4)
        status, out, _ = run_tool(".", "picture", "plan", "-o", "p.svg")
        self.assertEqual((status, out), (0, ""))
        status, out, _ = run_tool(".", "picture", "plan")
        with open("p.svg") as file:
            self.assertEqual((status, out), (0, file.read()))
        with open("plan", "rb") as file:
            plan = file.read()
        for name in ("plan", "r1", "j", "s"):
            self.assertEqual(run_tool(".", "picture", "plan", "-o", name)[0], 1, name)
        with open("plan", "rb") as file:
            self.assertEqual(file.read(), plan)
        os.remove("r1")
        self.assertEqual(run_tool(".", "picture", "plan")[0::2],
                         (1, "picture: r1: cannot read: No such file or directory\n"))
        self.assertEqual(run_tool(".", "picture")[0], 2)
        self.assertEqual(run_tool(".", "picture", "--help")[0], 0)


if __name__ == "__main__":
    unittest.main()
