"""Damaged files of a run: each is read, or refused with its place, and nothing else comes of it."""

import os
import random
import tempfile
import unittest
import xml.etree.ElementTree as xml

import capsule_text
import run_files
import run_picture
from made import make_run
from nvmet_formats import Bad, read_capsules

TURNS = 200


def damaged(draw, blob):
    """The bytes with a few of them changed, put in, left out or there twice."""
    blob = bytearray(blob)
    for _ in range(draw.randrange(1, 4)):
        at = draw.randrange(len(blob) + 1)
        some = bytes(draw.getrandbits(8) for _ in range(draw.randrange(1, 40)))
        kind = draw.randrange(4)
        if kind == 0:
            blob[at:at + 1] = some[:1]
        elif kind == 1:
            blob[at:at] = some
        elif kind == 2:
            del blob[at:at + len(some)]
        else:
            blob[at:at] = blob[at:at + 2 * len(some)]
    return bytes(blob)


class Damage(unittest.TestCase):
    def test_damaged_files(self):
        draw = random.Random(7)
        here = os.getcwd()
        self.addCleanup(os.chdir, here)
        with tempfile.TemporaryDirectory() as folder:
            make_run(folder, commands=8)
            os.chdir(folder)
            whole = {}
            for name in os.listdir("."):
                with open(name, "rb") as file:
                    whole[name] = file.read()
            read = sum(self.try_one(draw, whole, draw.choice(sorted(whole))) for _ in range(TURNS))
            os.chdir(here)
        self.assertTrue(0 < read < TURNS)

    def try_one(self, draw, whole, name):
        """Whether the run is read with this file damaged."""
        blob = damaged(draw, whole[name])
        with open(name, "wb") as file:
            file.write(blob)
        try:
            run = run_files.read_run("plan")
            for call in run.calls:
                run_files.line_of(call)
                run_files.as_object(call)
                if call.page:
                    run_files.page_lines(call)
            if not run_files.fault_of_places(run):
                xml.fromstring(run_picture.draw(run, "plan"))
            if name.startswith("q"):
                read_capsules(blob)
                self.assertEqual(capsule_text.build(capsule_text.say(blob)), blob)
            return True
        except Bad:
            return False
        finally:
            with open(name, "wb") as file:
                file.write(whole[name])


if __name__ == "__main__":
    unittest.main()
