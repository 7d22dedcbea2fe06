"""first-run with a stand-in for rt: it builds, leaves a working program alone, and says what is missing."""

import os
import shutil
import subprocess
import tempfile
import unittest

from support import REPOSITORY

OLD = "#!/bin/sh\necho the old program\n"
# The stand-in's program prints how to call it, or that it runs, as nvmetd does.
BUILDS = """#!/bin/sh
mkdir -p out && printf '#!/bin/sh\\necho the new program: $*\\n' > out/nvmetd && chmod +x out/nvmetd
echo 'usage: nvmetd run PLAN | check PLAN | show PLAN | gen N NAME'
exit 1
"""
FAILS = "#!/bin/sh\necho 'src/main.rt: not proved' >&2\nexit 1\n"


class FirstRun(unittest.TestCase):
    def setUp(self):
        self.folder = tempfile.TemporaryDirectory()
        self.addCleanup(self.folder.cleanup)
        self.top = os.path.join(self.folder.name, "top")
        self.program = os.path.join(self.top, "crates", "nvmetd", "out", "nvmetd")
        os.makedirs(os.path.dirname(self.program))
        shutil.copy(os.path.join(REPOSITORY, "first-run"), self.top)
        shutil.copytree(os.path.join(REPOSITORY, "examples"), os.path.join(self.top, "examples"))
        os.mkdir(os.path.join(self.top, "bin"))
        self.put(self.program, OLD)

    def put(self, name, text):
        with open(name, "w", encoding="ascii") as file:
            file.write(text)
        os.chmod(name, 0o755)

    def run_it(self, rt, *words):
        """Runs first-run with this stand-in for rt, or with none."""
        folders = [one for one in os.environ["PATH"].split(os.pathsep) if not os.path.exists(os.path.join(one, "rt"))]
        if rt:
            self.put(os.path.join(self.top, "bin", "rt"), rt)
            folders.insert(0, os.path.join(self.top, "bin"))
        words = ["/bin/bash", os.path.join(self.top, "first-run"), *words]
        done = subprocess.run(words, stdout=subprocess.PIPE, stderr=subprocess.STDOUT, text=True, check=False,
                              env=dict(os.environ, PATH=os.pathsep.join(folders), TMPDIR=self.folder.name))
        return done.returncode, done.stdout

    def read_program(self):
        with open(self.program, encoding="ascii") as file:
            return file.read()

    def test_it_builds_and_runs(self):
        target = os.path.join(self.folder.name, "run")
        status, out = self.run_it(BUILDS, target)
        self.assertIn("the new program: run plan", out)
        self.assertIn("stay in " + target, out)
        self.assertEqual(sorted(os.listdir(target)), ["plan", "q1"])

    def test_a_failed_build_leaves_the_old_program(self):
        status, out = self.run_it(FAILS)
        self.assertEqual((status, self.read_program()), (1, OLD))
        self.assertIn("src/main.rt: not proved", out)
        self.assertNotIn("the old program", out)
        self.assertEqual(os.listdir(self.folder.name), ["top"])

    def test_without_the_kit(self):
        status, out = self.run_it(None)
        self.assertEqual((status, self.read_program()), (1, OLD))
        self.assertIn("the Rattle kit isn't installed here", out)

    def test_a_folder_that_is_there(self):
        status, out = self.run_it(BUILDS, self.top)
        self.assertEqual((status, self.read_program()), (1, OLD))
        self.assertIn("FOLDER is one folder that isn't there yet", out)


if __name__ == "__main__":
    unittest.main()
