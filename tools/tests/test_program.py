"""The program itself, where it is built: the README's ten lines, examples/statuses with its picture, and the runs that
are stored with what they have to give."""

import json
import os
import shutil
import subprocess
import tempfile
import unittest

from support import REPOSITORY, run_tool

PROGRAM = os.path.join(REPOSITORY, "crates", "nvmetd", "out", "nvmetd")
NAMES = {"success": "Success"}


def indented(text, first):
    """The indented lines of a page from the one that begins so, up to the next line that isn't indented."""
    rows = text.splitlines()
    start = next(at for at, row in enumerate(rows) if row.startswith("    " + first))
    end = next(at for at in range(start, len(rows)) if rows[at] and not rows[at].startswith("    "))
    return [row[4:] for row in rows[start:end] if row]


def read_bytes(path):
    """What a file holds."""
    with open(path, "rb") as file:
        return file.read()


@unittest.skipUnless(os.path.exists(PROGRAM), "nvmetd isn't built yet")
class Program(unittest.TestCase):
    def setUp(self):
        self.folder = tempfile.TemporaryDirectory()
        self.addCleanup(self.folder.cleanup)

    def test_the_ten_lines_of_the_readme(self):
        with open(os.path.join(REPOSITORY, "README.md"), encoding="utf-8") as file:
            page = file.read()
        lines = indented(page, "export PATH")
        self.assertEqual(len(lines), 10)
        done = subprocess.run(["/bin/bash", "-e"], input="\n".join(lines), cwd=REPOSITORY, text=True, check=True,
                              stdout=subprocess.PIPE, env=dict(os.environ, TMPDIR=self.folder.name))
        self.assertEqual(done.stdout.splitlines()[7:], indented(page, "0  q1  submit"))
        made = os.path.join(self.folder.name, os.listdir(self.folder.name)[0])
        self.assertEqual(sorted(os.listdir(made)), ["plan", "q1", "q1.txt", "r1", "run.svg"])

    def test_the_statuses(self):
        example = os.path.join(REPOSITORY, "examples", "statuses")
        for name in os.listdir(example):
            shutil.copy(os.path.join(example, name), self.folder.name)
        subprocess.run([PROGRAM, "run", "plan"], cwd=self.folder.name, check=True, stdout=subprocess.DEVNULL)
        with open(os.path.join(example, "q1.txt"), encoding="ascii") as file:
            wanted = [row.split("# ")[1].split(":")[0].split(",")[0].strip()
                      for row in file if not row.startswith(("#", "block-size"))]
        _, out, _ = run_tool(self.folder.name, "records", "plan", "--json")
        answers = [json.loads(row) for row in out.splitlines()]
        found = [one["completion"]["status"]["name"] for one in answers if one["answer"] == "answered"]
        self.assertEqual(found, [NAMES.get(name, name) for name in wanted])
        _, out, _ = run_tool(self.folder.name, "picture", "plan")
        with open(os.path.join(REPOSITORY, "docs", "statuses.svg"), encoding="utf-8") as file:
            self.assertEqual(out, file.read(), "docs/statuses.svg is another picture")

    def test_the_stored_runs(self):
        for name in ("target", "script"):
            example = os.path.join(REPOSITORY, "examples", name)
            folder = os.path.join(self.folder.name, name)
            shutil.copytree(example, folder)
            done = subprocess.run([PROGRAM, "run", "plan"], cwd=folder, check=True, stdout=subprocess.PIPE)
            wanted = os.path.join(folder, "expected")
            self.assertEqual(read_bytes(os.path.join(wanted, "stdout")), done.stdout, name)
            for file in sorted(set(os.listdir(wanted)) - {"stdout"}):
                self.assertEqual(read_bytes(os.path.join(folder, file)), read_bytes(os.path.join(wanted, file)),
                                 "%s of examples/%s" % (file, name))
            places = read_bytes(os.path.join(wanted, "journal")).splitlines()[1].split()[1]
            self.assertEqual(self.command(folder, "check", "plan"), (0, b"legal " + places + b"\n"), name)
            shown = self.command(folder, "show", "plan")[1]
            with open(os.path.join(folder, "config.json"), "wb") as file:
                file.write(shown)
            self.assertEqual(self.command(folder, "show", "plan"), (0, shown), name)

    def command(self, folder, *words):
        """The exit status of a command of the program, and what it puts."""
        done = subprocess.run([PROGRAM, *words], cwd=folder, stdout=subprocess.PIPE)
        return done.returncode, done.stdout

    def test_a_generated_plan(self):
        folder = self.folder.name
        status, summary = self.command(folder, "gen", "7", "g")
        self.assertEqual((status, summary.splitlines()[0]), (0, b"places 238"))
        names = ["g.json", "g.plan", "g.q1", "g.q2", "g.q3", "g.q4", "g.script"]
        self.assertEqual(sorted(os.listdir(folder)), names)
        self.assertEqual([os.path.getsize(os.path.join(folder, name)) for name in ("g.q1", "g.q2")], [2432, 17216])
        self.assertEqual(self.command(folder, "run", "g.plan"), (0, summary))
        self.assertEqual(self.command(folder, "check", "g.plan"), (0, b"legal 238\n"))
        records = bytearray(read_bytes(os.path.join(folder, "g.r2")))
        records[-1] ^= 1
        with open(os.path.join(folder, "g.r2"), "wb") as file:
            file.write(records)
        status, line = self.command(folder, "check", "g.plan")
        self.assertEqual((status, line[:16]), (8, b"not legal place "))


if __name__ == "__main__":
    unittest.main()
