"""What the tests of tools/records share: a folder of their own for each, and the tool run in it."""
import os
import subprocess
import sys
import tempfile
import unittest

HERE = os.path.dirname(os.path.abspath(__file__))
RECORDS = os.path.join(HERE, "..", "..", "tools", "records")
# The P cases need the second program (cargo build --release in tests/) or another one: PROGRAM=path/to/program.
PROGRAM = os.path.abspath(os.environ.get("PROGRAM", os.path.join(HERE, "..", "target", "release", "second")))
# The document and the query of the study piece P1.
BOOK = "book(section(section(section(table(table(table(cell)) position))) author))"
CELLS = "//section[author]//table[position]//cell"
# A session's limits (docs/FORMATS.md).
MOST_OPEN, MOST_HELD, MOST_STEPS = 256, 1024, 32


class Folder(unittest.TestCase):
    def setUp(self):
        self.folder = tempfile.TemporaryDirectory()
        self.addCleanup(self.folder.cleanup)

    def records(self, *arguments, text=None):
        return subprocess.run([sys.executable, RECORDS, *arguments], cwd=self.folder.name, input=text,
                              capture_output=True, text=True)

    def well(self, *arguments, text=None):
        done = self.records(*arguments, text=text)
        self.assertEqual(done.returncode, 0, done.stderr)
        return done.stdout

    def ill(self, *arguments, text=None):
        """What a command that fails says, on either side."""
        done = self.records(*arguments, text=text)
        self.assertEqual(done.returncode, 1, done.stdout + done.stderr)
        self.assertNotIn("Traceback", done.stderr)
        return done.stdout + done.stderr

    def files(self):
        return {name: self.file(name) for name in os.listdir(self.folder.name)}

    def file(self, name):
        with open(os.path.join(self.folder.name, name), "rb") as file:
            return file.read()

    def put(self, name, data):
        with open(os.path.join(self.folder.name, name), "wb") as file:
            file.write(data)
