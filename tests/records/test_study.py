"""The study pieces of docs/SCOPE.md and the exporter of docs/FORMATS.md, through tools/records and a program."""
import os
import re
import subprocess
import sys
import unittest

from folder import BOOK, CELLS, Folder, HERE, MOST_HELD, MOST_OPEN, PROGRAM

# Document 01's P cases that are a document and a query, and the R cases that are a stream: what the program writes.
STUDY = [
    ("P1", BOOK, CELLS, "8 end 1"),
    ("P2", BOOK.replace(" author", ""), CELLS, "end 0"),
    ("P3", "a(a(a))", "/descendant::a/descendant::a", "2 3 end 2"),
    ("P4", "r(d d)", "/child::r/child::d", "2 3 end 2"),
    ("P5", "r(d(d(c)))", "/descendant::d[child::c]", "3 end 1"),
    ("P6", "r(d(d(c) c))", "/descendant::d[child::c]", "2 3 end 2"),
    ("P7", "r(d)", "/child::r[child::*][child::d]/child::d", "2 end 1"),
    ("P8", "a(a(c) c d)", "/child::a[descendant::b][child::c]/child::d", "end 0"),
    ("P9", "r(d)", "/child::d", "end 0"),
    ("P10", "r(d)", "/descendant::r", "1 end 1"),
    ("P11", "-r", "/r", "refused 4 at 1"),
    ("P11, finish", "", "/r", "refused 8 at 0"),
    ("P12, up to the refusal", "+r -d -r", "/r", "1 refused 4 at 2"),
    ("R1", f"r(d*{MOST_HELD} c)", "/child::*[child::c]/child::*",
     " ".join(map(str, range(2, MOST_HELD + 3))) + f" end {MOST_HELD + 1}"),
    ("R2", f"r(d*{MOST_HELD + 1} c)", "/child::*[child::c]/child::*", f"refused 7 at {2 * (MOST_HELD + 1)}"),
    ("R3", "+r " * MOST_OPEN, "/child::d", f"refused 8 at {MOST_OPEN}"),
    ("R3, one more", "+r " * (MOST_OPEN + 1), "/child::d", f"refused 5 at {MOST_OPEN + 1}"),
]


class Exporter(Folder):
    """The exporter that docs/FORMATS.md shows."""

    def test_it_writes_what_the_tool_reads(self):
        with open(os.path.join(HERE, "..", "..", "docs", "FORMATS.md"), encoding="utf-8") as page:
            self.put("exporter.py", re.search(r"```python\n(.*?)```", page.read(), re.S)[1].encode())
        self.put("names.txt", b"d\n")
        xml = "<!-- before --><r k='1'>text<d/><!-- inside --><ns:d xmlns:ns='x'>more</ns:d></r><!-- after -->"
        subprocess.run([sys.executable, "exporter.py"], cwd=self.folder.name, input=xml, text=True, check=True)
        self.assertEqual(self.file("names.txt"), b"d\nr\nns:d\n")
        self.assertEqual(self.well("show", "events.rec").splitlines()[1], "r(d 65535 ns:d)")
        self.well("query", "/r/*")
        self.assertIn("agree", self.well("check"))
        came = subprocess.run([PROGRAM], cwd=self.folder.name, capture_output=True, text=True).stdout
        self.assertEqual(came, "2\n3\n4\nend 3\n", "a comment is an element here")


class Study(Folder):
    def test_study_pieces(self):
        for label, tree, query, must in STUDY:
            with self.subTest(label):
                self.well("query", query)
                self.well("events", "--", tree)
                came = subprocess.run([PROGRAM], cwd=self.folder.name, capture_output=True, text=True).stdout
                lines = must.replace("end ", "end_").replace("refused ", "refused_").replace(" at ", "_at_").split()
                self.assertEqual(came, "".join(line.replace("_", " ") + "\n" for line in lines))


if __name__ == "__main__":
    unittest.main()
