"""What tools/records shows of a file, and the seals by which it tells one names list from another."""
import hashlib
import os
import unittest

from folder import BOOK, CELLS, Folder, HERE


class Showing(Folder):
    def test_query_comes_back(self):
        for query in ["/child::a",
                      "/descendant::a[child::b[descendant::*]][child::c]/child::*[child::65535]/descendant::d"]:
            self.well("query", query)
            shown = self.well("show", "query.rec")
            self.assertEqual(shown.splitlines()[0], query)
            self.well("query", shown.splitlines()[0], "-o", "again")
            self.assertEqual(self.file("again"), self.file("query.rec"))

    def test_steps_in_words(self):
        self.well("query", "/a[.//b]/*")
        self.assertEqual(self.well("show", "query.rec").splitlines()[1:],
                         ["  step 1: child named a (1), of the document  (main path)",
                          "  step 2: descendant named b (2), of step 1  (predicate)",
                          "  step 3: child of any name, of step 1  (main path, listed)"])

    def test_document_comes_back(self):
        for tree in ["r", "r(d c)", BOOK, "r(a(b(c)) d(e f) g)"]:
            self.well("events", tree)
            self.assertEqual(self.well("show", "events.rec").splitlines()[1], tree)

    def test_unfinished_streams(self):
        for text, said in [("+r +d -d", "3 events, 2 nodes, 1 still open"),
                           ("", "0 events, 0 nodes, no document element yet")]:
            self.well("events", text)
            self.assertIn(said, self.well("show", "events.rec"))

    def test_faulty_streams(self):
        for text, said in [("+r -d", "then a fault: event 2 closes d, and the innermost open element is r (refusal 4)"),
                           ("-d", "then a fault: event 1 closes d, and nothing is open (refusal 4)"),
                           ("+r -r +r", "then a fault: event 3 comes after the end of the document (refusal 3)")]:
            self.well("events", "--", text)
            self.assertIn(said, self.ill("show", "events.rec"))
        os.remove(os.path.join(self.folder.name, "events.rec.names"))
        self.put("events.rec", bytes([1, 0, 0, 1, 0, 0, 0, 0, 1, 2, 0, 1, 0, 0, 0, 0]))
        self.assertIn("event 2 is a bad record: 01 02 00 01", self.ill("show", "events.rec"))
        self.put("events.rec", bytes([1, 0, 0, 1, 0, 0, 0, 0, 1]))
        self.assertIn("event 2 has only 1 bytes", self.ill("show", "events.rec"))

    def test_the_file_tells_what_it_is(self):
        self.well("query", "/a", "-o", "one")
        self.well("events", "a", "-o", "two")
        self.assertIn("step 1", self.well("show", "one"))
        self.assertIn("2 events", self.well("show", "two"))
        self.assertIn("refused 10", self.ill("show", "two", "--as", "query"))

    def test_nodes(self):
        self.well("events", BOOK)
        eight = "node 8: cell, /book/section/section/section/table/table/table/cell, opened by event 8\n"
        nine = "node 9: position, /book/section/section/section/table/position, opened by event 12\n"
        self.assertEqual(self.well("show", "events.rec", "--node", "8"), eight)
        self.assertEqual(self.well("show", "events.rec", "--node", "9,8"), nine + eight)
        self.assertEqual(self.well("show", "--node", "8", "--node", "9", "events.rec"), eight + nine)
        self.assertEqual(self.well("show", "events.rec", "--node", "-", text="8\nend 1\n"), eight)
        self.assertEqual(self.well("show", "events.rec", "--node", "-", text="end 0\n"), "")
        self.assertIn("node 11: not in this stream of 10 nodes", self.ill("show", "events.rec", "--node", "8,11"))
        self.assertIn("x is not a node number", self.ill("show", "events.rec", "--node", "x"))
        self.well("query", CELLS)
        self.assertIn("this is a query", self.ill("show", "query.rec", "--node", "1"))


class Sealing(Folder):
    """Which names a file was made with."""

    def test_what_a_seal_says(self):
        self.put("names.txt", b"a\nb\nc\n")
        self.well("query", "/b[a]")
        self.assertEqual(self.file("query.rec.names").decode(),
                         f"file {hashlib.sha256(self.file('query.rec')).hexdigest()}\nnames 2\n"
                         f"list {hashlib.sha256(b'a' + b'%c' % 10 + b'b' + b'%c' % 10).hexdigest()}\n")

    def test_one_list_that_grows_agrees(self):
        self.well("query", "/a/b")
        self.well("events", "a(b c)")
        self.assertEqual(self.well("check"), "query.rec, events.rec and names.txt agree\n")
        self.well("events", "a(b c d e)")
        self.assertIn("agree", self.well("check", "."))
        self.assertIn("agree", self.records("check", self.folder.name).stdout)

    def test_another_list_is_told(self):
        self.well("query", "/a/b")
        os.remove(os.path.join(self.folder.name, "names.txt"))
        done = self.records("events", "b(a)")
        self.assertEqual(done.returncode, 0)
        self.assertIn("note: query.rec was made with another names list", done.stderr)
        self.assertIn("write query.rec again", done.stderr)
        self.assertIn("query.rec was made with another names list: the first 2 names", self.ill("check"))
        said = self.ill("show", "query.rec")
        self.assertIn("/child::1/child::2", said)
        self.assertIn("names are shown as numbers", said)
        self.assertEqual(self.records("query", "/a/b").stderr, "")
        self.assertIn("agree", self.well("check"))

    def test_a_list_that_is_too_short(self):
        self.well("query", "/a/b")
        self.well("events", "a(b)")
        self.put("names.txt", b"a\n")
        self.assertIn("made with a longer names list: names.txt has 1 names, and it needs 2", self.ill("check"))

    def test_a_name_past_those_used_may_differ(self):
        self.well("query", "/a")
        self.well("events", "a")
        self.put("names.txt", b"a\nother\n")
        self.assertIn("agree", self.well("check"))

    def test_numbers_need_no_names(self):
        self.well("query", "/1")
        self.well("events", "1(2)")
        self.assertIn("agree", self.well("check"))
        self.put("names.txt", b"anything\n")
        self.assertIn("agree", self.well("check"))

    def test_a_file_changed_since(self):
        self.well("query", "/a")
        self.well("events", "a")
        self.put("events.rec", self.file("events.rec") + bytes(8))
        self.assertIn("events.rec is not the file that events.rec.names was written for", self.ill("check"))

    def test_what_cannot_be_checked(self):
        self.assertIn("there is no query.rec", self.ill("check"))
        self.well("query", "/a")
        self.assertIn("there is no events.rec", self.ill("check"))
        self.put("events.rec", bytes([1, 0, 0, 1, 0, 0, 0, 0, 2, 0, 0, 1, 0, 0, 0, 0]))
        self.assertIn("events.rec has no seal", self.ill("check"))
        self.assertIn("open a", self.well("show", "events.rec"))
        self.put("events.rec.names", b"anything")
        self.assertIn("events.rec.names is not a seal", self.ill("check"))

    def test_the_sample_agrees(self):
        sample = os.path.join(HERE, "..", "..", "samples", "book")
        self.assertIn("agree", self.well("check", sample))


if __name__ == "__main__":
    unittest.main()
