"""What tools/records says of bad input, and that it then changes nothing."""
import os
import unittest

from folder import Folder, MOST_STEPS


class BadInput(Folder):
    def test_messages(self):
        for command, text, said in [
                ("query", "a", "begins at the document"), ("query", "", "begins at the document"),
                ("query", "/", "a name or * must stand here"), ("query", "/a[", "a name or * must stand here"),
                ("query", "/a[b", "] is missing"), ("query", "/a]", "] does not belong here"),
                ("query", "/a[//b]", "write .// in place of //"), ("query", "/a[b and c]", "[a][b]"),
                ("query", "/0", "0 is not a name number"), ("query", "/65536", "65536 is not a name number"),
                ("query", "/a" * (MOST_STEPS + 1), f"at most {MOST_STEPS} steps"), ("query", "/1d", "1d is neither a name nor a number"),
                ("query", "<r/>", "this looks like XML"), ("query", "/a:b:c", ": does not belong here"),
                ("query", "/\u0301a", "is neither a name nor a number"),
                ("events", "r(d", ") is missing"), ("events", "r)", "this ) closes nothing"),
                ("events", "r d", "one outermost element"), ("events", "r(*)", "a name must stand here"),
                ("events", "r(d*)", "how many"), ("events", "+r d", "+ to open or - to close"),
                ("events", "r(1d)", "1d is neither a name nor a number"), ("events", "r(a*2b)", "how many"),
                ("events", "a*2", "one outermost element, and this makes 2"), ("events", "a(b)*2", "this makes 2"),
                ("events", "a*0", "this makes 0"), ("events", "r(d*\u0663)", "how many"),
                ("events", "r(d*40000000)", "more than 40,000,000 events"),
                ("events", "r(d*99999999999999999999999999)", "more than 40,000,000 events"),
                ("events", "9" * 5000, "is not a name number"),
                ("events", "<r><d/></r>", "this looks like XML"), ("events", "<?xml?>", "this looks like XML"),
                ("events", "r(<d/>)", "this looks like XML"), ("events", "//r", "this looks like a query"),
                ("events", "r(d='x')", "not supported: attributes and text"), ("events", "r('x')", "not supported: attributes and text"),
                ("events", "a(" * 3000, ") is missing")]:
            with self.subTest(text[:40]):
                self.assertIn(said, self.ill(command, "--", text))
                self.assertEqual(os.listdir(self.folder.name), [], "nothing is written")

    def test_what_is_not_supported(self):
        for query, said, place in [
                ("/a[b='x']", "values and comparisons (=)", 4), ("/a[b!='x']", "values and comparisons (!=)", 4),
                ("/a['x']", "values and strings", 3), ('/a["x y"]', "values and strings", 3),
                ("/a[.='x']", "values and comparisons", 4), ("/a[1.5]", "values and numbers", 3),
                ("/a[1=1]", "values and numbers", 3), ("/a[-1]", "numbers", 3),
                ("/a[1]", "positions; a name number in a predicate needs its axis", 3),
                ("/a[position()=2]", "position() (positions)", 3), ("/a[last()]", "last() (positions)", 3),
                ("/a | /b", "unions", 3), ("/a[b|c]", "unions", 4), ("/a/text()", "text() (text values)", 3),
                ("/a[text()='x']", "text()", 3), ("/a/comment()", "comment() (a comment is an element here", 3),
                ("/a[not(b)]", "not(), only names and *", 3), ("/a[count(b)>1]", "count()", 3),
                ("/a[child::node()]", "node()", 10), ("/a[b or c]", "or", 5), ("/parent::a", "the axis parent", 1),
                ("/a[following-sibling::b]", "the axis following-sibling", 3), ("/a/@b", "attributes", 3),
                ("/a/..", "the parent", 3), ("/a/.", "the node itself", 3), ("/a[$b]", "variables", 3),
                ("/ns:*", "a prefix with *", 3), ("/e\u0301[1]", "positions", 3)]:
            with self.subTest(query):
                said_all = self.ill("query", query)
                self.assertIn(f"not supported: {said}", said_all)
                self.assertEqual(said_all.splitlines()[2], " " * (2 + place) + "^")
                self.assertEqual(os.listdir(self.folder.name), [])

    def test_a_name_number_is_pointed_at(self):
        self.assertEqual(self.ill("query", "/a[child::65536]/b").splitlines()[2], "            ^")
        self.assertEqual(self.ill("events", "r(d 0 d)").splitlines()[2], "      ^")

    def test_a_command_that_fails_changes_nothing(self):
        self.well("query", "/a")
        self.well("events", "a(b)")
        before = self.files()
        os.mkdir(os.path.join(self.folder.name, "folder"))
        for arguments in [("query", "/a/new[1]"), ("events", "a(new"), ("events", "a(new)", "-o", "folder"),
                          ("events", "a(new)", "-o", "nowhere/events.rec"), ("query", "/new", "--names", "query.rec"),
                          ("query", "/new", "--names", "nowhere/names"), ("query", "/new", "--names", "folder"),
                          ("query", "/new", "-o", "names.txt")]:
            with self.subTest(arguments):
                self.ill(*arguments)
                self.assertEqual(sorted(os.listdir(self.folder.name)), sorted([*before, "folder"]))
                self.assertEqual(os.listdir(os.path.join(self.folder.name, "folder")), [])
                os.rmdir(os.path.join(self.folder.name, "folder"))
                self.assertEqual(self.files(), before)
                os.mkdir(os.path.join(self.folder.name, "folder"))

    def test_a_full_names_list(self):
        self.put("names.txt", b"".join(b"n%d\n" % n for n in range(65534)))
        self.well("query", "/n65533")
        self.assertIn("a word's number is at most 65534", self.ill("query", "/new"))

    def test_a_names_list_that_is_no_text(self):
        self.put("names.txt", "a\n".encode("utf-16"))
        self.assertIn("names.txt is not UTF-8 text", self.ill("query", "/a"))

    def test_a_file_in_place_of_a_text(self):
        self.put("doc.xml", b"<r/>")
        self.assertIn("doc.xml is a file", self.ill("events", "doc.xml"))

    def test_a_missing_file(self):
        done = self.records("show", "nowhere")
        self.assertEqual(done.returncode, 1)
        self.assertIn("No such file", done.stderr)

    def test_as_many_steps_as_may_be_are_taken(self):
        self.assertIn(f"{MOST_STEPS} steps", self.well("query", "/a" * MOST_STEPS))

    def test_help(self):
        self.assertIn("r(d c) is r containing d, then c", self.well("--help"))

    def test_version(self):
        self.assertRegex(self.well("--version"), r"^records [0-9.]+ ")


if __name__ == "__main__":
    unittest.main()
