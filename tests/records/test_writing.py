"""What tools/records writes, and how long it takes."""
import os
import subprocess
import sys
import threading
import time
import unittest

from folder import Folder, MOST_OPEN, RECORDS


class Writing(Folder):
    def test_query_bytes(self):
        self.well("query", "/child::a[descendant::*]//b")
        self.assertEqual(self.file("query.rec").hex(" ", 8),
                         "0101000000010000 0200010000000000 0201010000020000")

    def test_event_bytes(self):
        self.well("events", "a(65535)")
        self.assertEqual(self.file("events.rec").hex(" ", 8),
                         "0100000100000000 0100ffff00000000 0200ffff00000000 0200000100000000")

    def test_steps_of_a_path_in_a_predicate_hang_on_each_other(self):
        self.well("query", "/1[child::2[child::3]/4//5][.//6]/7")
        steps = [tuple(self.file("query.rec")[p:p + 8]) for p in range(0, 56, 8)]
        self.assertEqual([(s[0], s[1], s[2], s[5]) for s in steps],
                         [(1, 1, 0, 1), (1, 0, 1, 2), (1, 0, 2, 3), (1, 0, 2, 4), (2, 0, 4, 5), (2, 0, 1, 6),
                          (1, 1, 1, 7)])

    def test_short_and_long_forms_are_the_same(self):
        for short, long in [("/a/b", "/child::a/child::b"), ("//a//b", "/descendant::a/descendant::b"),
                            ("/a[b/c]", "/child::a[child::b[child::c]]"), ("/a[.//b]", "/a[descendant::b]"),
                            ("/a[./b]", "/a[b]"), ("//child::a", "//a"), ("//descendant::a", "//a"),
                            (" / a [ b ] ", "/a[b]")]:
            with self.subTest(short):
                self.well("query", short, "-o", "short")
                self.well("query", long, "-o", "long")
                self.assertEqual(self.file("short"), self.file("long"))

    def test_nested_and_single_events_are_the_same(self):
        self.well("events", "r(d*2 c(d))", "-o", "nested")
        self.well("events", "+r +d -d +d -d +c +d -d -c -r", "-o", "single")
        self.well("events", "-", "-o", "input", text="r(\n d d\n c(d))\n")
        self.assertEqual(self.file("nested"), self.file("single"))
        self.assertEqual(self.file("nested"), self.file("input"))

    def test_names_are_numbered_by_their_line(self):
        self.put("names.txt", b"x\ny\n")
        done = self.records("query", "/y[z]")
        self.assertEqual(done.stderr, "new in names.txt: z = 3\n")
        self.assertEqual(self.file("names.txt"), b"x\ny\nz\n")
        self.assertEqual([self.file("query.rec")[p] for p in (5, 13)], [2, 3])
        self.assertEqual(self.records("events", "z(x)").stderr, "")

    def test_the_names_list_stands_beside_the_record_file(self):
        os.mkdir(os.path.join(self.folder.name, "mine"))
        self.well("query", "/a", "-o", "mine/query.rec")
        self.assertEqual(self.file("mine/names.txt"), b"a\n")
        self.assertEqual(os.listdir(self.folder.name), ["mine"])

    def test_a_names_list_keeps_its_bytes(self):
        for before, after in [(b"\xef\xbb\xbfx\ny\n", b"\xef\xbb\xbfx\ny\nz\n"), (b"x\r\ny\r\n", b"x\r\ny\r\nz\n"),
                              (b"x\ny", b"x\ny\nz\n")]:
            self.put("names.txt", before)
            self.well("query", "/x[y]/z")
            self.assertEqual([self.file("query.rec")[p] for p in (5, 13, 21)], [1, 2, 3])
            self.assertEqual(self.file("names.txt"), after)
            self.assertEqual(self.well("show", "query.rec").splitlines()[0], "/child::x[child::y]/child::z")

    def test_names_of_all_scripts(self):
        # A combining mark, letters of other scripts, their digits (no numbers), and prefixes.
        for name in ["e\u0301tude", "\u0915\u093f", "\u6a02", "\u0663", "a-b.c_d", "ns:a", "ns:child"]:
            with self.subTest(name):
                self.well("query", f"/{name}[child::{name}]//{name}")
                self.well("events", f"{name}({name}*2)")
                self.assertEqual(self.file("names.txt").decode(), f"{name}\n")
                self.assertEqual(self.file("query.rec")[5], 1)
                self.assertIn(f"{name}({name} {name})", self.well("show", "events.rec"))
                os.remove(os.path.join(self.folder.name, "names.txt"))

    def test_an_axis_is_not_a_prefix(self):
        self.well("query", "/child::ns:a[descendant::ns:b]//child::c")
        self.assertEqual(self.file("names.txt"), b"ns:a\nns:b\nc\n")
        self.assertEqual([self.file("query.rec")[p] for p in (0, 8, 16)], [1, 2, 2])

    def test_a_pipe_is_written_into(self):
        pipe = os.path.join(self.folder.name, "events.rec")
        os.mkfifo(pipe)
        read = []

        def reader():
            with open(pipe, "rb") as file:
                read.append(file.read())

        thread = threading.Thread(target=reader)
        thread.start()
        self.well("events", "r")
        thread.join()
        self.assertEqual(read[0].hex(" ", 8), "0100000100000000 0200000100000000")
        self.assertEqual(sorted(os.listdir(self.folder.name)), ["events.rec", "names.txt"])

    def test_standard_output_and_devices_are_written_into(self):
        done = subprocess.run([sys.executable, RECORDS, "events", "r", "-o", "/dev/stdout"], cwd=self.folder.name,
                              capture_output=True)
        self.assertEqual(done.stdout.hex(" ", 8), "0100000100000000 0200000100000000")
        self.well("events", "r", "-o", "/dev/null")
        self.assertEqual(os.listdir(self.folder.name), ["names.txt"])

    def test_a_link_stays_a_link(self):
        os.symlink("there", os.path.join(self.folder.name, "query.rec"))
        self.well("query", "/a")
        self.assertTrue(os.path.islink(os.path.join(self.folder.name, "query.rec")))
        self.assertEqual(len(self.file("there")), 8)

    def test_depth_is_noted(self):
        def nest(deep):
            return "a(" * (deep - 1) + "a" + ")" * (deep - 1)

        self.assertEqual(self.records("events", nest(MOST_OPEN)).stderr, "new in names.txt: a = 1\n")
        self.assertEqual(self.records("events", "+a " * MOST_OPEN).stderr, "")
        said = f"event {MOST_OPEN + 1} opens an element inside {MOST_OPEN} others: the session will refuse it with 5"
        for text in [nest(MOST_OPEN + 1), "+a " * (MOST_OPEN + 1)]:
            done = self.records("events", text)
            self.assertIn(said, done.stderr)
            self.assertEqual(done.returncode, 0)
        self.assertIn(said, self.records("show", "events.rec").stderr)

    def test_wide_and_deep_take_linear_time(self):
        def seconds(*arguments, text=None):
            began = time.process_time() + sum(os.times()[2:4])
            self.well(*arguments, text=text)
            return time.process_time() + sum(os.times()[2:4]) - began

        wide = "r(" + " ".join(f"n{n}" for n in range(20_000)) + ")"
        deep = "a(" * 99_999 + "a" + ")" * 99_999
        # Some seconds at most; in quadratic time it was 8 s for the names and would be 2 minutes for the depth.
        self.assertLess(seconds("events", "-", text=wide), 4)
        self.assertLess(seconds("events", "-", text=deep), 10)
        self.assertLess(seconds("show", "events.rec", "--lines", "200000"), 15)
        self.assertLess(seconds("show", "events.rec", "--node", "100000"), 10)

    def test_another_names_list(self):
        self.put("other", b"a\nb\n")
        self.well("query", "/b", "--names", "other")
        self.assertEqual(self.file("query.rec")[5], 2)
        self.assertFalse(os.path.exists(os.path.join(self.folder.name, "names.txt")))


if __name__ == "__main__":
    unittest.main()
