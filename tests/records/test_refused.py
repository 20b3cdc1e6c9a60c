"""What tools/records says of a refused query: the step at fault and the reason as a program says them, and in words."""
import itertools
import os
import re
import subprocess
import sys
import unittest

from folder import Folder, HERE, MOST_STEPS, PROGRAM

TOOLS = os.path.join(HERE, "..", "..", "tools")
CASES = os.path.join(HERE, "..", "target", "release", "cases")
# /child::1[child::2]/child::3[child::4]
GOOD = [(1, 1, 0, 0, 0, 1, 0, 0), (1, 0, 1, 0, 0, 2, 0, 0), (1, 1, 1, 0, 0, 3, 0, 0), (1, 0, 3, 0, 0, 4, 0, 0)]
# What is shown of a query of these records.
SHOWN = [
    ([(3, 1, 0, 0, 0, 1, 0, 0)], "refused 10 at 1 reason 1 (axis): axis 3 is neither 1 (child) nor 2 (descendant)"),
    ([(1, 7, 0, 0, 0, 1, 0, 0)], "refused 10 at 1 reason 2 (role): byte 1 is 7, neither 1 (main path) nor 0 (predicate)"),
    ([(1, 0, 0, 0, 0, 1, 0, 0)], "refused 10 at 1 reason 2 (role): step 1 must be on the main path, not in a predicate"),
    ([(1, 0, 5, 0, 0, 1, 0, 0)], "refused 10 at 1 reason 2 (role): step 1 must be on the main path, not in a predicate"),
    ([(1, 1, 5, 0, 0, 1, 0, 0)], "refused 10 at 1 reason 3 (what it hangs on): step 1 must hang on 0, not on 5"),
    ([(1, 1, 0, 0, 0, 1, 0, 9)], "refused 10 at 1 reason 4 (a byte that must be 0): bytes 3, 6 and 7 must be 0"),
    (GOOD[:2] + [(1, 7, 1, 0, 0, 3, 0, 0)],
     "refused 10 at 3 reason 2 (role): byte 1 is 7, neither 1 (main path) nor 0 (predicate)"),
    (GOOD[:2] + [(1, 1, 2, 0, 0, 3, 0, 0)],
     "refused 10 at 3 reason 3 (what it hangs on): a main-path step here hangs on 1, not on 2"),
    (GOOD[:3] + [(1, 0, 4, 0, 0, 4, 0, 0)],
     "refused 10 at 4 reason 3 (what it hangs on): a predicate step here hangs on a step from 1 to 3, not on 4"),
    # The lowest reason of the first step at fault.
    ([GOOD[0], (1, 0, 0, 1, 0, 2, 0, 0), (0, 9, 9, 9, 0, 0, 9, 9)],
     "refused 10 at 2 reason 3 (what it hangs on): a predicate step here hangs on a step from 1 to 1, not on 0"),
]


def records_tool():
    """What tools/records knows of queries."""
    sys.path.insert(0, TOOLS)
    from lib import query
    return query


TOOL = records_tool()


def queries():
    """Each step of a query by every combination of broken rules."""
    for number in range(1, len(GOOD) + 1):
        zeros = [(0, 0, 0), (1, 0, 0), (0, 1, 0), (0, 0, 1)]
        for axis, role, on, (zero3, zero6, zero7) in itertools.product((1, 3), (0, 1, 7), range(number + 2), zeros):
            record = (axis, role, on, zero3, 0, 1, zero6, zero7)
            yield b"".join(map(bytes, GOOD[:number - 1] + [record] + GOOD[number:]))


class Refused(Folder):
    def test_lengths(self):
        for length in (0, 7, 8 * (MOST_STEPS + 1)):
            self.put("query.rec", bytes(length))
            self.assertIn(f"a query that is refused 9: {length} bytes", self.ill("show", "query.rec"))

    def test_steps(self):
        for records, said in SHOWN:
            self.put("query.rec", b"".join(map(bytes, records)))
            self.assertEqual(self.ill("show", "query.rec"), f"a query that is {said}\n")

    def line(self, data):
        """The program's line in what the tool says of a query, with the reason in its words; nothing if it is admitted."""
        said = TOOL.query_fault(data)
        if said is None:
            return None
        found = re.match(r"(refused 9|refused 10 at \d+ reason (\d))(?: \((.*?)\))?: ", said)
        self.assertEqual(found[3], TOOL.REASONS[int(found[2])] if found[2] else None)
        return found[1]

    def test_a_program_says_the_same_of_every_combination(self):
        for data in queries():
            self.put("query.rec", data)
            came = subprocess.run([PROGRAM], cwd=self.folder.name, capture_output=True, text=True).stdout
            # There are no events.
            self.assertEqual(came, f"{self.line(data) or 'refused 8 at 0'}\n", data.hex(" "))

    def test_the_second_program_says_the_same_of_random_cases(self):
        asked = [CASES, "--seed", "1", "--cases", "2000"]
        reasons = set()
        for case in subprocess.run(asked, capture_output=True, text=True, check=True).stdout.splitlines():
            _, query, _, answer = case.split("\t")
            line = self.line(b"" if query == "-" else bytes.fromhex(query))
            if line or re.match("refused (9|10)", answer):
                self.assertEqual(answer, line, query)
                reasons.add(line[-1] if "reason" in line else None)
        self.assertEqual(reasons, {None, "1", "2", "3", "4"})


if __name__ == "__main__":
    unittest.main()
