"""programs/axiomatic: many listings, a line for each, and how it ends."""
import unittest

from support import AXIOMATIC, NOT_DONE, OK, REFUSED, ROOT, CommandTest

ANOTHER_VERDICT = 1
FORBIDDEN = "thread\n    store [x], 1\nquestion\n    [x] = 0\n"
LITMUS = ROOT / "programs" / "litmus"


class Opinions(CommandTest):
    def test_a_line_for_each_listing(self):
        self.holds((OK, "MP: allowed\nMP+dmb.sy+addr: forbidden\nnew: forbidden\n", ""), AXIOMATIC,
                   LITMUS / "MP.litmus", LITMUS / "MP+dmb.sy+addr.litmus", self.file("new.litmus", FORBIDDEN))

    def test_another_verdict_than_the_stated_one(self):
        self.file("new.litmus", "# expected: allowed\n" + FORBIDDEN)
        self.holds((ANOTHER_VERDICT, "new: forbidden, but stated allowed\n", ""), AXIOMATIC, "new.litmus")

    def test_a_bad_listing_has_one_line_and_the_others_are_judged(self):
        self.file("bad.litmus", "thread\n    nonsense [x]\nquestion\n")
        self.file("new.litmus", FORBIDDEN)
        said = ("bad.litmus:2: `nonsense [x]` is no instruction: there are r0 = load [x], store [x], 1, r0 = r1 + 2, "
                "beq r0, 1, +2, bne, dmb sy and isb\n")
        self.holds((REFUSED, "new: forbidden\n", said), AXIOMATIC, "bad.litmus", "new.litmus")
        missing = "none: cannot be read: No such file or directory; give the path of a file, or - for standard input\n"
        self.holds((NOT_DONE, "new: forbidden\n", said + missing), AXIOMATIC, "bad.litmus", "none", "new.litmus")

    def test_a_bne_is_what_the_branches_are_that_it_stands_for(self):
        text = "thread\n    r0 = load [x]\n    {}\n    r1 = 1\nthread\n    store [x], 1\nquestion\n    0:r0 = 1\n    0:r1 = {}\n"
        self.file("equal.litmus", text.format("bne r0, 1, +1", 1))
        self.file("unequal.litmus", text.format("bne r0, 1, +1", 0))
        self.holds((OK, "equal: allowed\nunequal: forbidden\n", ""), AXIOMATIC, "equal.litmus", "unequal.litmus")

    def test_usage(self):
        usage = "axiomatic: usage: programs/axiomatic [--outcomes] LISTING ..; --help says more\n"
        for words in ([], ["--all"], ["-"], ["--outcomes"], ["--outcomes", "-"], ["new.litmus", "--outcomes"]):
            with self.subTest(words):
                self.holds((NOT_DONE, "", usage), AXIOMATIC, *words)

    def test_help(self):
        status, out, err = self.run_command(AXIOMATIC, "--help")
        self.assertEqual((status, err), (OK, ""))
        self.assertIn(b"programs/axiomatic LISTING ..", out)


def outcome(registers, locations):
    """The line of an outcome, of which this is given: registers by (thread, number), locations by number."""
    ending = bytearray(48)
    for (thread, number), value in registers.items():
        ending[8 * thread + number] = value
    for location, value in locations.items():
        ending[32 + location] = value
    return ending.hex() + "\n"


class Outcomes(CommandTest):
    def test_of_one_thread(self):
        self.file("new.litmus", FORBIDDEN)
        self.holds((OK, "new: 1 outcomes\n" + outcome({}, {0: 1}), ""), AXIOMATIC, "--outcomes", "new.litmus")

    def test_of_no_instructions(self):
        self.file("none.litmus", "thread\nquestion\n")
        self.holds((OK, "none: 1 outcomes\n" + outcome({}, {}), ""), AXIOMATIC, "--outcomes", "none.litmus")

    def test_smallest_first_and_each_once(self):
        text = "thread\n    r7 = load [w]\nthread\n    store [w], {}\nthread\n    store [w], {}\nquestion\n    0:r7 = 9\n"
        self.file("two.litmus", text.format(2, 1))
        self.file("same.litmus", text.format(1, 1))
        two = [outcome({(0, 7): read}, {3: last}) for read in (0, 1, 2) for last in (1, 2)]
        same = [outcome({(0, 7): read}, {3: 1}) for read in (0, 1)]
        said = "two: 6 outcomes\n" + "".join(two) + "same: 2 outcomes\n" + "".join(same)
        self.holds((OK, said, ""), AXIOMATIC, "--outcomes", "two.litmus", "same.litmus")

    def test_what_is_forbidden_is_left_out(self):
        expected = [outcome({(1, 0): flag, (1, 1): data}, {0: 1, 1: 1}) for flag in (0, 1) for data in (0, 1)]
        self.holds((OK, "MP: 4 outcomes\n" + "".join(expected), ""), AXIOMATIC, "--outcomes", LITMUS / "MP.litmus")
        del expected[2]
        self.holds((OK, "MP+dmb.sys: 3 outcomes\n" + "".join(expected), ""), AXIOMATIC, "--outcomes",
                   LITMUS / "MP+dmb.sys.litmus")

    def test_the_stated_verdict_says_nothing(self):
        self.file("new.litmus", "# expected: allowed\n" + FORBIDDEN)
        self.holds((OK, "new: 1 outcomes\n" + outcome({}, {0: 1}), ""), AXIOMATIC, "--outcomes", "new.litmus")

    def test_a_bad_listing_has_one_line_and_the_others_are_listed(self):
        self.file("bad.litmus", "thread\n")
        self.file("new.litmus", FORBIDDEN)
        status, out, err = self.run_command(AXIOMATIC, "--outcomes", "bad.litmus", "new.litmus")
        self.assertEqual((status, out.decode()), (REFUSED, "new: 1 outcomes\n" + outcome({}, {0: 1})))
        self.assertEqual(err.count("\n"), 1)


if __name__ == "__main__":
    unittest.main()
