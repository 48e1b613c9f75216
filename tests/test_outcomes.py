"""The example of the Rust wrapper that prints outcomes: what it prints, and how it ends."""
import unittest

from support import NOT_DONE, OK, REFUSED, ROOT, CommandTest

import listing

NOT_FINISHED = 2
EXAMPLE = [ROOT / "on-x86-64", "run", "--offline", "--release", "--quiet", "--package", "blyskota", "--example", "outcomes", "--"]
# Thread 1 stores at the location whose number it has read, so that no instruction names it.
COMPUTED = "thread\n    store [3], 5\nthread\n    r2 = load [3]\n    store [r2], 1\nquestion\n    [5] = 1\n"
PRINTED = """1:r2 = 0, [0] = 1, [3] = 5, [5] = 0; first by sequence 6
1:r2 = 5, [0] = 0, [3] = 5, [5] = 1; first by sequence 9; as asked
outcomes: 2, as asked: 1, sequences: 89
"""


class Printed(CommandTest):
    def test_a_listing_and_its_program_file(self):
        text = self.file("computed.litmus", COMPUTED)
        program = self.file("computed.bin", listing.assemble(text))
        for path in (text, program):
            with self.subTest(path.name):
                self.holds((OK, PRINTED, ""), *EXAMPLE, path)
                self.holds((OK, PRINTED, ""), *EXAMPLE, path, "89")
                self.holds((OK, PRINTED, ""), *EXAMPLE, path, "all")

    def test_nothing_to_show(self):
        path = self.file("none.litmus", "thread\nquestion\n")
        said = "nothing to show; first by sequence 1; as asked\noutcomes: 1, as asked: 1, sequences: 1\n"
        self.holds((OK, said, ""), *EXAMPLE, path)

    def test_a_budget_that_ends(self):
        path = self.file("computed.litmus", COMPUTED)
        self.holds((NOT_FINISHED, "", "not finished: there are more than 88 sequences\n"), *EXAMPLE, path, "88")

    def test_refused(self):
        path = self.file("bad.litmus", "thread\n    store [16], 1\nquestion\n")
        status, out, err = self.run_command(*EXAMPLE, path)
        self.assertEqual((status, out, err.count("\n")), (REFUSED, b"", 1))
        self.assertIn(f"{path}:2: ", err)
        path = self.file("cut.bin", b"PG\1\1")
        said = f"{path}: the program file is refused with 1 at byte 4: the input ends before or inside a record that is needed\n"
        self.holds((REFUSED, "", said), *EXAMPLE, path)

    def test_not_done(self):
        usage = "usage: outcomes FILE [BUDGET], FILE a program file or a listing, BUDGET a number or all\n"
        path = self.file("computed.litmus", COMPUTED)
        for words in ([], [path, "ten"], [path, "-1"], [path, "1", "2"]):
            with self.subTest(words):
                self.holds((NOT_DONE, "", usage), *EXAMPLE, *words)
        self.holds((NOT_DONE, "", "/nowhere: No such file or directory (os error 2)\n"), *EXAMPLE, "/nowhere")


if __name__ == "__main__":
    unittest.main()
