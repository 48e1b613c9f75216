"""programs/assemble: which listings it refuses and what it says, which it understands, and what it leaves behind."""
import os
import pty
import random
import unittest

from support import ASSEMBLE, NOT_DONE, OK, REFUSED, ROOT, CommandTest

import listing
import printing_program

GOOD = "thread\n    store [x], 1\nquestion\n    [x] = 1\n"
BAD = "thread\n    store [x], 1\n"
NO_QUESTION = ("no question: end with the line question and its conditions under it; question alone asks whether any "
               "run ends\n")


def wrong_listings():
    """Name, what is said with its line, and text of each listing of wrong-listings.txt."""
    for block in (ROOT / "tests" / "wrong-listings.txt").read_text().split("\n==== ")[1:]:
        name, said, text = block.split("\n", 2)
        yield name, said.removeprefix("says "), text


def code(*lines):
    """The records of a thread of these lines."""
    text = "thread\n" + "".join(f"{line}\n" for line in lines) + "question\n"
    return listing.of_bytes(text.encode(), "a listing").threads[0]


def question(*lines):
    """The records of a question about three threads."""
    text = "thread\nthread\nthread\nquestion\n" + "".join(f"{line}\n" for line in lines)
    return listing.of_bytes(text.encode(), "a listing").conditions


class Refused(CommandTest):
    def test_every_wrong_listing_has_its_line_and_says_what_to_do(self):
        cases = list(wrong_listings())
        self.assertGreater(len(cases), 60)
        for name, said, text in cases:
            with self.subTest(name):
                self.holds((REFUSED, "", f"wrong.litmus:{said}\n"), ASSEMBLE, self.file("wrong.litmus", text).name)

    def test_what_is_no_text(self):
        self.holds((REFUSED, "", "a: is no text in UTF-8, so no listing, and does not begin as a program file\n"),
                   ASSEMBLE, self.file("a", b"thread\n\xff\xfe").name)
        self.holds((REFUSED, "", "a: is a program file already: ./judge takes it as it is\n"),
                   ASSEMBLE, self.file("a", b"PG\x01\x01").name)
        self.holds((REFUSED, "", "/dev/zero: longer than a million bytes: no listing\n"), ASSEMBLE, "/dev/zero")

    def test_what_a_terminal_would_obey_is_not_repeated(self):
        self.holds((REFUSED, "", "a:1: `\\x1b [2J` stands before the first thread: write thread first, and before that "
                    "nothing but locations x y\n"), ASSEMBLE, self.file("a", "\x1b[2J\n" + GOOD).name)


class Understood(unittest.TestCase):
    def test_spaces_count_for_nothing(self):
        self.assertEqual(code("r0=load [x]"), code("  r0  =  load  [ x ]  # why"))
        self.assertEqual(code("r0=load.acq[x+r1]"), code("r0 = load.acq [x + r1]"))
        self.assertEqual(code("store.rel[y],r0"), code("store.rel [y] , r0"))
        self.assertEqual(code("r1=r0 xor 3", "r1=r0==3"), code("r1 = r0 xor 3", "r1 = r0 == 3"))
        self.assertEqual(code("beq r0,1,+1", "dmb  sy"), code("beq r0, 1, + 1", "dmb sy"))
        self.assertEqual(question("0:r0=1", "[x]=2"), question("0:r0 = 1", "[ x ] = 2"))
        self.assertEqual(code("isb\r"), code("isb"))

    def test_records(self):
        self.assertEqual(code("r7 = load.acqpc [z + r2]"), [[1, 2, 7, 0, 2, 1, 2]])
        self.assertEqual(code("store.rel [r3], w"), [[2, 1, 0, 1, 3, 0, 3]])
        self.assertEqual(code("r1 = 5", "r2 = r1 - 1"), [[0, 0, 1, 0, 5, 0, 0], [0, 1, 2, 1, 1, 0, 1]])
        self.assertEqual(code("beq r1, 2, +0", "dmb st"), [[3, 0, 0, 1, 1, 0, 2], [4, 2, 0, 0, 0, 0, 0]])
        self.assertEqual(question("2:r7 = 255", "[y] = 3"), [[0, 2, 7, 255], [1, 0, 1, 3]])

    def test_hexadecimal_numbers(self):
        self.assertEqual(code("store [0xF], 0xfF"), code("store [15], 255"))
        self.assertEqual(question("0x1:r0 = 0x10"), question("1:r0 = 16"))

    def test_two_equal_signs_in_a_condition(self):
        self.assertEqual(question("0:r0 == 1", "[x]==2"), question("0:r0 = 1", "[x] = 2"))

    def test_locations_stand_for_their_numbers(self):
        self.assertEqual(code("store [x], z", "r0 = y + r1", "beq r0, w, +0"),
                         code("store [0], 2", "r0 = 1 + r1", "beq r0, 3, +0"))
        self.assertEqual(question("0:r0 = w"), question("0:r0 = 3"))

    def test_an_address_with_a_register_may_have_any_constant(self):
        self.assertEqual(code("r0 = load [r1 + 255]"), [[1, 0, 0, 1, 1, 0, 255]])

    def test_bne_is_two_branches(self):
        self.assertEqual(code("bne r0, 1, +1", "isb"),
                         [[3, 1, 0, 1, 0, 0, 1], [3, 1, 0, 0, 0, 0, 0], [4, 3, 0, 0, 0, 0, 0]])

    def test_a_branch_over_a_bne_skips_all_of_it(self):
        self.assertEqual(code("beq r0, 1, +2", "bne r0, 2, +1", "isb"),
                         code("beq r0, 1, +3", "beq r0, 2, +1", "beq 0, 0, +1", "isb"))
        self.assertEqual(code("bne r0, 1, +1", "bne r0, 2, +0"),
                         code("beq r0, 1, +1", "beq 0, 0, +2", "beq r0, 2, +1", "beq 0, 0, +0"))

    def test_a_byte_order_mark_is_passed_over(self):
        self.assertEqual(listing.of_bytes(b"\xef\xbb\xbf" + GOOD.encode(), "a").program(),
                         listing.of_bytes(GOOD.encode(), "a").program())


class Written(CommandTest):
    def test_a_file_and_standard_output(self):
        program = listing.of_bytes(GOOD.encode(), "good").program()
        self.holds((OK, "", ""), ASSEMBLE, self.file("good.litmus", GOOD).name, "good.bin")
        self.assertEqual((self.folder / "good.bin").read_bytes(), program)
        self.holds((OK, program, ""), ASSEMBLE, "good.litmus")
        self.holds((OK, program, ""), ASSEMBLE, "-", given=GOOD)

    def test_a_program_file_is_written_over(self):
        self.file("a.bin", b"PG\x01\x01")
        self.holds((OK, "", ""), ASSEMBLE, self.file("good.litmus", GOOD).name, "a.bin")
        self.assertEqual((self.folder / "a.bin").read_bytes(), listing.of_bytes(GOOD.encode(), "good").program())

    def test_an_empty_question_is_said(self):
        text = "thread\n    isb\nquestion\n"
        self.holds((OK, b"PG\x01\x01TH\x00\x01IN\x04\x03\0\0\0\0\0QU\x00",
                    "standard input:3: note: the question is empty, so it asks whether any run ends\n"),
                   ASSEMBLE, "-", given=text)

    def test_a_name_where_a_value_could_be_meant_is_said(self):
        text = "thread\n    r0 = y\n    store [x], z\n    r1 = r0 + x\nquestion\n    0:r0 = w\n    [x] = 2\n"
        said = "".join(f"standard input:{line}: note: `{name}` stands for its number, {number}, not for what it holds\n"
                       for line, name, number in ((2, "y", 1), (3, "z", 2), (6, "w", 3)))
        status, _, err = self.run_command(ASSEMBLE, "-", given=text)
        self.assertEqual((status, err), (OK, said))

    def test_a_refused_listing_leaves_no_old_program(self):
        old = self.file("a.bin", b"PG\x01\x01")
        self.holds((REFUSED, "", "bad.litmus:2: " + NO_QUESTION), ASSEMBLE, self.file("bad.litmus", BAD).name, "a.bin")
        self.assertFalse(old.exists())

    def test_a_missing_listing_leaves_no_old_program(self):
        old = self.file("a.bin", b"PG\x01\x01")
        self.holds((NOT_DONE, "", "assemble: none.litmus: cannot be read: No such file or directory; give the path of a "
                    "file, or - for standard input\n"), ASSEMBLE, "none.litmus", "a.bin")
        self.assertFalse(old.exists())

    def test_what_is_no_program_file_is_left(self):
        for first, name in (("good.litmus", "notes.txt"), ("notes.txt", "good.litmus"), ("good.litmus", "good.litmus")):
            good, notes = self.file("good.litmus", GOOD), self.file("notes.txt", "a note\n")
            with self.subTest(f"{first} to {name}"):
                self.holds((NOT_DONE, "", f"assemble: {name}: is there and is no program file, so it is left as it is; "
                            "name another file to write\n"), ASSEMBLE, first, name)
                self.assertEqual((good.read_text(), notes.read_text()), (GOOD, "a note\n"))

    def test_a_program_file_given_twice_is_left(self):
        old = self.file("a.bin", b"PG\x01\x01")
        self.assertEqual(self.run_command(ASSEMBLE, "a.bin", "a.bin")[0], NOT_DONE)
        self.assertEqual(old.read_bytes(), b"PG\x01\x01")


class NotDone(CommandTest):
    def test_what_cannot_be_read_or_written(self):
        self.file("good.litmus", GOOD)
        for words, said in (
            (["."], ".: cannot be read: Is a directory; give the path of a file, or - for standard input"),
            (["good.litmus", "."], ".: is a directory; give the path of the file to write"),
            (["good.litmus", "none/a.bin"], "none/a.bin: cannot be written: No such file or directory"),
            (["good.litmus", "/dev/full"], "/dev/full: cannot be written: No space left on device"),
        ):
            with self.subTest(words):
                self.holds((NOT_DONE, "", f"assemble: {said}\n"), ASSEMBLE, *words)

    def test_a_full_disk_behind_standard_output(self):
        self.file("good.litmus", GOOD)
        self.holds((NOT_DONE, "", "assemble: standard output: No space left on device\n"),
                   "sh", "-c", f"{ASSEMBLE} good.litmus > /dev/full")

    def test_bytes_are_not_for_a_terminal(self):
        terminal, end = pty.openpty()
        self.addCleanup(os.close, terminal)
        self.file("good.litmus", GOOD)
        self.holds((NOT_DONE, "", "assemble: a program file is bytes, and nothing for a terminal: name a file to write, or "
                    "judge the listing as it is by ./judge\n"),
                   "sh", "-c", f"{ASSEMBLE} good.litmus > {os.ttyname(end)}")
        os.close(end)

    def test_usage(self):
        for words in ([], ["a", "b", "c"], ["--verbose"], ["-v", "a"]):
            with self.subTest(words):
                self.holds((NOT_DONE, "", "assemble: usage: programs/assemble LISTING [PROGRAM]; --help says more\n"),
                           ASSEMBLE, *words)

    def test_help(self):
        status, out, err = self.run_command(ASSEMBLE, "--help")
        self.assertEqual((status, err), (OK, ""))
        self.assertIn(b"programs/assemble LISTING [PROGRAM]", out)
        self.holds((OK, "", ""), "bash", "-c", f"{ASSEMBLE} --help | head -n 0; exit 0")


def arbitrary_listing(chance):
    """A listing of arbitrary lines, near all the limits and past some of them."""
    operand = lambda: chance.choice(["r0", "r1", "r7", "x", "y", "0", "1", "15", "16", "0xff"])
    line = lambda: chance.choice([
        f"r{chance.randrange(8)} = load [{operand()} + {operand()}]", f"r1 = load.acq [{operand()}]",
        f"store [{operand()}], {operand()}", f"store.rel [{operand()}], {operand()}", f"r2 = {operand()} xor {operand()}",
        f"beq {operand()}, {operand()}, +{chance.randrange(4)}", f"bne {operand()}, {operand()}, +{chance.randrange(4)}",
        "dmb sy", "isb"])
    threads = ["thread", *(line() for _ in range(chance.choice([0, 1, 3, 5, 15, 16, 17])))]
    for _ in range(chance.randrange(5)):
        threads += ["thread", *(line() for _ in range(chance.randrange(5)))]
    conditions = [chance.choice([f"{chance.randrange(4)}:r{chance.randrange(8)} = {operand()}", f"[{operand()}] = 1"])
                  for _ in range(chance.choice([0, 1, 2, 8, 9]))]
    return "\n".join([*threads, "question", *conditions, ""])


WORDS = ("r0 r1 r8 R0 x y q 0 1 15 16 255 256 0xff -1 +1 + - == = xor [ ] , : load load.acq store store.rel beq bne dmb sy isb "
         "thread question locations # / * ( \u00b2 \u0661 \u200b \0").split(" ")
LINES = ("r0 = load [ x + r1 ]", "store [ y ] , 1", "r1 = r0 xor 3", "beq r0 , 1 , + 1", "bne r0 , 1 , + 1", "0 : r0 = 1",
         "[ x ] = 2", "locations a b", "dmb sy")


def arbitrary_line(chance):
    """A good line with some of its words changed, and spaces or none between them."""
    words = chance.choice(LINES).split(" ")
    for _ in range(chance.randrange(4)):
        place = chance.randrange(len(words) + 1)
        words[place:place + chance.randrange(2)] = chance.choices(WORDS, k=chance.randrange(2))
    return "".join(word + chance.choice(["", " ", "\t"]) for word in words)


class Read(unittest.TestCase):
    def test_arbitrary_lines_are_taken_or_refused_in_one_line(self):
        chance, taken = random.Random(21), 0
        for _ in range(20000):
            place = chance.choice(["{}\nthread\nquestion\n", "thread\n{}\nisb\nquestion\n", "thread\nquestion\n{}\n"])
            line = arbitrary_line(chance)
            try:
                listing.of_bytes(place.format(line).encode(), "a listing")
                taken += 1
            except listing.Refused as why:
                self.assertRegex(str(why), r"^a listing:\d: \S")
                self.assertTrue(str(why).isprintable(), line)
        self.assertGreater(taken, 1000)

    def test_what_is_assembled_is_never_refused(self):
        chance, taken, refused = random.Random(20), 0, 0
        while taken < 400:
            try:
                program = listing.of_bytes(arbitrary_listing(chance).encode(), "a listing").program()
            except listing.Refused:
                refused += 1
                continue
            taken += 1
            self.assertEqual(printing_program.run(program, "0"), "verdict not finished\ncount 0\n", program.hex())
        self.assertGreater(refused, 100)


if __name__ == "__main__":
    unittest.main()
