"""./judge: what it prints, what it says and how it ends, and when the printing program is built."""
import os
import pathlib
import shutil
import signal
import subprocess
import sys
import time
import unittest

from support import JUDGE, NOT_DONE, OK, REFUSED, ROOT, CommandTest

import listing
import printing_program
import refusals

ALLOWED, FORBIDDEN, NOT_FINISHED, INTERRUPTED = 0, 1, 2, 130
# Thread 0 stores 1, thread 1 loads it.
E = """thread
    store [x], 1
thread
    r0 = load [x]
question
    1:r0 = {}
"""
RUN = "verdict allowed\ncount 5\npromise 0 0 1\nexecute 0 1\nexecute 1 1\n"
PROGRAM = listing.of_bytes(E.format(1).encode(), "E").program()
AGAIN = "; make the file anew by programs/assemble, or judge its listing\n"
BAD_BUDGET = "is no budget: give a decimal number from 0 to 18446744073709551615, or all\n"
USAGE = "judge: usage: ./judge FILE [BUDGET]; --help says more\n"
# Too many machines to be searched in a minute.
ENDLESS = "".join(f"thread\n" + "    r0 = load [x]\n    store [y], r0\n    r1 = load [z]\n    store [w], r1\n" * 2
                  for _ in range(4)) + "question\n    0:r0 = 9\n"


class Verdicts(CommandTest):
    def test_allowed_with_the_run(self):
        self.holds((ALLOWED, RUN, ""), JUDGE, self.file("e.litmus", E.format(1)).name)

    def test_forbidden(self):
        self.holds((FORBIDDEN, "verdict forbidden\ncount 12\n", ""), JUDGE, self.file("e.litmus", E.format(2)).name)

    def test_not_finished(self):
        self.holds((NOT_FINISHED, "verdict not finished\ncount 11\n", ""),
                   JUDGE, self.file("e.litmus", E.format(2)).name, "11")

    def test_a_program_file_is_judged_as_its_listing_is(self):
        self.holds((ALLOWED, RUN, ""), JUDGE, self.file("e", PROGRAM).name)

    def test_standard_input(self):
        self.holds((ALLOWED, RUN, ""), JUDGE, "-", given=E.format(1))
        self.holds((ALLOWED, RUN, ""), JUDGE, "-", given=PROGRAM)

    def test_budgets(self):
        for budget in ("5", "0005", "18446744073709551615", "all"):
            self.holds((ALLOWED, RUN, ""), JUDGE, "-", budget, given=PROGRAM)
        self.holds((NOT_FINISHED, "verdict not finished\ncount 0\n", ""), JUDGE, "-", "0", given=PROGRAM)

    def test_an_empty_question_is_said(self):
        self.holds((ALLOWED, "verdict allowed\ncount 1\n",
                    "standard input:2: note: the question is empty, so it asks whether any run ends\n"),
                   JUDGE, "-", given="thread\nquestion\n")

    def test_a_small_stack_is_raised(self):
        self.file("e", PROGRAM)
        self.holds((ALLOWED, RUN, ""), "bash", "-c", f"ulimit -S -s 1024; {JUDGE} e")


class Refused(CommandTest):
    def test_a_wrong_listing(self):
        self.holds((REFUSED, "", "e.litmus:2: `r8` is no register: registers are r0 to r7\n"),
                   JUDGE, self.file("e.litmus", "thread\n    r8 = 1\nquestion\n").name)

    def test_every_number_of_a_program_file_in_words(self):
        store = b"IN\x02\0\0\0\0\0\x01"
        for number, place, file in (
            (1, 0, b""),
            (1, 0, b"P"),
            (1, 4, b"PG\x01\x01"),
            (2, 0, b"XX\x01\x01\0"),
            (2, 4, b"PG\x01\x01XX\0\0"),
            (3, 2, b"PG\x02\x01"),
            (4, 3, b"PG\x01\x05"),
            (5, 7, b"PG\x01\x01TH\0\x11"),
            (6, 10, b"PG\x01\x01TH\0\x01IN\x05\0\0\0\0\0\0"),
            (7, 158, b"PG\x01\x02TH\0\x10" + 16 * store + b"TH\x01\x01" + store),
            (8, 10, b"PG\x01\x01TH\0\0QU\x09"),
            (9, 11, b"PG\x01\x01TH\0\0QU\0\0"),
            (10, 6, b"PG\x01\x01TH\x01\0"),
        ):
            with self.subTest(number=number, place=place):
                self.holds((REFUSED, f"refused {number} at {place}\n", f"e: byte {place}: {refusals.MEANINGS[number]}{AGAIN}"),
                           JUDGE, self.file("e", file).name)

    def test_files_without_an_end(self):
        self.holds((REFUSED, "refused 2 at 0\n", f"/dev/zero: byte 0: {refusals.MEANINGS[2]}{AGAIN}"), JUDGE, "/dev/zero")
        self.file("e", PROGRAM)
        said = f"standard input: byte {len(PROGRAM)}: {refusals.MEANINGS[9]}{AGAIN}"
        self.holds((REFUSED, f"refused 9 at {len(PROGRAM)}\n", said), "bash", "-c", f"cat e /dev/zero 2> /dev/null | {JUDGE} -")


class NotDone(CommandTest):
    def test_files_that_cannot_be_read(self):
        hint = "give the path of a file, or - for standard input\n"
        self.holds((NOT_DONE, "", f"judge: none: cannot be read: No such file or directory; {hint}"), JUDGE, "none")
        self.holds((NOT_DONE, "", f"judge: .: cannot be read: Is a directory; {hint}"), JUDGE, ".")
        self.holds((NOT_DONE, "", "judge: standard input is closed: give a file, or something to read\n"),
                   "bash", "-c", f"{JUDGE} - <&-")

    def test_budgets_that_are_none(self):
        for budget in ("18446744073709551616", "-1", "+1", "1 ", "0x10", "ten", "ALL", "", "1,000", "\u0663"):
            with self.subTest(budget):
                self.holds((NOT_DONE, "", f"judge: `{budget}` {BAD_BUDGET}"), JUDGE, "-", budget, given=PROGRAM)

    def test_usage(self):
        for words in ([], ["a", "1", "2"], ["--verbose"], ["-v"]):
            with self.subTest(words):
                self.holds((NOT_DONE, "", USAGE), JUDGE, *words)

    def test_help(self):
        status, out, err = self.run_command(JUDGE, "--help")
        self.assertEqual((status, err), (OK, ""))
        self.assertIn(b"./judge FILE [BUDGET]", out)
        self.holds((0, "", ""), "bash", "-c", f"{JUDGE} --help | head -n 0")

    def test_a_full_disk_behind_standard_output(self):
        self.file("e", PROGRAM)
        self.holds((NOT_DONE, "", "judge: standard output: No space left on device\n"), "sh", "-c", f"{JUDGE} e > /dev/full")

    def test_a_stack_that_cannot_be_raised(self):
        self.file("e", PROGRAM)
        self.holds((NOT_DONE, "", "judge: the stack is limited to 1024 KiB and 8192 are needed: raise the limit (ulimit -s)\n"),
                   "bash", "-c", f"ulimit -s 1024; {JUDGE} e")


def is_search(process):
    """Whether the process runs the printing program: it may not do so yet, or not any more."""
    try:
        return str(printing_program.PROGRAM).encode() in (process / "cmdline").read_bytes()
    except OSError:
        return False


def end(process):
    """Nothing is left running, whatever a test comes to."""
    try:
        os.kill(process, signal.SIGKILL)
    except ProcessLookupError:
        pass


class Ended(CommandTest):
    def start(self):
        """A search that does not end by itself, and the process that searches."""
        self.file("endless.litmus", ENDLESS)
        with (self.folder / "said").open("w") as said:
            # A shell has what it starts in the background ignore interrupts.
            command = subprocess.Popen([JUDGE, "endless.litmus", "all"], cwd=self.folder, stdout=said, stderr=said,
                                       preexec_fn=lambda: signal.signal(signal.SIGINT, signal.SIG_DFL))
        for _ in range(600):
            for child in pathlib.Path(f"/proc/{command.pid}/task/{command.pid}/children").read_text().split():
                if is_search(pathlib.Path("/proc") / child):
                    self.addCleanup(end, int(child))
                    return command, pathlib.Path("/proc") / child
            time.sleep(0.05)
        self.fail("no search was started")

    def ended(self, how):
        """The command's status and what it has said, after this signal; the search is gone then."""
        command, search = self.start()
        command.send_signal(how)
        status = command.wait(timeout=20)
        for _ in range(100):
            if not is_search(search):
                return status, (self.folder / "said").read_text()
            time.sleep(0.05)
        self.fail("the search goes on")

    def test_interrupted(self):
        self.assertEqual(self.ended(signal.SIGINT), (INTERRUPTED, "judge: interrupted\n"))

    def test_the_search_ends_with_the_command_however_that_is_ended(self):
        self.assertEqual(self.ended(signal.SIGTERM), (-signal.SIGTERM, ""))
        self.assertEqual(self.ended(signal.SIGKILL), (-signal.SIGKILL, ""))


# Stands for rt: says what rt says of each crate, and puts the real program where rt would link it.
SOME = 15
RT = """#!/bin/sh
[ "$*" = "run -- 0" ] && [ "$(basename "$PWD")" = judge ] || exit 2
echo run >> ../../rt-runs
[ -z "$RT_FAILS" ] || {{ echo "rt: program: something is not proved"; exit 1; }}
for crate in {some}; do echo "logic=proved functions=1 $crate"; done
[ -z "$RT_SLEEPS" ] || sleep 2
for crate in {others}; do echo "logic=proved functions=1 $crate"; done
mkdir -p out
cp {program} out/judge
"""


class Built(CommandTest):
    def setUp(self):
        super().setUp()
        shutil.copy(JUDGE, self.folder)
        shutil.copy(ROOT / "crates.txt", self.folder)
        shutil.copytree(ROOT / "programs", self.folder / "programs", ignore=shutil.ignore_patterns("litmus", "worst"))
        self.crates = sorted(printing_program.rooms())
        for crate in self.crates:
            (self.folder / "crates" / crate / "src").mkdir(parents=True)
            self.file(f"crates/{crate}/src/lib.rt", "")
        (self.folder / "bin").mkdir()
        (self.folder / "bin" / "python3").symlink_to(sys.executable)
        self.rt = self.file("bin/rt", RT.format(some=" ".join(self.crates[:SOME]), others=" ".join(self.crates[SOME:]),
                                                program=printing_program.PROGRAM))
        self.rt.chmod(0o755)
        self.file("e", PROGRAM)
        self.log = self.folder.resolve() / "target" / "judge-build.log"

    def runs(self):
        return len((self.folder / "rt-runs").read_text().split()) if (self.folder / "rt-runs").exists() else 0

    def judged(self, **environment):
        settings = {"PATH": f"{self.folder}/bin:/usr/bin:/bin", **environment}
        return self.run_command("bin/python3", "judge", "e", environment=settings)

    def later(self, path):
        """As if it were changed a minute from now."""
        os.utime(self.folder / path, (time.time() + 60, time.time() + 60))

    def said(self, *counts):
        """What is said of a build that was looked at when so many crates were proved, and at its end."""
        total = len(self.crates)
        return (f"judge: proving and building the judge from its sources, some minutes the first time; the log is {self.log}\n"
                + "".join(f"judge: {count} of {total} crates proved\n" for count in [*counts, total]))

    def test_the_first_build_says_what_it_does_and_how_far_it_is(self):
        self.assertEqual(self.judged(RT_SLEEPS="yes"), (ALLOWED, RUN.encode(), self.said(SOME)))
        self.assertEqual(self.log.read_text().count("logic=proved"), len(self.crates))

    def test_what_is_current_is_not_built_again(self):
        self.judged()
        self.file("README.md", "")
        self.later("README.md")
        self.assertEqual(self.judged(), (ALLOWED, RUN.encode(), ""))
        self.assertEqual(self.runs(), 1)

    def test_a_program_older_than_a_source_is_built_anew(self):
        for source in ("crates/program/src/lib.rt", "crates.txt"):
            with self.subTest(source):
                self.judged()
                before = self.runs()
                self.later(source)
                self.assertEqual(self.judged()[0::2], (ALLOWED, self.said()))
                self.assertEqual(self.runs(), before + 1)

    def test_one_build_at_a_time_also_if_its_command_is_killed(self):
        path = f"{self.folder}/bin:/usr/bin:/bin"
        first = subprocess.Popen(["bin/python3", "judge", "e"], cwd=self.folder, stdout=subprocess.DEVNULL,
                                 stderr=subprocess.PIPE, text=True, env={**os.environ, "PATH": path, "RT_SLEEPS": "yes"})
        self.assertIn("proving and building", first.stderr.readline())
        for _ in range(100):
            if self.runs():
                break
            time.sleep(0.05)
        first.kill()
        first.communicate()
        self.assertEqual(self.judged(), (ALLOWED, RUN.encode(), "judge: the judge is being built already, waiting for that\n"))
        self.assertEqual(self.runs(), 1)

    def test_a_refused_listing_needs_no_program(self):
        self.file("e", "thread\n")
        self.assertEqual(self.judged()[0], REFUSED)
        self.assertEqual(self.runs(), 0)

    def test_rt_is_missing(self):
        self.rt.unlink()
        self.assertEqual(self.judged(PATH=f"{self.folder}/bin"), (NOT_DONE, b"", "judge: rt, the command of the Rattle kit, "
                         "is not in PATH: it is needed to prove and build the judge\n"))

    def test_rt_fails(self):
        status, out, err = self.judged(RT_FAILS="yes")
        self.assertEqual((status, out), (NOT_DONE, b""))
        self.assertIn(f"judge: the judge could not be proved and built: rt ended with 1; read {self.log}\n", err)
        self.assertIn("something is not proved", self.log.read_text())

    def test_an_old_program_is_not_asked_when_its_new_sources_fail(self):
        self.judged()
        self.later("crates/search/src/lib.rt")
        self.assertEqual(self.judged(RT_FAILS="yes")[:2], (NOT_DONE, b""))


if __name__ == "__main__":
    unittest.main()
