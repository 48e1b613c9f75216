"""Listings: the readable form of a program.

A listing has one thread block for each thread, one instruction a line, then the question:

    locations x y                  # names for locations 0, 1, ..; x y z w without this line
    thread
        r0 = load [x + r1]         # load, load.acq (acquire), load.acqpc (weak acquire)
        store.rel [y], r0          # store, store.rel (release); the address is one operand
        r1 = r0 xor 3              # + - xor == ; r1 = 5 is r1 = 5 + 0
        beq r0, 1, +2              # if equal, skip the next 2 instructions
        bne r0, 1, +1              # if not equal; counts as two instructions
        dmb sy                     # dmb sy, dmb ld, dmb st, isb
    question                       # may Armv8 cores end like this?
        0:r1 = 1                   # register 1 of thread 0
        [x] = 2                    # the last value of location x

Spaces around signs count for nothing; a number is decimal or, as 0x1f, hexadecimal. An operand is a
register, a number, or the name of a location, which stands for its number.
"""
import re

import command
from command import Refused
from listing_line import STORE, Fault, Lines, location_names, plain, spaced

THREADS, INSTRUCTIONS, STORES, CONDITIONS = 4, 16, 16, 8
LONGEST_LINE = 1000


class Listing:
    """The listing read so far: the threads' instructions and the question's conditions."""

    def __init__(self):
        self.lines = Lines({"x": 0, "y": 1, "z": 2, "w": 3})
        self.named = False
        self.written = []
        self.conditions = []
        self.block = None
        # Line and text of what its writer should know, though it is no fault.
        self.notes = []

    def line(self, text, number):
        self.read(text, number)
        self.notes += [(number, note) for note in self.lines.notes]
        self.lines.notes.clear()

    def read(self, text, number):
        first = re.match(r"\w*", text)[0]
        if first == "locations":
            self.locations(text.removeprefix("locations"))
        elif first in ("thread", "question") and text != first:
            raise Fault(f"write `{first}` alone on its line; threads are numbered 0, 1, .. as they come")
        elif first == "thread":
            self.begin_thread()
        elif first == "question":
            self.begin_question()
        elif self.block == "thread":
            self.instruction(text, number)
        elif self.block == "question":
            self.condition(text)
        else:
            raise Fault(f"`{spaced(text)}` stands before the first thread: write thread first, and before that "
                        "nothing but locations x y")

    def locations(self, names):
        if self.named or self.block:
            raise Fault("locations are named once, before the first thread: put all names into one line there")
        self.lines = Lines(location_names(names))
        self.named = True

    def begin_thread(self):
        if self.block == "question":
            raise Fault("a thread after the question: write the threads first")
        if len(self.written) == THREADS:
            raise Fault(f"a fifth thread: a program has at most {THREADS}, leave one out")
        self.written.append([])
        self.block = "thread"

    def begin_question(self):
        if self.block == "question":
            raise Fault("a second question: ask one thing, in one block, and the other in a listing of its own")
        if not self.written:
            raise Fault("a question before any thread: write the threads first")
        self.block = "question"

    def instruction(self, text, number):
        new = self.lines.instruction(text)
        new.line = number
        code = self.written[-1]
        if records_of(code + [new]) > INSTRUCTIONS:
            twice = " (a bne is two)" if any(len(written.records) > 1 for written in code + [new]) else ""
            raise Fault(f"thread {len(self.written) - 1} has more than {INSTRUCTIONS} instructions{twice}: shorten it")
        code.append(new)
        if sum(written.records[0][0] == STORE for thread in self.written for written in thread) > STORES:
            raise Fault(f"the 17th store: a program has at most {STORES}, all threads together; leave one out")

    def condition(self, text):
        condition = self.lines.condition(text, len(self.written))
        if len(self.conditions) == CONDITIONS:
            raise Fault(f"a ninth condition: a question has at most {CONDITIONS}, leave one out")
        self.conditions.append(condition)

    def finish(self, number):
        """What only the listing's end can tell, which is the line of this number."""
        if not self.written:
            raise Fault("no thread: write thread and its instructions, one a line, then question")
        if self.block != "question":
            raise Fault("no question: end with the line question and its conditions under it; question alone asks "
                        "whether any run ends")
        for code in self.written:
            place_branches(code)
        if not self.conditions:
            self.notes.append((number, "the question is empty, so it asks whether any run ends"))

    @property
    def threads(self):
        """The records of each thread's instructions."""
        return [[record for written in code for record in written.records] for code in self.written]

    def program(self):
        """The program file."""
        file = bytearray(b"PG" + bytes([1, len(self.threads)]))
        for number, instructions in enumerate(self.threads):
            file += b"TH" + bytes([number, len(instructions)])
            for instruction in instructions:
                file += b"IN" + bytes(instruction)
        file += b"QU" + bytes([len(self.conditions)])
        for condition in self.conditions:
            file += b"CN" + bytes(condition)
        return bytes(file)


def records_of(code):
    """How many instructions of the machine the written ones are."""
    return sum(len(written.records) for written in code)


def place_branches(code):
    """Each branch skips as many records as the instructions that it skips have."""
    for place, written in enumerate(code):
        if written.skip is None:
            continue
        after = code[place + 1:]
        if written.skip > len(after):
            raise Fault(f"the branch goes past the end of its thread: write at most +{len(after)}, which leads to the "
                        "end", written.line)
        written.records[-1][1] = records_of(after[:written.skip])


def of_bytes(data, name):
    """The listing that these bytes are; messages call it by the name."""
    if len(data) > command.LONGEST:
        raise Refused(f"{name}: longer than a million bytes: no listing")
    if data.startswith(b"PG"):
        raise Refused(f"{name}: is a program file already: ./judge takes it as it is")
    try:
        text = data.decode("utf-8-sig")
    except UnicodeDecodeError:
        raise Refused(f"{name}: is no text in UTF-8, so no listing, and does not begin as a program file") from None
    listing, number = Listing(), 0
    try:
        for number, line in enumerate(text.removesuffix("\n").split("\n"), 1):
            words = plain(line)
            if len(words) > LONGEST_LINE:
                raise Fault(f"a line of more than {LONGEST_LINE} characters: write one instruction a line")
            if words:
                listing.line(words, number)
        listing.finish(number)
    except Fault as fault:
        raise Refused(f"{name}:{fault.line or number}: {fault}") from None
    return listing


def say_notes(listing, name):
    """Says on standard error what its writer should know."""
    for number, note in listing.notes:
        command.say(f"{name}:{number}: note: {note}")


def parse(path):
    """The listing at the path, - being standard input."""
    return of_bytes(command.read(path), command.name_of(path))


def stated(path):
    """The verdict of the listing's comment, `# published: forbidden` or `# expected: allowed`."""
    with open(path, encoding="utf-8") as lines:
        found = re.search(r"^# (?:published|expected): (\S+)$", lines.read(), re.MULTILINE)
    return found[1] if found else None


def assemble(path):
    """The program file that the listing at the path stands for."""
    return parse(path).program()
