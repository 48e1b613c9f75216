"""One line of a listing: an instruction, or a condition of the question, as bytes of the program file."""
import re

from command import shown

COMPUTE, LOAD, STORE, BRANCH, FENCE = range(5)
LOADS = {"load": 0, "load.acq": 1, "load.acqpc": 2}
STORES = {"store": 0, "store.rel": 1}
FENCES = {"dmb sy": 0, "dmb ld": 1, "dmb st": 2, "isb": 3}
COMPUTES = {"+": 0, "-": 1, " xor ": 2, "==": 3}
LOCATIONS = 16
EXCLUSIVES = "exclusive loads and stores are not there yet"
# What people write who know the assembler, and what says it here.
INSTEAD = {
    "ldr": "write r0 = load [x]",
    "ldar": "write r0 = load.acq [x]",
    "ldapr": "write r0 = load.acqpc [x]",
    "str": "write store [x], r0",
    "stlr": "write store.rel [x], r0",
    "mov": "write r0 = 1",
    "add": "write r0 = r1 + r2",
    "sub": "write r0 = r1 - r2",
    "eor": "write r0 = r1 xor r2",
    "cmp": "a branch compares by itself; write beq r0, 1, +2",
    "cbz": "write beq r0, 0, +2",
    "cbnz": "write bne r0, 0, +2",
    "b": "write beq 0, 0, +2, which skips always",
    "b.eq": "write beq r0, 1, +2",
    "b.ne": "write bne r0, 1, +2",
    "beq": "write beq r0, 1, +2",
    "bne": "write bne r0, 1, +2",
    "dmb": "write dmb sy, dmb ld or dmb st",
    "dsb": "write dmb sy, dmb ld or dmb st",
    "isb": "write isb alone",
    "load": "write r0 = load [x]",
    "store": "write store [x], r0",
    "exists": "end with a line question, and under it 0:r0 = 1",
    "ldxr": EXCLUSIVES,
    "ldaxr": EXCLUSIVES,
    "stxr": EXCLUSIVES,
    "stlxr": EXCLUSIVES,
}
KEYWORDS = {"locations", "thread", "question", "load", "store", "beq", "bne", "dmb", "isb", "xor"}


class Fault(Exception):
    """What is wrong and what to write instead; and on which line, where that is not the one being read."""

    def __init__(self, message, line=None):
        super().__init__(message)
        self.line = line


class Written:
    """An instruction as written: its one or two records of the file, and of a branch how many of the
    instructions that are written after it are skipped; the last record is then the one that skips."""

    def __init__(self, *records, skip=None):
        self.records, self.skip, self.line = records, skip, None


def plain(line):
    """The line without its comment, with a space only where two words meet."""
    text = " ".join(line.split("#")[0].split())
    return re.sub(r" ?(==|[\[\],=+:-]) ?", r"\1", text)


def spaced(text):
    """The plain text with spaces again, as a message shows it."""
    apart = re.sub(r"==|[=+-]", lambda sign: f" {sign[0]} ", text).replace(",", ", ").replace("[", " [")
    return shown(" ".join(apart.split()))


def number_of(text):
    """The number that is written, or None."""
    found = re.fullmatch(r"(-?)(?:0[xX]([0-9a-fA-F]+)|([0-9]+))", text)
    if not found:
        return None
    value = int(found[2], 16) if found[2] else int(found[3])
    return -value if found[1] else value


def register(text):
    """The number of the register."""
    if re.fullmatch("r[0-7]", text):
        return int(text[1])
    raise Fault(f"`{shown(text)}` is no register: registers are r0 to r7")


class Lines:
    """Reads lines, by the names that locations have."""

    def __init__(self, names):
        self.names = names
        # What the writer of the last line should know, though it is no fault.
        self.notes = []

    def instruction(self, text):
        if text in FENCES:
            return Written([FENCE, FENCES[text], 0, 0, 0, 0, 0])
        for pattern, build in (
            (r"(\w+)=(load[\w.]*)\[([^\[\]]*)\]", self.load),
            (r"(store[\w.]*)\[([^\[\]]*)\],(.*)", self.store),
            (r"(beq|bne) ([^,]*),([^,]*),(.*)", self.branch),
            (r"(\w+)=(?!=)(.*)", self.compute),
        ):
            found = re.fullmatch(pattern, text)
            if found:
                return build(*found.groups())
        raise self.no_instruction(text)

    def no_instruction(self, text):
        first = re.match(r"[\w.]*", text)[0]
        if first.lower() in INSTEAD:
            return Fault(f"`{spaced(text)}` is no instruction here: {INSTEAD[first.lower()]}")
        if re.match(r"\w+:|\[", text):
            return Fault(f"`{spaced(text)}` is no instruction: a condition stands under the line question, after all "
                         "threads")
        if "//" in text or ";" in text:
            return Fault(f"`{spaced(text)}` is no instruction: a comment begins with #, and a line has one instruction")
        return Fault(f"`{spaced(text)}` is no instruction: there are r0 = load [x], store [x], 1, r0 = r1 + 2, "
                     "beq r0, 1, +2, bne, dmb sy and isb")

    def load(self, into, mode, address):
        if mode not in LOADS:
            raise Fault(f"`{mode}` is no load: there are load, load.acq (acquire) and load.acqpc (weak acquire)")
        parts = address.split("+")
        if len(parts) > 2 or "," in address or "-" in address:
            raise Fault(f"`[{spaced(address)}]` is no address: it is one operand or the sum of two, as [x + r1]; "
                        "compute the rest before it")
        if len(parts) == 2 and all(part in self.names for part in parts):
            raise Fault(f"`[{spaced(address)}]` adds the numbers of two locations: write one of them, or one and a "
                        "register")
        operands = [self.operand(part) for part in parts]
        within(operands)
        return Written([LOAD, LOADS[mode], self.target(into), *operands[0], *(operands[1:] or [[0, 0]])[0]])

    def store(self, mode, address, data):
        if mode not in STORES:
            raise Fault(f"`{mode}` is no store: there are store and store.rel (release)")
        if "+" in address:
            raise Fault(f"the address of a store is one operand: write r7 = {spaced(address)} before it, r7 or another "
                        f"register that is free, and then {mode} [r7], {spaced(data)}")
        operand = self.operand(address)
        within([operand])
        self.note_number(data)
        return Written([STORE, STORES[mode], 0, *operand, *self.operand(data)])

    def branch(self, name, left, right, skip):
        distance = number_of(skip[1:]) if re.match(r"\+[0-9]", skip) else None
        if distance is None:
            raise Fault(f"`{shown(skip)}` is no distance: write +2 to skip the next 2 instructions; there are no "
                        "labels and no way back")
        operands = [*self.operand(left), *self.operand(right)]
        if name == "beq":
            return Written([BRANCH, 0, 0, *operands], skip=distance)
        # If equal, past the second branch, which always skips.
        return Written([BRANCH, 1, 0, *operands], [BRANCH, 0, 0, 0, 0, 0, 0], skip=distance)

    def compute(self, into, value):
        found = re.fullmatch(r"(-?\w+)(?:(\+|-|==| xor )(-?\w+))?", value)
        if not found:
            raise Fault(f"`{spaced(value)}` cannot be computed or loaded: write r0 = load [x], r0 = 5, or r0 = r1 + 2 "
                        "with one of + - xor ==")
        left, how, right = found.groups()
        if not how:
            self.note_number(left)
        operands = [*self.operand(left), *self.operand(right or "0")]
        return Written([COMPUTE, COMPUTES[how or "+"], self.target(into), *operands])

    def target(self, text):
        """The number of the register that a result goes to."""
        if text in self.names:
            raise Fault(f"`{text}` is a location, and only a register stands before =: write store [{text}], r0")
        return register(text)

    def operand(self, text):
        if re.fullmatch("r[0-7]", text):
            return [1, int(text[1])]
        if re.fullmatch("[rR][0-9]+", text):
            raise Fault(f"`{shown(text)}` is no register: registers are r0 to r7")
        return [0, self.constant(text)]

    def constant(self, text):
        """The number that a location's name or a numeral stands for."""
        if text in self.names:
            return self.names[text]
        if not text:
            raise Fault("an operand is missing: a register, the name of a location, or a number")
        value = number_of(text)
        if value is None:
            known = " ".join(self.names)
            raise Fault(f"`{shown(text)}` is no register (r0 to r7), no location ({known}) and no number")
        if not 0 <= value <= 255:
            raise Fault(f"{shown(text)} is no value: values are 0 to 255; sums and differences wrap, so that 0 - 1 is "
                        "255")
        return value

    def condition(self, text, threads):
        found = re.fullmatch(r"(\w+):(\w+)==?(-?\w+)", text)
        if found:
            return [0, thread(found[1], threads), register(found[2]), self.asked(found[3])]
        found = re.fullmatch(r"\[(-?\w+)\]==?(-?\w+)", text)
        if found:
            if re.fullmatch("[rR][0-9]+", found[1]):
                raise Fault(f"`{found[1]}` is a register, and a location stands in brackets: write 0:r1 = 2")
            place = self.constant(found[1])
            within([[0, place]])
            return [1, 0, place, self.asked(found[2])]
        raise Fault(f"`{spaced(text)}` is no condition: write 0:r1 = 2 for register 1 of thread 0, [x] = 2 for "
                    "location x, one condition a line")

    def asked(self, text):
        """The value that a condition asks for."""
        if re.fullmatch("[rR][0-9]+", text):
            raise Fault(f"`{text}` is a register, and a condition asks for a number: write 0:r1 = 2")
        self.note_number(text)
        return self.constant(text)

    def note_number(self, text):
        """A location's name where a value stands could be meant for what the location holds."""
        if text in self.names:
            self.notes.append(f"`{text}` stands for its number, {self.names[text]}, not for what it holds")


def within(operands):
    """An address without a register must be a location: the machine would take it modulo 16 in silence."""
    place = sum(number for _, number in operands)
    if all(kind == 0 for kind, _ in operands) and place >= LOCATIONS:
        raise Fault(f"address {place} is past the last location: use one of 0 to {LOCATIONS - 1}")


def thread(text, threads):
    """The number of a thread that is there."""
    number = number_of(text)
    if number is not None and 0 <= number < threads:
        return number
    there = "thread 0 alone" if threads == 1 else f"threads 0 to {threads - 1}"
    raise Fault(f"there is no thread {shown(text)}: this program has {there}")


def location_names(text):
    """The names of a line `locations`, numbered from 0."""
    if "," in text:
        names = " ".join(text.replace(",", " ").split())
        raise Fault(f"names stand apart by spaces, without commas: write locations {shown(names)}")
    names = {}
    for name in text.split():
        if re.fullmatch("[rR][0-9]+", name):
            raise Fault(f"`{shown(name)}` is a register's name: give the location another one")
        if name in KEYWORDS:
            raise Fault(f"`{name}` is a word of the listing's own: give the location another name")
        if not re.fullmatch("[A-Za-z_][A-Za-z0-9_]*", name):
            raise Fault(f"`{shown(name)}` cannot name a location: a name is letters, digits and _, and begins with no "
                        "digit; by its number, 0 to 15, a location can be used without a name")
        if name in names:
            raise Fault(f"location `{name}` is named twice: give each location a name of its own")
        if len(names) == LOCATIONS:
            raise Fault(f"`{name}` is the 17th location, and there are 16: name no more")
        names[name] = len(names)
    if not names:
        raise Fault("no names: write locations x y, or leave the line out for x y z w")
    return names
