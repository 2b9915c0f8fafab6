"""The table of instructions: mnemonic, opcode, kind, named bits and modes of each, stated once."""

from typing import NamedTuple


class Bits(NamedTuple):
    """Named bits of a word. `words` is empty for a number, a string with one letter for each bit,
    or a tuple with one word for each number. `shown` bits are listed when they are 0 as well. `modes`
    are the numbers that are defined, each with its word or none; without them all numbers are."""

    key: str
    high: int
    low: int
    words: object = ()
    shown: bool = False
    modes: object = None

    def get(self, word):
        return (word >> self.low) & self.most()

    def most(self):
        return (1 << (self.high - self.low + 1)) - 1

    def place(self):
        return f"{self.high}:{self.low} {self.key}" if self.high > self.low else f"{self.low} {self.key}"

    def above(self, bit):
        """How far these bits are above a bit; less than 0 where they are below it, 0 where it is one of them."""
        return max(self.low - bit, 0) + min(self.high - bit, 0)


class Instruction(NamedTuple):
    """A row of the table. What a kind of instruction needs, reads and leaves behind stands in effects.py."""

    name: str
    opcode: int
    kind: str
    bits: tuple

    def naming(self, bit):
        """The field that a bit is of, or None where the row does not name it."""
        return next((bits for bits in self.bits if bits.above(bit) == 0), None)

    def unnamed(self, word):
        """The bits of a word, the lowest first, that are 1 and that the row does not name."""
        return [bit for bit in range(OPCODE_LOW) if word >> bit & 1 and not self.naming(bit)]

    def nearest(self, bit):
        """The fields nearest to an unnamed bit: two where they are equally near, none where the row has none."""
        least = min((abs(bits.above(bit)) for bits in self.bits), default=0)
        return [bits for bits in self.bits if abs(bits.above(bit)) == least]

    def find(self, key):
        return next((bits for bits in self.bits if bits.key == key), None)

    def numbers(self, word):
        """What the named bits of a word hold."""
        return {bits.key: bits.get(word) for bits in self.bits}

    def undefined(self, word):
        """The bits of a word that hold an undefined mode, or None."""
        return next((bits for bits in self.bits if bits.modes and bits.get(word) not in bits.modes), None)

    def mode_words(self):
        """The words that stand for a mode, each with its number."""
        mode = self.find("mode")
        return {text: number for number, text in mode.modes.items() if text} if mode else {}

    def is_scalar(self):
        return self.kind == "scalar"


OPCODE_LOW = 24
CLEAR = Bits("clear", 23, 22, "ab")
DST_ROW = Bits("dst", 13, 0, shown=True)
SLOT = Bits("slot", 15, 14, shown=True)
MULTIPLY = (DST_ROW, SLOT, Bits("mode", 21, 19, modes={0: ""}), CLEAR)
POOL = (DST_ROW, Bits("slot", 16, 15, shown=True), Bits("mode", 21, 19, modes={0: "", 1: ""}), CLEAR)
LEGACY = (DST_ROW, SLOT, Bits("either", 17, 17), CLEAR)
WHICH = Bits("which", 3, 0, "abdf", shown=True)
COUNTERS = (Bits("a", 9, 6), Bits("b", 13, 10), Bits("d", 17, 14))
SET = (WHICH, *COUNTERS, Bits("mode", 21, 18, modes={0: ""}), CLEAR)
INCREMENT = (*(bits._replace(shown=True) for bits in COUNTERS), Bits("mode", 23, 18, modes={0: ""}))
ZERO = (
    Bits("files", 1, 0, "ab", shown=True),
    Bits("banks", 2, 2, ("one", "both"), shown=True),
    Bits("write", 3, 3),
    Bits("value", 23, 4),
)
SHIFT_B = (Bits("row", 9, 0, shown=True), Bits("fill", 10, 10, ("around", "zero"), shown=True), SLOT)


def scalar(*modes):
    mode = Bits("mode", 20, 18, modes=dict(enumerate(modes)))
    return (Bits("A", 5, 0), Bits("B", 11, 6), Bits("result", 17, 12), mode, Bits("constant", 23, 23))


TABLE = (
    Instruction("MVMUL", 0x26, "multiply", MULTIPLY),
    Instruction("DOTPV", 0x29, "multiply", MULTIPLY),
    Instruction("GAPOOL", 0x34, "pool", POOL),
    Instruction("CONV3S1", 0x22, "legacy", LEGACY),
    Instruction("CONV3S2", 0x23, "legacy", LEGACY),
    Instruction("MPOOL3S1", 0x24, "legacy", LEGACY),
    Instruction("APOOL3S1", 0x25, "legacy", LEGACY),
    Instruction("MPOOL3S2", 0x31, "legacy", LEGACY),
    Instruction("APOOL3S2", 0x32, "legacy", LEGACY),
    Instruction("SETRWC", 0x37, "set", SET),
    Instruction("INCRWC", 0x38, "increment", INCREMENT),
    Instruction("ZEROSRC", 0x11, "zero", ZERO),
    Instruction("SHIFTXA", 0x17, "shift a", (Bits("mode", 1, 0, modes={2: "right", 3: "left"}),)),
    Instruction("SHIFTXB", 0x18, "shift b", SHIFT_B),
    Instruction("GATESRCRST", 0x35, "nothing", (Bits("bits", 1, 0),)),
    Instruction("CLREXPHIST", 0x21, "nothing", ()),
    Instruction("FLUSHDMA", 0x46, "nothing", (Bits("bits", 3, 0),)),
    Instruction("BITWOPDMAREG", 0x5B, "scalar", scalar("and", "or", "xor")),
    Instruction("SHIFTDMAREG", 0x5C, "scalar", scalar("left", "right")),
    Instruction("CMPDMAREG", 0x5D, "scalar", scalar("above", "below", "equal")),
)
HOW_MANY = "twenty"  # the table's rows, for messages
BY_NAME = {instruction.name: instruction for instruction in TABLE}
BY_OPCODE = {instruction.opcode: instruction for instruction in TABLE}


def instruction_of(word):
    """The row of a word's opcode, or None where there is none."""
    return BY_OPCODE.get(word >> OPCODE_LOW)
