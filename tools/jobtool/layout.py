"""The sizes and ranges of the lent state and of a job, and what the settings make of the files."""

from typing import NamedTuple

from .instructions import Bits
from .ranges import Range, below
from .wrong import Wrong, bits_span

JOB_LIMIT = 8192
COLUMNS = 16
BANKS, BANK_ROWS = 2, 64
THREADS, REGISTERS, SLOTS = 3, 64, 8
MOST_ROWS = 64  # of one load or one output
DST_WRAP, PHASES = 1024, 4  # sums of Dst rows and of phases wrap at these
DST_32_ROWS, DST_BF16_ROWS = 512, 1024

A, B, DST = 0, 1, 2
FILES = ("srca", "srcb", "dst")
PROPER = ("SrcA", "SrcB")

FORMATS = ("fp32", "fp16", "bf16", "bfp8", "bfp4", "bfp2", "tf32", "bfp8a", "bfp4a", "bfp2a", "fp8", "int32", "int8", "int16")
BF16, TF32 = FORMATS.index("bf16"), FORMATS.index("tf32")
# The formats whose Src numbers are readable, with their mantissa bits.
READABLE = {BF16: 7, TF32: 10}

FLAGS = ("fp32", "int8", "fp16a")  # from bit 0
FP32, INT8, FP16A = 1, 2, 4
# The flags above these: SrcA's and SrcB's switch, under which a clear keeps the file's bank.
KEEP = Bits("keep", 4, 3, "ab")


class FlagBits:
    """The flags' byte, of which the bits above the switches must be 0."""

    MUST_BE_0 = range(KEEP.high + 1, 8)

    def check(self, number, where=""):
        wrong = [bit for bit in self.MUST_BE_0 if number >> bit & 1]
        if wrong:
            bits, are = bits_span(wrong), "is" if len(wrong) == 1 else "are"
            names = ", ".join([*FLAGS, *(f"{KEEP.key}={letter}" for letter in KEEP.words)])
            why = f"{where}{bits} of the flags, 0x{number:02x}, {are} 1; {bits_span(self.MUST_BE_0)} must be 0"
            remedy = f"clear {bits} of the flags, the payload's second byte; {bits_span(range(KEEP.high + 1))} are {names}"
            raise Wrong(why, remedy=remedy)
        return number


FORMAT = below("format", len(FORMATS))
FLAG_BITS = FlagBits()
BASE, OFFSET = below("base", DST_WRAP), below("offset", DST_WRAP)
FIDELITY, EXTRA = below("fidelity", PHASES), below("extra", 2)
THREAD, REGISTER, SLOT = below("thread", THREADS), below("register", REGISTERS), below("slot", SLOTS)
FILE, SRC_FILE = below("file", len(FILES)), below("file", len(PROPER))
VALUE = below("value", 1 << 32)


def thread_name(t):
    return f"thread {t}"


def slot_name(t, s):
    return f"slot {t}.{s}"


class Part(NamedTuple):
    """A part of a slot: its counter's name, what the counter wraps at, the bits of its flags."""

    name: str
    size: int
    flags: dict

    def step(self):
        return below(f"the step of {self.name}", self.size)

    def on(self, flags):
        """The names of the part's flags that are on."""
        return [name for name, bit in self.flags.items() if flags >> bit & 1]


SLOT_PARTS = (
    Part("a", BANK_ROWS, {"clear": 0, "carry": 1}),
    Part("b", BANK_ROWS, {"clear": 2, "carry": 3}),
    Part("dst", DST_WRAP, {"clear": 4, "carry": 5, "copy": 6}),
    Part("phase", PHASES, {"clear": 7}),
)


def row_counts(most=MOST_ROWS):
    return Range("the count of rows", 1, most)


class File(NamedTuple):
    """A file under a job's settings: its rows, the bits of a number, and the format of its numbers with
    that format's mantissa bits; without a format its numbers are only bits. `remedy` is for limits that
    the settings decide."""

    name: str
    rows: int
    bits: int
    format: str
    mantissa: int
    remedy: str = ""

    def is_dst(self):
        return self.bits != SRC_BITS

    def first_row(self):
        return below(f"the first row in {self.name}", self.rows)

    def check_rows(self, first, count, most=MOST_ROWS):
        row_counts(most).check(count)
        if first + count > self.rows:
            why = f"rows {first} to {first + count - 1} leave {self.name}, whose last row is {self.rows - 1}"
            raise Wrong(why, remedy=self.remedy)

    def check_bits(self, number, text):
        if number >> self.bits:
            raise Wrong(f"{text} has more than the {self.bits} bits of a {self.name} number", remedy=self.remedy)
        return number


SRC_BITS = 19
BF16_WHEN = "format bf16 with fp32, int8 and fp16a off"
DST_32_REMEDY = f"stay within rows 0 to {DST_32_ROWS - 1}; only BF16 Dst, {BF16_WHEN}, has rows to {DST_BF16_ROWS - 1}"
DST_BF16_REMEDY = f"stay within rows 0 to {DST_BF16_ROWS - 1} and values below 2^16, or turn fp32 on for 32-bit Dst"
DST_32 = File("32-bit Dst", DST_32_ROWS, 32, "binary32", 23, DST_32_REMEDY)
DST_BF16 = File("BF16 Dst", DST_BF16_ROWS, 16, "bf16", 7, DST_BF16_REMEDY)


def files_of(form, flags):
    """SrcA, SrcB and Dst under a format and flags. Only format bf16 without these flags has BF16 Dst."""
    readable = (FORMATS[form], READABLE[form]) if form in READABLE else ("", 0)
    src = [File(name, BANK_ROWS, SRC_BITS, *readable) for name in PROPER]
    narrow = form == BF16 and not flags & (FP32 | INT8 | FP16A)
    return (*src, DST_BF16 if narrow else DST_32)


NO_SETTINGS_FILES = files_of(None, 0)


def unmodelled(form, flags):
    """Why a multiply is not modelled under a format and flags, or nothing where it is."""
    parts = [] if form in (BF16, TF32) else [f"the format is {FORMATS[form]}"]
    if form == TF32 and not flags & FP32:
        parts.append("the format is tf32 with fp32 off")
    parts += [f"{name} is on" for name, bit in (("int8", INT8), ("fp16a", FP16A)) if flags & bit]
    return " and ".join(parts)
