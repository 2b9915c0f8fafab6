"""Wrong and garbled texts: each gets its line and a message."""

import random
import re

from jobtool.listing import listing

from .check import Case
from .made import GOOD, NAMES, NARROW, ROW, SEED, assembled, read

# Each is a text, the line that is wrong, and a part of what is said about it.
LINES = (
    ("isue 0 CLREXPHIST", 1, "did you mean issue"),
    (GOOD + "\n# a comment\nhand over dst", 4, "write hand over srca"),
    ("raw", 1, "raw needs bytes"),
    ("raw 0 1", 1, "pairs of hexadecimal digits"),
    ("raw zz", 1, "pairs of hexadecimal digits"),
)
SETTINGS = (
    ("settings", 1, "need a format"),
    ("settings format", 1, "there is no format"),
    ("settings format bf17", 1, "there is no format bf17"),
    ("settings format 14", 1, "format is 14; 0 to 13"),
    ("settings format bf16 base", 1, "base: nothing is no whole number"),
    ("settings format bf16 base 1024", 1, "base is 1024; 0 to 1023"),
    ("settings format bf16 fp32 fp32", 1, "fp32 stands twice"),
    ("settings format bf16 fp64", 1, "fp64 is no setting"),
    ("settings format bf16 kep=ab", 1, "kep=ab is no setting; write settings format bf16 fp32 base 0; did you mean keep=ab?"),
    ("settings format bf16 keep", 1, "keep: write keep=a, keep=b or keep=ab"),
    ("settings format bf16 keep a", 1, "keep: write keep=a, keep=b or keep=ab"),
    ("settings format bf16 keepa", 1, "keepa: write keep=a, keep=b or keep=ab"),
    ("settings format bf16 keep_a=1", 1, "keep_a=1: write keep=a, keep=b or keep=ab"),
    ("settings format bf16 keep=", 1, "keep=: give some of the letters ab, each once, or none"),
    ("settings format bf16 keep=c", 1, "keep=c: give some of the letters ab"),
    ("settings format bf16 keep=abc", 1, "keep=abc: give some of the letters ab"),
    ("settings format bf16 keep=aa", 1, "keep=aa: give some of the letters ab, each once"),
    ("settings format bf16 keep=srca", 1, "keep=srca: give some of the letters ab"),
    ("settings format bf16 keep=1", 1, "keep=1: give some of the letters ab"),
    ("settings format bf16 keep=a keep=b", 1, "keep stands twice; write one of keep=a, keep=b or keep=ab"),
    ("settings format bf16 keep=none keep=none", 1, "keep stands twice"),
    ("settings keep=ab", 1, "need a format"),
    ("keep=a", 1, "keep=a begins no line"),
    ("thread 0 offset 1", 1, "only below settings"),
    (GOOD + "thread 3 offset 1", 2, "thread is 3; 0 to 2"),
    (GOOD + "thread 0 offset", 2, "offset: nothing"),
    (GOOD + "thread 0 speed 1", 2, "a thread has no speed"),
    (GOOD + "thread 0 extra 1\nthread 0 extra 1", 3, "stands twice"),
    (GOOD + "slot 0 a +1", 2, "write slot 0.1"),
    (GOOD + "slot 0.8 a +1", 2, "slot is 8; 0 to 7"),
    (GOOD + "slot 0.0 +1", 2, "parts begin with"),
    (GOOD + "slot 0.0 a copy", 2, "a takes a step"),
    (GOOD + "slot 0.0 a +64", 2, "the step of a is 64; 0 to 63"),
    (GOOD + "slot 0.0 phase +4", 2, "the step of phase is 4"),
    (GOOD + "load register 0/1 1\nslot 0.0 a +1", 3, "only below settings"),
)
ROWS = (
    (GOOD + "load srcc 0:\n" + ROW, 2, "write load srca 0:"),
    (GOOD + "load srca 0:\noutput rows 0 1", 2, "a load needs 1 to 64 rows"),
    (GOOD + "load srca 0:", 2, "a load needs 1 to 64 rows"),
    (GOOD + "load srca 64:\n" + ROW, 2, "the first row in SrcA is 64; 0 to 63"),
    (GOOD + "load srca 63:\n" + ROW + ROW, 4, "leave SrcA"),
    (GOOD + "load dst 0:\n" + ROW * 65, 67, "the count of rows is 65"),
    (GOOD + "load dst 0:\n65x " + ROW, 3, "the count of rows is 65"),
    (GOOD + "load dst 0:\n0*15", 3, "16 values, here are 15"),
    (GOOD + "load dst 0:\n0*17", 3, "the count of repeats is 17"),
    (GOOD + "load dst 0:\n0*12 1 2 3 4 5", 3, "16 values, here are 17"),
    (GOOD + "load srca 0:\n0x80000 0*15", 3, "more than the 19 bits"),
    (GOOD + "load srca 0:\n1.001 0*15", 3, "the numbers beside it are 1 and 1.0078125"),
    (GOOD + "load srca 0:\n-0 0*15", 3, "read as +0"),
    (GOOD + "load srca 0:\n1e39 0*15", 3, "too large for bf16"),
    (GOOD + "load srca 0:\n1e-45 0*15", 3, "too small for bf16"),
    (GOOD + "load dst 0:\n0.1 0*15", 3, "not exact in binary32"),
    (GOOD + "load dst 0:\n1..5 0*15", 3, "1..5 is no number"),
    (GOOD + "load dst 0:\n0x123456789 0*15", 3, "at most 8 digits"),
    ("settings format int8 fp32\nload srca 0:\n1 0*15", 3, "only formats bf16 and tf32"),
    ("load srca 0:\n1 0*15", 2, "only formats bf16 and tf32"),
    ("1 2 3", 1, "only below a load"),
)
DST_ROWS = (
    (GOOD + "load dst 512:\n" + ROW, 2, "the first row in 32-bit Dst is 512; 0 to 511"),
    (GOOD + "load dst 511:\n2x " + ROW, 3, "rows 511 to 512 leave 32-bit Dst, whose last row is 511"),
    (GOOD + "zero dst 0 513", 2, "the count of rows is 513; 1 to 512"),
    (NARROW + "load dst 0:\n0x10000 0*15", 3, "0x10000 has more than the 16 bits of a BF16 Dst number"),
    (NARROW + "load dst 0:\n1.001 0*15", 3, "not exact in bf16; the numbers beside it are 1 and 1.0078125"),
    (NARROW + "load dst 0:\n2^-134 0*15", 3, "not exact in bf16"),
    (NARROW + "load dst 0:\n2^128 0*15", 3, "too large for bf16"),
    (NARROW + "load dst 1024:\n" + ROW, 2, "the first row in BF16 Dst is 1024; 0 to 1023"),
    (NARROW + "load dst 1023:\n2x " + ROW, 3, "rows 1023 to 1024 leave BF16 Dst, whose last row is 1023"),
    (NARROW + "output rows 1000 25", 2, "leave BF16 Dst"),
    (NARROW + "output rows 0 65", 2, "the count of rows is 65"),
    (NARROW + "zero dst 1 1024", 2, "leave BF16 Dst"),
    (NARROW + "zero dst 0 1025", 2, "the count of rows is 1025; 1 to 1024"),
    (NARROW + GOOD + "zero dst 512 1", 3, "the first row in 32-bit Dst is 512"),
    ("settings format bf16 int8\nzero dst 512 1", 2, "the first row in 32-bit Dst is 512"),
    ("settings format tf32\noutput rows 512 1", 2, "the first row in 32-bit Dst is 512"),
)
REGISTERS = (
    ("load register 3/0 1", 1, "thread is 3"),
    ("load register 0/64 1", 1, "register is 64"),
    ("load register 0/0 4294967296", 1, "value is 4294967296"),
    ("load register 0/0 -1", 1, "no whole number"),
    ("load register 00 1", 1, "give thread and register"),
    ("load register 0/0", 1, "write load srca 0:"),
)
INSTRUCTIONS = (
    ("issue 0", 1, "write issue THREAD"),
    ("issue 3 CLREXPHIST", 1, "thread is 3"),
    ("issue 0 MVMULL", 1, "did you mean MVMUL"),
    ("issue 0 MVMUL dst=16384", 1, "dst is 16384"),
    ("issue 0 MVMUL row=1", 1, "has no field row"),
    ("issue 0 MVMUL dst=1 dst=1", 1, "dst stands twice"),
    ("issue 0 MVMUL clear=c", 1, "some of the letters ab"),
    ("issue 0 MVMUL fast", 1, "does not take fast"),
    ("issue 0 ZEROSRC banks=two", 1, "give one or both"),
    ("issue 0 SHIFTXA", 1, "needs one of right, left"),
    ("issue 0 BITWOPDMAREG nand r1 r2 r3", 1, "needs one of and, or, xor"),
    ("issue 0 BITWOPDMAREG xor r1 r2", 1, "here are 2"),
    ("issue 0 BITWOPDMAREG xor r1 r64 r3", 1, "register is 64"),
    ("issue 0 BITWOPDMAREG xor r1 r2 64", 1, "the constant B is 64"),
    ("issue 0 BITWOPDMAREG xor 1 r2 r3", 1, "1 is no register"),
    ("issue 0 0x123456789", 1, "at most 8 hexadecimal digits"),
    ("issue 0 0x26000000 dst=1", 1, "stands alone"),
)
OUTPUTS = (
    ("output rows 511 2", 1, "leave 32-bit Dst"),
    ("output rows 0 65", 1, "the count of rows is 65"),
    ("output", 1, "write output rows"),
    ("zero dst 0 0", 1, "the count of rows is 0"),
    ("zero srca 0 1", 1, "write zero dst"),
)


def bad():
    for text, line, part in LINES + SETTINGS + ROWS + DST_ROWS + REGISTERS + INSTRUCTIONS + OUTPUTS:
        answer, start = assembled(text), f"line {line}: "
        good = isinstance(answer, str) and answer.startswith(start) and part in answer
        yield Case(f"{text!r} is wrong", good, answer, f"{start}.. {part}")


def garbled_texts(count):
    rng = random.Random(SEED)
    texts = [read(name, "txt").decode() for name in NAMES] + [listing(read("mvmul", "job"))]
    words = sorted({word for text in texts for word in text.split()}) + ["\u0660", "0x", "*", "-", "=", "1e999", "2^999", "\0"]
    for _ in range(count):
        lines = rng.choice(texts).split("\n")
        for _ in range(rng.randrange(1, 4)):
            at = rng.randrange(len(lines))
            parts = lines[at].split(" ")
            parts[rng.randrange(len(parts))] = rng.choice(words)
            lines[at] = " ".join(parts)
        yield "\n".join(lines)


def garbled():
    """Whatever a text is, the answer is bytes or a line with a message."""
    for n, text in enumerate(garbled_texts(200)):
        answer = assembled(text)
        good = isinstance(answer, bytes) or bool(re.match(r"line \d+: .", answer))
        yield Case(f"garbled text {n}", good, answer, "bytes, or line N: and a message")


GROUPS = (bad, garbled)
