"""The numbers that a job may be refused with, their words, and the printed line that gives one."""

import re
from typing import NamedTuple

from .instructions import HOW_MANY
from .layout import BF16_WHEN, DST_32_ROWS
from .wrong import Wrong, span


class Refusal(NamedTuple):
    """A number, what it means and what to do about it. `judged` says that the job alone decides, so
    that this tool can too, and that the place is a field's; `has_bit` that a bit stands behind it."""

    number: int
    meaning: str
    remedy: str
    judged: bool = True
    has_bit: bool = False


SHAPE = Refusal(
    1,
    "the job's shape is wrong",
    "mend this field: a whole field, a known tag, the tag's length, its position and each value in range",
)
OPCODE = Refusal(
    2, "unknown opcode", f"use one of the {HOW_MANY} modelled instructions; the opcode is the word's top eight bits"
)
UNNAMED = Refusal(3, "an unnamed bit is 1", "clear the bits that the instruction's row does not name", has_bit=True)
MODE = Refusal(4, "undefined mode", "use a mode that the instruction's row defines")
SETTINGS = Refusal(
    5,
    "multiply under unmodelled settings",
    f"modelled are 32-bit Dst, format bf16 or tf32 with fp32 alone on, and BF16 Dst, {BF16_WHEN}",
)
OWNER = Refusal(
    6,
    "a needed bank has the other owner",
    "hand the bank over before it is used; load and hand over only what the unpackers own",
)
DST_ROW = Refusal(
    7,
    f"first Dst row is {DST_32_ROWS} or more, in 32-bit Dst",
    f"lower dst, math offset, Dst counter or base; the row is never wrapped to {DST_32_ROWS}, "
    f"and only BF16 Dst has rows past {DST_32_ROWS - 1}",
)
UNSET = Refusal(8, "an unset row or register is read", "load, zero or compute it in a field before this one")
LENT = Refusal(
    9,
    "a lent slice of the state has another length",
    "mend the calling program; the job has no part in this",
    judged=False,
)
TABLE = (SHAPE, OPCODE, UNNAMED, MODE, SETTINGS, OWNER, DST_ROW, UNSET, LENT)
BY_NUMBER = {refusal.number: refusal for refusal in TABLE}


def refusal_with(number):
    """The refusal with a number, or the message that there is none."""
    if number in BY_NUMBER:
        return BY_NUMBER[number]
    raise Wrong(f"{number} is no number that a refusal gives; they are {span(BY_NUMBER)}")


class Answer(NamedTuple):
    """A number, a place and perhaps a bit, as a refused job's printed line gives them."""

    number: int
    place: int
    bit: int = None

    def __str__(self):
        line = f"refused {self.number} at {self.place}"
        return line if self.bit is None else f"{line} bit {self.bit}"


LINE = re.compile(r"\s*refused (\d{1,9}) at (\d{1,9})(?: bit (\d{1,9}))?\s*", re.ASCII)


def answer_of(text):
    match = LINE.fullmatch(text)
    if not match:
        raise Wrong(f'{text!r}: give the printed line, such as "{Answer(8, 180)}" or "{Answer(3, 172, 16)}"')
    return Answer(*(digits and int(digits) for digits in match.groups()))


class Fault(NamedTuple):
    """A refusal that a job meets: why, what to do about it where that is not the usual, its place, which
    is left open until the field is known, and its bit where it has one."""

    refusal: Refusal
    why: str
    remedy: str = ""
    place: int = 0
    bit: int = None

    def answer(self):
        return Answer(self.refusal.number, self.place, self.bit)

    def what_to_do(self):
        return self.remedy or self.refusal.remedy


def first_fault(faults):
    return next(filter(None, faults), None)
