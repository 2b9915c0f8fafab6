"""The tool's tables against the papers' numbers, and its modules against its own tables."""

from jobtool import layout
from jobtool.effects import EFFECTS
from jobtool.fields import BY_TAG
from jobtool.instructions import BY_NAME, HOW_MANY, TABLE
from jobtool.listing import TEXTS
from jobtool.refusals import BY_NUMBER

from . import paper
from .check import equal


def sizes():
    for name, size in paper.SIZES.items():
        yield equal(name, getattr(layout, name), size)
    yield equal("formats", layout.FORMATS, paper.FORMATS)
    yield equal("flags", layout.FLAGS, paper.FLAGS)
    switches = {letter: layout.KEEP.low + n for n, letter in enumerate(layout.KEEP.words)}
    yield equal("switches", switches, paper.SWITCHES)
    yield equal("flags that must be 0", list(layout.FLAG_BITS.MUST_BE_0), [5, 6, 7])


def tags():
    yield equal("tags", list(BY_TAG), list(range(1, 9)))
    for tag, length in paper.LENGTHS.items():
        yield equal(f"the length of tag {tag}", BY_TAG[tag].length, length)
    yield equal("each kind of field is listed", sorted(kind.tag for kind in TEXTS), sorted(BY_TAG))


def row_text(opcode, named, modes):
    return f"opcode {opcode:02x}, named bits {named:06x}, modes {modes}"


def instructions():
    yield equal("mnemonics", [row.name for row in TABLE], list(paper.INSTRUCTIONS))
    yield equal("how many, in words", (len(TABLE), HOW_MANY), (20, "twenty"))
    for name, row in paper.INSTRUCTIONS.items():
        own = BY_NAME[name]
        modes = [list(bits.modes) for bits in own.bits if bits.modes]
        named = sum(1 << bit for bit in range(24) if own.naming(bit))
        yield equal(f"the row of {name}", row_text(own.opcode, named, modes), row_text(*row))
        yield equal(f"{name} has an effect", own.kind in EFFECTS, True)


def refusals():
    yield equal("the numbers of refusals", list(BY_NUMBER), list(range(1, 10)))


GROUPS = (sizes, tags, instructions, refusals)
