"""The bit of a refusal 3, the lowest that is 1 and unnamed: what is said about it, and about a line that does not fit."""

import random
import re

from jobtool.listing import listing
from jobtool.refusals import Answer
from jobtool.refusals import answer_of as read_line
from jobtool.wrong import Wrong

from . import paper
from .check import Case, equal, has
from .made import GONE_10, GOOD, SEED, answer_of, assembled, read

AT, NEXT = 163, 171  # the places of the first two words that a job here issues
ALL = (1 << 24) - 1


def word_job(*words):
    issues = "".join(f"issue 0 0x{word:08x}\n" for word in words)
    return assembled(f"{GOOD}{issues}zero dst 0 1\noutput rows 0 1\n")


def offending_words():
    """By the paper's numbers: a name, an unnamed bit, and a word of which it is the lowest that is 1; all bits
    above it are 1, and the named ones below it."""
    for name, (opcode, named, _) in paper.INSTRUCTIONS.items():
        for bit in range(24):
            if not named >> bit & 1:
                below = (1 << bit) - 1
                yield f"{name} from bit {bit} on", bit, opcode << 24 | ALL & ~below | named & below


def differing(words, named):
    """The words with a known opcode that the tool judges otherwise than the paper's numbers."""
    wrong = []
    for word in words:
        own = answer_of(word_job(word))
        bit = next((bit for bit in range(24) if (word & ~named) >> bit & 1), None)
        right = not own.startswith("refused 3") if bit is None else own == f"refused 3 at {AT} bit {bit}"
        wrong += [] if right else [f"0x{word:08x}: {own}"]
    return wrong


def judged():
    rng = random.Random(SEED)
    for name, (opcode, named, _) in paper.INSTRUCTIONS.items():
        top = opcode << 24
        yield equal(f"each bit of {name} alone", differing([top | 1 << bit for bit in range(24)], named), [])
        some = [top | rng.getrandbits(24) & (named | 1 << bit) for bit in range(24)]
        yield equal(f"any bits of {name}", differing(some + [top | rng.getrandbits(24) for _ in range(20)], named), [])
    for name, bit, word in offending_words():
        yield equal(name, answer_of(word_job(word)), f"refused 3 at {AT} bit {bit}")
    known = [opcode for opcode, _, _ in paper.INSTRUCTIONS.values()]
    unknown = {answer_of(word_job(opcode << 24 | ALL)) for opcode in range(256) if opcode not in known}
    yield equal("an unknown opcode with all bits 1", unknown, {f"refused 2 at {AT}"})
    for name, words, answer in (
        ("a mode bit alone", [0x26080000], f"refused 4 at {AT}"),
        ("a mode bit below an unnamed one", [0x5B5C0000], f"refused 3 at {AT} bit 22"),
        ("a mode bit above an unnamed one", [0x26090000], f"refused 3 at {AT} bit 16"),
        ("the second of two words", [0x21000000, 0x21800000], f"refused 3 at {NEXT} bit 23"),
        ("both of two words", [0x21800000, 0x21000001], f"refused 3 at {AT} bit 23"),
    ):
        yield equal(f"{name} is judged", answer_of(word_job(*words)), answer)


# By word: its bit, what is said of the row behind its name, what to do.
WORDS = {
    0x26010000: (16, "only 23:22 clear, 21:19 mode, 15:14 slot, 13:0 dst; nearest is 15:14 slot, one bit below", "clear bit 16"),
    0x29FCFFFF: (18, "only 23:22 clear, 21:19 mode, 15:14 slot, 13:0 dst; nearest is 21:19 mode, one bit above", "clear bit 18"),
    0x26020000: (17, "13:0 dst; nearest are 15:14 slot, 2 bits below, and 21:19 mode, 2 bits above", "clear bit 17"),
    0x26050000: (16, "nearest is 15:14 slot, one bit below", "clear bit 16, and bit 18, which would be refused next"),
    0x26FFFFFF: (16, "nearest is 15:14 slot, one bit below", "clear bit 16, and bits 17 to 18, which would be refused next"),
    0x34004000: (14, "nearest are 13:0 dst, one bit below, and 16:15 slot, one bit above", "clear bit 14"),
    0x22010000: (16, "nearest are 15:14 slot, one bit below, and 17 either, one bit above", "clear bit 16"),
    0x32FCFFFF: (18, "nearest is 17 either, one bit below", "clear bit 18, and bits 19 to 21, which would be refused next"),
    0x37000020: (5, "nearest is 9:6 a, one bit above", "clear bit 5"),
    0x38000001: (0, "nearest is 9:6 a, 6 bits above", "clear bit 0"),
    0x17800002: (23, "only 1:0 mode; nearest is 1:0 mode, 22 bits below", "clear bit 23"),
    0x18001000: (12, "nearest are 10 fill, 2 bits below, and 15:14 slot, 2 bits above", "clear bit 12"),
    0x46500100: (8, "only 3:0 bits; nearest is 3:0 bits, 5 bits below", "clear bit 8, and bits 20, 22, which would be refused next"),
    0x5D400000: (22, "nearest is 23 constant, one bit above", "clear bit 22"),
    0x21000001: (0, "CLREXPHIST names no bits", "clear bit 0"),
    0x21FFFFFF: (0, "CLREXPHIST names no bits", "clear bit 0, and bits 1 to 23, which would be refused next"),
}


def explained():
    for word, (bit, row, remedy) in WORDS.items():
        data = word_job(word)
        text = listing(data, Answer(3, AT, bit))
        start = f"# ^^^ refused 3 at {AT} bit {bit}: an unnamed bit is 1\n#     why: bit {bit} of 0x{word:08x} is 1, and "
        yield has(f"0x{word:08x} is explained", text, start, f"{row}\n#     do:  {remedy}\nzero dst")
        yield equal(f"0x{word:08x} explained assembles", assembled(text), data)


def nearest():
    """How far the named bits next to an unnamed one are, by the paper's numbers."""
    rows = {opcode: named for opcode, named, _ in paper.INSTRUCTIONS.values()}
    for name, bit, word in offending_words():
        named = rows[word >> 24]
        steps = [other - bit for other in range(24) if named >> other & 1]
        least = min(map(abs, steps), default=0)
        far = "one bit" if least == 1 else f"{least} bits"
        wanted = [f"{far} {side}" for side, step in (("below", -least), ("above", least)) if step in steps]
        text = listing(word_job(word), Answer(3, AT, bit))
        yield equal(f"{name}, the nearest named", re.findall(r"(?:one bit|\d+ bits) (?:below|above)", text), wanted)


def own_reading(answer):
    return f"by this tool's reading this file's answer is `{answer}`; is it the file that was run?"


def doubted():
    """A line that does not fit the file: what speaks against its bit, if anything, and the tool's own answer."""
    mvmul, register = word_job(0x26010000), read("register", "job")
    own, no_output = f"refused 3 at {AT} bit 16", assembled(GOOD + "issue 0 0x26010000\n")
    lower = "bit 16 of 0x26050000 is 1 and unnamed too, and the lowest counts"
    opcode = "0x28010000 has an unknown opcode, and its bits do not count then"
    for name, data, place, bit, doubt, answer in (
        ("a field of another kind", mvmul, NEXT, 16, f"no right issue field begins at {NEXT}", own),
        ("the settings", mvmul, 0, 0, "no right issue field begins at 0", own),
        ("the end of the file", register, 185, 23, "no right issue field begins at 185", "finished"),
        ("an unknown opcode", word_job(0x28010000), AT, 16, opcode, f"refused 2 at {AT}"),
        ("a named bit that is 0", mvmul, AT, 14, "MVMUL names bit 14: 15:14 slot", own),
        ("a named bit that is 1", register, 172, 23, "BITWOPDMAREG names bit 23: 23 constant", "finished"),
        ("a mode bit", read("refused_4", "job"), 172, 19, "SHIFTDMAREG names bit 19: 20:18 mode", "refused 4 at 172"),
        ("a bit that is 0", mvmul, AT, 17, "bit 17 of 0x26010000 is 0", own),
        ("bit 0, which is 0", word_job(0x21800000), AT, 0, "bit 0 of 0x21800000 is 0", f"refused 3 at {AT} bit 23"),
        ("a bit above the lowest", word_job(0x26050000), AT, 18, lower, own),
        ("a later word", word_job(0x26010000, 0x22010000), NEXT, 16, "", own),
        ("a word behind another refusal", word_job(0x26080000, 0x26010000), NEXT, 16, "", f"refused 4 at {AT}"),
        ("a word of a job without output", no_output, AT, 16, "", f"refused 1 at {NEXT}"),
    ):
        text = listing(data, Answer(3, place, bit))
        doubts = [line[10:].strip() for line in text.splitlines() if line.startswith("#     but:")]
        yield equal(f"{name} is doubted", doubts, [*filter(None, [doubt]), own_reading(answer)])
        yield equal(f"{name} gets no reason", "why:" in text, False)


def older():
    """A refusal 3 without its bit is an older emulator's, and explained."""
    lacking = "#     but: the line of a refusal 3 ends with its bit; one without it is an older emulator's\n"
    text = listing(read("refused_3", "job"), read_line("refused 3 at 186\n"))
    why = "# ^^^ refused 3 at 186: an unnamed bit is 1\n#     why: bit 16 of 0x26010000 is 1, and MVMUL names "
    yield has("a line without its bit", text, why, f"\n#     do:  clear bit 16\n{lacking}output rows")
    text = listing(read("refused_3", "job"), Answer(3, 163))
    yield has("a line without its bit and of another file", text, f"{lacking}#     but: {own_reading('refused 3 at 186 bit 16')}")


def told(line):
    """What is said to a line about refused_3: the listing, or the message that turns the line down."""
    try:
        return listing(read("refused_3", "job"), read_line(line))
    except Wrong as wrong:
        return f"turned down: {wrong}"


def turned_down():
    for number in (1, 2, *range(4, 10)):
        wanted = f"turned down: a refusal {number} has no bit; only a refusal 3 has one"
        yield equal(f"a bit behind a refusal {number}", told(f"refused {number} at 186 bit 16"), wanted)
    form = 'give the printed line, such as "refused 8 at 180" or "refused 3 at 172 bit 16"'
    for line, message in (
        ("refused 11 at 186 bit 16", "11 is no number that a refusal gives; they are 1 to 9"),
        ("refused 10 at 186 bit 16", GONE_10),
        ("refused 3 at 186 bit 24", "24 is no bit that a refusal gives; they are 0 to 23"),
        ("refused 3 at 187 bit 16", "no field begins at 187; the field around it begins at 186; is this the file that was run?"),
        ("refused 3 at 186 bit", form),
        ("refused 3 at 186 bit -1", form),
        ("refused 3 at 186 bit 0x10", form),
        ("refused 3 at 186 bit 16 17", form),
        ("refused 3 at 186 16", form),
        ("refused 3 bit 16 at 186", form),
    ):
        said = told(line)
        yield Case(f"{line!r} is turned down", said.startswith("turned down: ") and said.endswith(message), said, message)


def lines():
    for text, answer in (
        ("refused 3 at 186 bit 0", Answer(3, 186, 0)),
        (" refused 3 at 186 bit 23\n", Answer(3, 186, 23)),
        ("refused 3 at 186", Answer(3, 186)),
        ("refused 8 at 180", Answer(8, 180)),
    ):
        yield equal(f"{text!r} is read", read_line(text), answer)
        yield equal(f"{text!r} is written", str(answer), text.strip())


def listed():
    """A listing names the unnamed bits of a word, also where no refusal is given."""
    for name, note in (("refused_3", "MVMUL with unnamed bit 16"), ("refused_3_lowest", "SETRWC with unnamed bits 4 5")):
        yield has(f"{name} is listed with its bits", listing(read(name, "job")), f", {note}\n")


GROUPS = (judged, explained, nearest, doubted, older, turned_down, lines, listed)
