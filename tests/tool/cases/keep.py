"""Keeping a bank through a clear: the switches as text, what is judged under them, and what is said."""

import random

from jobtool.fields import split
from jobtool.listing import listing
from jobtool.refusals import Answer
from jobtool.rules import find_fault

from . import paper
from .check import equal, has
from .made import BANKS, SEED, answer_of, assembled, raw_field, settings_text

CLEARING = ("MVMUL", "DOTPV", "GAPOOL", "CONV3S1", "CONV3S2", "MPOOL3S1", "APOOL3S1", "MPOOL3S2", "APOOL3S2", "SETRWC")
KEEPS = ("none", "a", "b", "ab")
# An instruction that needs and reads one file alone.
READS = {"a": "issue 0 SHIFTXA right\n", "b": "issue 0 SHIFTXB row=0\n"}
BOTH_SET = "issue 0 ZEROSRC files=ab banks=both\n"
HANDED = "hand over srca\nhand over srcb\n"
END = "zero dst 0 8\noutput rows 0 8\n"
FLAGS_AT = 4  # of a job's bytes


def settings(keep):
    return f"settings format bf16 fp32 keep={keep} base 0\n"


# ------------------------------------------------------------------------------------------- the text


def written():
    """Each flags byte with each format, as text and back."""
    for flags in range(32):
        wrong = []
        for form, name in enumerate(paper.FORMATS):
            text = settings_text(form, flags)
            data = assembled(text)
            listed = listing(data)
            head = listed.partition("#")[0].split()
            same = data[3:5] == bytes((form, flags)) and assembled(listed) == data and head == [*text.split(), "base", "0"]
            wrong += [] if same else [name]
        yield equal(f"flags {flags} in each format", wrong, [])
    for text, flags in (
        ("keep=a format bf16 base 3 fp32", 9),
        ("FORMAT BF16 KEEP=AB", 24),
        ("format bf16 keep=ba", 24),
        ("format tf32 fp16a keep=b int8", 22),
        ("format bf16 fp32 keep=none", 1),
    ):
        data = assembled(f"settings {text}\n")
        yield equal(f"settings {text}", data[FLAGS_AT], flags)
    yield equal("keep=none is not listed", "keep" in listing(assembled(settings("none"))), False)


def with_flags(flags):
    """A job whose settings have this flags byte, which no text but raw may give."""
    payload = bytearray(paper.LENGTHS[paper.SETTINGS])
    payload[:2] = paper.BF16, flags
    return assembled(raw_field(paper.SETTINGS, bytes(payload)) + END)


def wrong_bits():
    """Flags of which bits 5 to 7 are not all 0."""
    for high, bits, are in (
        (0x20, "bit 5", "is"),
        (0x40, "bit 6", "is"),
        (0x60, "bits 5 to 6", "are"),
        (0x80, "bit 7", "is"),
        (0xA0, "bits 5, 7", "are"),
        (0xC0, "bits 6 to 7", "are"),
        (0xE0, "bits 5 to 7", "are"),
    ):
        wrong = []
        for flags in range(high, high + 32):
            data = with_flags(flags)
            why = f"{bits} of the flags, 0x{flags:02x}, {are} 1; bits 5 to 7 must be 0"
            text = listing(data, Answer(1, 0))
            told = f"# at 0, no right field: {why}\nraw 01 a0 00\nraw 02 {flags:02x} 00 " in text and "# ^^^ refused 1 at 0: " in text
            told = told and f"#     why: {why}\n#     do:  clear {bits} of the flags, the payload's second byte; " in text
            same = assembled(text) == data and assembled(listing(data)) == data
            wrong += [] if told and same and answer_of(data) == "refused 1 at 0" else [flags]
        yield equal(f"flags with {bits} 1", wrong, [])
    names = "bits 0 to 4 are fp32, int8, fp16a, keep=a, keep=b\n"
    yield has("the flags' names are said", listing(with_flags(255), Answer(1, 0)), names)
    yield equal("flags 31 are right", answer_of(with_flags(31)), "finished")


def listed():
    """What is said behind settings and clears."""
    one, other, both = "SrcA's bank", "SrcB's bank", "SrcA's and SrcB's banks"
    for keep, banks in zip(KEEPS[1:], (one, other, both)):
        text = listing(assembled(settings(keep)))
        yield has(f"keep={keep} is listed", text, f" keep={keep} base 0  ", f"32-bit Dst, clears keep {banks}\n")
    for text, note in (
        ("settings format bf16 keep=a", "BF16 Dst, clears keep SrcA's bank\n"),
        ("settings format fp16 keep=b", "32-bit Dst, multiplies are not modelled, clears keep SrcB's bank\n"),
        ("settings format bf16 keep=none", "at 0, BF16 Dst\n"),
        (settings("a") + "issue 0 MVMUL clear=a", f"0x26400000, clear keeps {one}\n"),
        (settings("a") + "issue 0 MVMUL clear=ab", f"0x26c00000, clear keeps {one}\n"),
        (settings("a") + "issue 0 MVMUL clear=b", "0x26800000\n"),
        (settings("ab") + "issue 0 SETRWC clear=ab", f"0x37c00000, clear keeps {both}\n"),
        (settings("ab") + "slot 1.2 a +16\nissue 1 CONV3S1 slot=2 clear=b", f", slot 1.2: a +16, clear keeps {other}\n"),
        (settings("ab") + "issue 0 GAPOOL", "0x34000000\n"),
        (settings("none") + "issue 0 SETRWC clear=ab", "0x37c00000\n"),
        ("issue 0 SETRWC clear=ab", "0x37c00000\n"),
    ):
        yield has(f"{text!r} is listed with {note!r}", listing(assembled(text)), note)


# ------------------------------------------------------------------------------------------ the rules


def each_clear():
    """Each instruction that clears, under each choice of switches, and a read of each file after it: of the bank that the
    pointer moved to, of the bank that was cleared, and of that bank handed over once more. A name, a text, the answer."""
    for name in CLEARING:
        for keep in KEEPS:
            start = f"{settings(keep)}{BOTH_SET}{HANDED}zero dst 0 8\nissue 0 {name} clear=ab\n"
            for letter, read in READS.items():
                kept = letter in keep
                who = f"{name} under keep={keep}, src{letter}"
                again = f"hand over src{letter}\n" * 2
                yield f"{who} after it", start + read + END, "refused 6 at 194"
                back = f"{start}issue 0 SETRWC clear={letter}\n{read}{END}"
                yield f"{who} after a second clear", back, "finished" if kept else "refused 6 at 202"
                back = f"{start}{again}issue 0 SETRWC clear={letter}\n{read}{END}"
                yield f"{who} handed over twice", back, "refused 6 at 198" if kept else "refused 8 at 210"


def single_jobs():
    """Names, texts and answers of jobs about one point each."""
    shift_a, shift_b = READS["a"], READS["b"]
    clear = "issue 0 SETRWC clear={}\n".format
    loaded = "load srca {}:\n16x 1*16\n".format
    given = settings("a") + BANKS  # places of what follows begin at 179
    for keep, answer in (("a", "finished"), ("none", "refused 8 at 1213")):
        text = settings(keep) + loaded(0) + clear("a") + "hand over srca\n" + clear("a")
        yield f"an unpackers' bank cleared under keep={keep}", text + shift_a + END, answer
    for name, text, answer in (
        ("an unpackers' bank stays the unpackers'", settings("a") + clear("a") + clear("a") + shift_a, "refused 6 at 179"),
        ("an unpackers' bank can be loaded", settings("ab") + clear("ab") + loaded(0) + "hand over srca\n", "finished"),
        ("a load into a kept bank", given + "hand over srca\n" + clear("a") + loaded(0), "refused 6 at 191"),
        ("a hand over of a kept bank", given + "hand over srca\n" + clear("a") + "hand over srca\n", "refused 6 at 191"),
        ("a load into the other bank", given + clear("a") + loaded(0) + "hand over srca\n" + shift_a, "finished"),
        ("three clears", given + clear("a") * 3 + shift_a, "refused 6 at 203"),
        ("four clears", given + clear("a") * 4 + shift_a, "finished"),
        ("only SrcA is kept", given + clear("ab") + "hand over srcb\n" + "load srcb 0:\n8x 1*16\n", "finished"),
        ("a kept bank's rows that were never set", settings("b") + HANDED + clear("b") * 2 + shift_b, "refused 8 at 187"),
        ("a bank with no rows set", settings("a") + loaded(0) + "hand over srca\n" * 2 + clear("a") + shift_a, "refused 8 at 1209"),
        ("ZEROSRC sets a kept bank", settings("b") + HANDED + clear("b") + BOTH_SET + clear("b") + shift_b, "finished"),
        ("rows that SHIFTXA set stay set", given + shift_a + clear("a") * 2 + shift_a, "finished"),
    ):
        yield name, text + END, answer


def switch_jobs():
    yield from each_clear()
    yield from single_jobs()


def judged():
    for name, text, answer in switch_jobs():
        data = assembled(text)
        yield equal(f"{name} is {answer}", answer_of(data), answer)
        yield equal(f"{name}, listed and assembled", assembled(listing(data)), data)


PARTS = (
    "hand over srca\n",
    "hand over srcb\n",
    "load srca 16:\n16x 1*16\n",
    "load srcb 0:\n8x 1*16\n",
    BOTH_SET,
    "issue 0 ZEROSRC files=ab banks=one\n",
    "issue 1 SETRWC which=ab a=0 b=8 clear={}\n",
    "issue 0 MVMUL dst=0 clear={}\n",
    "issue 1 GAPOOL dst=4 slot=1 clear={}\n",
    "issue 2 CONV3S2 slot=1 clear={}\n",
    *READS.values(),
)


def made_jobs():
    """Jobs of any fields that have to do with banks."""
    rng = random.Random(SEED)
    for _ in range(200):
        text = settings(rng.choice(KEEPS)) + "slot 1.1 a +16 b +8\nslot 2.1 a +16\nzero dst 0 8\n" + BANKS
        for _ in range(rng.randrange(2, 14)):
            text += rng.choice(PARTS).format(rng.choice(KEEPS))
        yield assembled(f"{text}output rows 0 8\n")


def made():
    answers = set()
    for n, data in enumerate(made_jobs()):
        fault = find_fault(data, split(data))
        text = listing(data, fault.answer() if fault else None)
        yield equal(f"made job {n}, listed and assembled", assembled(text), data)
        yield equal(f"made job {n} is explained", "why: " in text, fault is not None)
        answers.add(fault.refusal.number if fault else 0)
    yield equal("made jobs finish and are refused 6 and 8", sorted(answers), [0, 6, 8])


# ------------------------------------------------------------------------------------ what is said of it


def told():
    """Names, texts, refusals and what is said: behind why, and behind do."""
    clear = "issue 0 SETRWC clear={}\n".format
    usual = "load, zero or compute it in a field before this one"
    hand_over = "hand over srca before this instruction"
    missing = "bank {} of SrcA, at the matrix unit's pointer, is the unpackers'".format
    once = "with keep={} in the settings each bank of Src{} is handed over once, and no clear gives it back: "
    once += "load all that it shall hold before its hand over, or write keep={} instead"
    twice = BOTH_SET + HANDED + "hand over srca\nhand over srcb\n"  # the next place is 187
    owned = "bank 0 of Src{}, at the unpackers' pointer, is the matrix unit's".format
    load = "load src{} 0:\n1*16\n".format
    second_b = "hand over srcb\n" + clear("b")
    row_0 = "row 0 of bank 1 of SrcB is unset"
    for name, text, refusal, why, do in (
        (
            "a load into a kept bank",
            settings("a") + twice + clear("a") + load("a"),
            (6, 195),
            f"{owned('A')}; the clear at 187 kept it, as keep=a in the settings says",
            once.format("a", "A", "none"),
        ),
        (
            "a hand over of a kept bank",
            settings("ab") + twice + clear("ab") * 3 + "hand over srcb\n",
            (6, 211),
            f"{owned('B')}; the clear at 203 kept it, as keep=ab in the settings says",
            once.format("ab", "B", "a"),
        ),
        ("a load where nothing was cleared", settings("b") + twice + load("b"), (6, 187), owned("B"), once.format("b", "B", "none")),
        (
            "a load under the other file's switch",
            settings("b") + twice + clear("b") + load("a"),
            (6, 195),
            owned("A"),
            "give the bank back before with clear=a on an instruction that is done with it",
        ),
        (
            "a clear that moved on",
            settings("a") + BANKS + clear("a") + READS["a"],
            (6, 187),
            f"{missing(1)}; the clear at 179 kept bank 0 of SrcA and moved the pointer on",
            f"{hand_over}; or come back to bank 0 of SrcA with a second clear, such as SETRWC clear=a",
        ),
        (
            "clears that moved on in both files",
            settings("ab") + BANKS + clear("a") + clear("b") + "issue 0 CONV3S1",
            (6, 195),
            "bank 1 of SrcA and bank 1 of SrcB, at the matrix unit's pointer, are the unpackers'; the clear at 179 kept bank 0 "
            "of SrcA and moved the pointer on; the clear at 187 kept bank 0 of SrcB and moved the pointer on",
            "hand over srca and hand over srcb before this instruction; or come back to bank 0 of SrcA and bank 0 of SrcB with a "
            "second clear, such as SETRWC clear=ab",
        ),
        ("a clear before the hand over", settings("a") + clear("a") + BANKS + READS["a"], (6, 187), missing(1), hand_over),
        ("a clear of an unpackers' bank", settings("a") + BOTH_SET + clear("a") + READS["a"], (6, 179), missing(1), hand_over),
        ("two of them, switch off", settings("b") + BOTH_SET + clear("a") * 2 + READS["a"], (6, 187), missing(0), hand_over),
        ("a clear that moved on, switch off", settings("none") + BANKS + clear("a") + READS["a"], (6, 187), missing(1), hand_over),
        (
            "a bank that was given back",
            settings("b") + BANKS + clear("a") * 2 + READS["a"],
            (6, 195),
            f"{missing(0)}; the clear at 179 gave bank 0 of SrcA back",
            f"{hand_over}; or write keep=ab in the settings, so that a clear keeps the bank",
        ),
        (
            "unset rows beside a kept bank",
            settings("b") + BANKS + second_b + READS["b"],
            (8, 191),
            f"{row_0}; the clear at 183 kept bank 0 of SrcB and moved the pointer on",
            f"{usual}; or come back to bank 0 of SrcB with a second clear, such as SETRWC clear=b",
        ),
        (
            "unset rows for SHIFTXA beside a kept bank",
            settings("a") + BANKS + "hand over srca\n" + clear("a") + READS["a"],
            (8, 191),
            "rows 0 to 15 of bank 1 of SrcA are unset; the clear at 183 kept bank 0 of SrcA and moved the pointer on; "
            "the last SrcA row is 0, as at the start",
            f"{usual}; or come back to bank 0 of SrcA with a second clear, such as SETRWC clear=a",
        ),
        ("rows unset in both banks", settings("b") + HANDED + second_b + READS["b"], (8, 183), row_0, usual),
        ("unset rows, switch off", settings("none") + BANKS + second_b + READS["b"], (8, 191), row_0, usual),
    ):
        yield name, f"{text}\n{END}", Answer(*refusal), why, do


def explained():
    for name, text, answer, why, do in told():
        data = assembled(text)
        said = listing(data, answer)
        yield has(f"{name} is explained", said, f"# ^^^ {answer}: ", f"#     why: {why}\n#     do:  {do}\n")
        yield equal(f"{name} is judged so", answer_of(data), str(answer))
        yield equal(f"{name} explained assembles", assembled(said), data)


GROUPS = (written, wrong_bits, listed, judged, made, explained)
