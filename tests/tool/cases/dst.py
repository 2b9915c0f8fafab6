"""The two kinds of Dst: their limits, their words, and the settings that make them."""

from jobtool.listing import listing
from jobtool.refusals import Answer

from . import paper
from .check import equal, has
from .made import BANKS, GOOD, NARROW, NARROW_KEPT, ROW, answer_of, assembled, multiply_job, raw_load, raw_output, raw_zero

BF16_WHEN = "format bf16 with fp32, int8 and fp16a off"


def limit_jobs():
    """Texts of jobs at the limits of Dst, with what they answer."""
    for settings, rows, bits in ((NARROW, 1024, 16), (NARROW_KEPT, 1024, 16), (GOOD, 512, 32), ("settings format tf32\n", 512, 32)):
        row = [0] * 15 + [(1 << bits) - 1]
        for text in (
            raw_load(rows - 1, row) + raw_output(rows - 1, 1),
            f"load dst {rows - 1}:\n{ROW}output rows {rows - 1} 1\n",
            raw_zero(0, rows) + raw_output(rows - 64, 64),
            raw_zero(rows - 1, 1) + raw_output(rows - 1, 1),
        ):
            yield settings + text, "finished"
        for text in (raw_load(rows, row), raw_zero(rows, 1), raw_zero(1, rows), raw_zero(0, rows + 1), raw_zero(0, 0)):
            yield settings + text + "zero dst 0 1\noutput rows 0 1\n", "refused 1 at 163"
        for text in (raw_output(rows, 1), raw_output(rows - 1, 2)):
            yield settings + text, "refused 1 at 163"


def counter_jobs():
    """Texts of jobs whose multiply begins at row 1016 by the base alone, and at row 0 with a Dst counter of 8, which
    only the instruction before it leaves; with what they answer."""
    for word, answer in (
        ("CLREXPHIST", "refused 7 at 194"),
        ("INCRWC d=7", "refused 7 at 194"),
        ("INCRWC d=8", "finished"),
        ("SETRWC which=d d=8", "finished"),
        ("SETRWC which=a d=8", "refused 7 at 194"),
        ("CONV3S1 slot=1", "finished"),
        ("SHIFTXB row=1 slot=1", "finished"),
        ("MVMUL dst=8 slot=1", "finished"),
        ("MVMUL slot=1", "refused 7 at 186"),
    ):
        settings = "settings format bf16 fp32 base 1016\nslot 0.1 dst +8\n"
        yield f"{settings}{BANKS}zero dst 0 8\nissue 0 {word}\nissue 0 MVMUL\noutput rows 0 1\n", answer


def edge_jobs():
    """Both, and texts of jobs that reach from one half of BF16 Dst into the other."""
    yield from limit_jobs()
    yield from counter_jobs()
    for text, answer in (
        ("load dst 500:\n24x 1.5*16\nzero dst 508 8\noutput rows 500 24\n", "finished"),
        (raw_load(0, [0] * 15 + [1 << 16]) + "output rows 0 1\n", "refused 1 at 163"),
        (raw_load(512, [1 << 31] + [0] * 15) + "output rows 512 1\n", "refused 1 at 163"),
        ("zero dst 512 8\noutput rows 0 8\n", "refused 8 at 170"),
        ("zero dst 0 512\noutput rows 511 2\n", "refused 8 at 170"),
        (BANKS + "zero dst 512 8\nissue 0 MVMUL dst=0\noutput rows 512 8\n", "refused 8 at 186"),
        (BANKS + "zero dst 512 8\nissue 0 MVMUL dst=512\noutput rows 512 8\n", "finished"),
        (BANKS + "zero dst 1020 4\nissue 0 GAPOOL dst=1023\noutput rows 1020 4\n", "finished"),
        (BANKS + "zero dst 0 8\nissue 0 MVMUL dst=1024\noutput rows 0 8\n", "finished"),
    ):
        yield NARROW + text, answer


def short(text):
    """The start and the end of a text, which tell it from others."""
    return repr(text if len(text) <= 110 else f"{text[:40]} .. {text[-60:]}")


def edges():
    for text, answer in edge_jobs():
        data = assembled(text)
        yield equal(f"{short(text)} is {answer}", answer_of(data), answer)
        yield equal(f"{short(text)} listed and assembled", assembled(listing(data)), data)


def multiplies():
    for form in range(14):
        for flags in range(32):
            wanted = "finished" if (form, flags & paper.KIND_FLAGS) in paper.MODELLED else "refused 5 at 186"
            yield equal(f"a multiply in {form} with flags {flags}", answer_of(multiply_job(form, flags)), wanted)
    for row in (512, 1016):
        for form in (paper.BF16, paper.TF32):
            yield equal(f"a multiply in {form} at row {row}", answer_of(multiply_job(form, 1, row)), "refused 7 at 186")
        yield equal(f"a multiply in BF16 Dst at row {row}", answer_of(multiply_job(paper.BF16, 0, row)), "finished")


def explained():
    """What is said about the two kinds of Dst."""
    large = assembled(NARROW + raw_load(600, [1 << 16] + [0] * 15) + "output rows 600 1\n")
    past_1023 = assembled(NARROW + raw_load(1024, [0] * 16) + "output rows 0 1\n")
    past_511 = assembled(GOOD + raw_load(600, [0] * 16) + "output rows 0 1\n")
    for name, data, refusal, parts in (
        ("a value", large, (1, 163), ("row 600, column 0: 0x10000 has more than the 16 bits of a BF16 Dst number", "below 2^16")),
        ("a row past 1023", past_1023, (1, 163), ("rows 1024 to 1024 leave BF16 Dst", "do:  stay within rows 0 to 1023")),
        ("a row past 511", past_511, (1, 163), ("rows 600 to 600 leave 32-bit Dst", "only BF16 Dst, " + BF16_WHEN)),
        ("int8", multiply_job(2, 2), (5, 186), ("why: int8 is on\n", "format bf16 or tf32 with fp32 alone on", BF16_WHEN)),
        ("tf32", multiply_job(6, 0), (5, 186), ("why: the format is tf32 with fp32 off\n", BF16_WHEN)),
        ("fp16", multiply_job(1, 5), (5, 186), ("why: the format is fp16 and fp16a is on\n", BF16_WHEN)),
        ("row 512", multiply_job(2, 1, 512), (7, 186), ("512 or more, in 32-bit Dst", "only BF16 Dst has rows past 511")),
        ("row 512 in BF16 Dst", multiply_job(2, 0, 512), (7, 186), ("in 32-bit Dst", "this file's answer is `finished`")),
    ):
        yield has(f"{name} is explained", listing(data, Answer(*refusal)), *parts)


def listed():
    for text, part in (
        (GOOD, "at 0, 32-bit Dst\n"),
        (NARROW, "at 0, BF16 Dst\n"),
        ("settings format tf32\n", "at 0, 32-bit Dst, multiplies are not modelled\n"),
        (NARROW + "load dst 1000:\n1.5 -3 0x8001 nan 0*12\n", "load dst 1000:".ljust(48) + "# at 163, BF16 Dst\n"),
        (NARROW + "load dst 1000:\n1.5 -3 0x8001 nan 0*12\n", "1.5     -3 0x8001    nan      0 "),
        (GOOD + "load dst 10:\n0x3fc00000*16\n", "  1.5*16  # row 10\n"),
    ):
        yield has(f"{text!r} is listed with {part!r}", listing(assembled(text)), part)


GROUPS = (edges, multiplies, explained, listed)
