"""Examples, texts and fields that several groups of cases use."""

import struct
from pathlib import Path

from jobtool.fields import split
from jobtool.rules import find_fault
from jobtool.text import assemble
from jobtool.wrong import Wrong

from . import paper

ROOT = Path(__file__).resolve().parents[3]
TOOL = ROOT / "tools" / "job"
EXAMPLES = ROOT / "examples"
REFUSED = {**{f"refused_{n}": n for n in range(1, 9)}, "refused_1_bf16": 1, "refused_3_lowest": 3}
REFUSED.update(refused_6_kept=6, refused_8_shift=8)
NAMES = ("register", "mvmul", "tile_lofi", "tile_hifi4", "tile_bf16", "tile_fp32", "shift", "legacy_shift", "phases")
NAMES += ("keep_weights", *REFUSED)
SEED = 1

GOOD = "settings format bf16 fp32 base 0\n"
NARROW = "settings format bf16 base 0\n"
NARROW_KEPT = "settings format bf16 keep=ab base 0\n"
ROW = "0*16\n"
BANKS = "issue 0 ZEROSRC files=ab banks=one\nhand over srca\nhand over srcb\n"
GONE_10 = "10 is no number that a refusal gives; they are 1 to 9"


def read(name, ending):
    return (EXAMPLES / f"{name}.{ending}").read_bytes()


def assembled(text):
    """The bytes of a text, or the message about it; any other exception is a fault of the tool."""
    try:
        return assemble(text)
    except Wrong as wrong:
        return str(wrong)


def answer_of(data):
    """The tool's own answer to a job."""
    fault = find_fault(data, split(data))
    return str(fault.answer()) if fault else "finished"


def settings_text(form, flags):
    on = [flag for n, flag in enumerate(paper.FLAGS) if flags >> n & 1]
    kept = [letter for letter, bit in paper.SWITCHES.items() if flags >> bit & 1]
    keep = [f"keep={''.join(kept)}"] if kept else []
    return " ".join(["settings format", paper.FORMATS[form], *on, *keep]) + "\n"


def has_bf16_dst(form, flags):
    return (form, flags & paper.KIND_FLAGS) == (paper.BF16, 0)


def multiply_job(form, flags, row=0):
    """One MVMUL under a format and flags, in rows that are zeroed where they are inside Dst."""
    rows = 1024 if has_bf16_dst(form, flags) else 512
    text = f"zero dst 0 {rows}\nissue 0 MVMUL dst={row}\noutput rows {min(row, rows - 8)} 8\n"
    return assembled(settings_text(form, flags) + BANKS + text)


def field(tag, payload):
    return struct.pack("<BH", tag, len(payload)) + payload


def raw_field(tag, payload):
    return f"raw {field(tag, payload).hex(' ')}\n"


def raw_load(first, numbers):
    return raw_field(paper.LOAD_ROWS, struct.pack("<BH16I", paper.FILE_DST, first, *numbers))


def raw_zero(first, count):
    return raw_field(paper.ZERO_ROWS, struct.pack("<HH", first, count))


def raw_output(first, count):
    return raw_field(paper.OUTPUT_ROWS, struct.pack("<HB", first, count))
