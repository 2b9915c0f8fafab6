"""The refusal that a job meets: its shape first, then each field on the record that the fields before
it leave. Whether a job runs is for the job program to say; these rules find the words for its answer."""

from . import fields, refusals
from .effects import issued_by
from .instructions import OPCODE_LOW
from .layout import DST, FILES, JOB_LIMIT, KEEP, PROPER
from .record import Record, way_back
from .refusals import Fault, first_fault
from .words import field_text
from .wrong import bits_span


def shape_fault(pieces, length):
    """The first wrong place of a job's shape, or None where it is right."""

    def wrong(place, why, remedy):
        return Fault(refusals.SHAPE, why, remedy, place)

    if length > JOB_LIMIT:
        return wrong(0, f"the job has {length} bytes; at most {JOB_LIMIT} are allowed", "make two jobs of it")
    outputs = False
    for piece in pieces:
        if piece.wrong:
            return wrong(piece.at, piece.wrong, piece.remedy)
        if (piece.kind is fields.SETTINGS) != (piece.at == 0):
            return wrong(piece.at, "settings come first and once", "begin the job with the settings, and give them once")
        if outputs and piece.kind not in fields.OUTPUTS:
            return wrong(piece.at, "an output stands before it", "move this field before the first output; outputs come last")
        outputs = outputs or piece.kind in fields.OUTPUTS
    if outputs:
        return None
    why = "no output stands" if length else "the job is empty"
    return wrong(length, why, "end the job with output rows or output register")


# ----------------------------------------------------------------- the rules for an issued instruction


def unknown_opcode(issued):
    if issued.instruction:
        return None
    word = issued.word
    return Fault(refusals.OPCODE, f"0x{word >> OPCODE_LOW:02x}, the top eight bits of 0x{word:08x}, is no opcode of the table")


def unnamed_bits(issued):
    word, instruction = issued.word, issued.instruction
    unnamed = instruction.unnamed(word)
    if not unnamed:
        return None
    lowest, *others = unnamed
    why = f"bit {lowest} of 0x{word:08x} is 1, and {instruction.name} names {named_bits(instruction, lowest)}"
    remedy = f"clear bit {lowest}"
    if others:
        remedy += f", and {bits_span(others)}, which would be refused next"
    return Fault(refusals.UNNAMED, why, remedy, bit=lowest)


def named_bits(instruction, bit):
    """What a row names, and what of it is nearest to a bit that it does not name."""
    if not instruction.bits:
        return "no bits"
    named = ", ".join(bits.place() for bits in sorted(instruction.bits, key=lambda bits: -bits.low))
    near = []
    for bits in instruction.nearest(bit):
        above = bits.above(bit)
        far = "one bit" if abs(above) == 1 else f"{abs(above)} bits"
        near.append(f"{bits.place()}, {far} {'above' if above > 0 else 'below'}")
    return f"only {named}; nearest {'is' if len(near) == 1 else 'are'} {', and '.join(near)}"


def undefined_mode(issued):
    bits = issued.instruction.undefined(issued.word)
    if not bits:
        return None
    defined = ", ".join(f"{number} {text}".strip() for number, text in bits.modes.items())
    return Fault(refusals.MODE, f"the {bits.key} is {bits.get(issued.word)}; {issued.instruction.name} defines {defined}")


def unmodelled_settings(issued):
    why = issued.effect().modelled_only and issued.record.settings.unmodelled()
    return Fault(refusals.SETTINGS, why) if why else None


def switches(record, turned=()):
    """The switches in the settings, such as `keep=a`, with those of some files turned over."""
    return field_text(KEEP, record.settings.flags ^ sum(1 << banks.file << KEEP.low for banks in turned))


def matrix_needs(issued):
    needed = [issued.record.src[file] for file in issued.effect().needs]
    missing = [banks for banks in needed if not banks.owned[banks.matrix]]
    if not missing:
        return None
    places = " and ".join(banks.place(banks.matrix) for banks in missing)
    why = f"{places}, at the matrix unit's pointer, {'is' if len(missing) == 1 else 'are'} the unpackers'"
    remedy = " and ".join(f"hand over {FILES[banks.file]}" for banks in missing) + " before this instruction"
    given = [banks for banks in missing if banks.given_back()]
    if given:
        remedy += f"; or write {switches(issued.record, given)} in the settings, so that a clear keeps the bank"
    return Fault(refusals.OWNER, why + "".join(banks.last_clear() for banks in missing), remedy + way_back(missing))


def dst_too_high(issued):
    if not issued.dst_rows() or issued.dst_row() < issued.record.settings.files()[DST].rows:
        return None
    terms = " + ".join(f"{name} {number}" for name, number in issued.dst_terms().items())
    return Fault(refusals.DST_ROW, f"{terms} gives row {issued.dst_row()}")


def unset_read(issued):
    return issued.effect().unset(issued)


# In the order in which they are judged: the first that is broken counts.
WORD_RULES = (unknown_opcode, unnamed_bits, undefined_mode, unmodelled_settings, matrix_needs, dst_too_high, unset_read)


# ---------------------------------------------------- what a field may break, and what it leaves behind


def judge_issue(record, value):
    issued = issued_by(record, value)
    return first_fault(rule(issued) for rule in WORD_RULES)


def follow_issue(record, value):
    issued = issued_by(record, value)
    issued.effect().leave(issued)
    for banks in issued.chosen("clear"):
        banks.clear(record.at)
    if "slot" in issued.numbers:
        thread = record.settings.threads[value.thread]
        issued.counters().follow(thread.slots[thread.slot_number(issued.numbers["slot"])])


def judge_unpackers(record, value):
    """A load into SrcA or SrcB and a hand over need the bank at the unpackers' pointer."""
    if value.file == DST:
        return None
    banks = record.src[value.file]
    if not banks.owned[banks.unpackers]:
        return None
    why = f"{banks.place(banks.unpackers)}, at the unpackers' pointer, is the matrix unit's"
    if not banks.keep:
        remedy = f"give the bank back before with clear={banks.letter()} on an instruction that is done with it"
        return Fault(refusals.OWNER, why, remedy)
    cleared = banks.cleared[banks.unpackers]
    if cleared is not None:
        why += f"; the clear at {cleared} kept it, as {switches(record)} in the settings says"
    remedy = (
        f"with {switches(record)} in the settings each bank of {PROPER[banks.file]} is handed over once, and no clear gives it back: "
        f"load all that it shall hold before its hand over, or write {switches(record, [banks])} instead"
    )
    return Fault(refusals.OWNER, why, remedy)


def follow_settings(record, value):
    record.settings = value
    for banks in record.src:
        banks.keep = bool(value.keeps() >> banks.file & 1)


def follow_load(record, value):
    if value.file == DST:
        record.dst.update(value.rows())
    else:
        banks = record.src[value.file]
        banks.rows[banks.unpackers].update(value.rows())


JUDGES = {
    fields.LOAD_ROWS: judge_unpackers,
    fields.HAND_OVER: judge_unpackers,
    fields.ISSUE: judge_issue,
    fields.OUTPUT_ROWS: lambda record, value: record.unset_dst(value.first, value.count),
    fields.OUTPUT_REGISTER: lambda record, value: record.unset_register(value.thread, value.register),
}
FOLLOWERS = {
    fields.SETTINGS: follow_settings,
    fields.LOAD_ROWS: follow_load,
    fields.LOAD_REGISTER: lambda record, value: record.registers.add((value.thread, value.register)),
    fields.HAND_OVER: lambda record, value: record.src[value.file].hand_over(),
    fields.ISSUE: follow_issue,
    fields.ZERO_ROWS: lambda record, value: record.dst.update(range(value.first, value.first + value.count)),
}


def find_fault(data, pieces):
    """The refusal that a job file meets, or None where it finishes."""
    fault = shape_fault(pieces, len(data))
    if fault:
        return fault
    record = Record()
    for piece in pieces:
        record.at = piece.at
        fault = JUDGES[piece.kind](record, piece.value) if piece.kind in JUDGES else None
        if fault:
            return fault._replace(place=piece.at)
        if piece.kind in FOLLOWERS:
            FOLLOWERS[piece.kind](record, piece.value)
    return None
