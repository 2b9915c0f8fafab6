"""A job file as text that assembles to the same bytes."""

from . import fields
from .cells import row_texts
from .explaining import arrow_lines
from .instructions import CLEAR, instruction_of
from .layout import DST, FILES, JOB_LIMIT, PROPER, slot_name
from .refusals import BY_NUMBER
from .rules import shape_fault
from .settings import settings_text, slot_text, thread_lines
from .words import word_text


def kept_note(verb, settings, cleared):
    """Of the files that are cleared, a bit for each: whose banks a clear keeps under the settings."""
    names = [f"{name}'s" for file, name in enumerate(PROPER) if (settings.keeps() & cleared) >> file & 1]
    return f", {verb} {' and '.join(names)} {'bank' if len(names) == 1 else 'banks'}" if names else ""


def settings_note(piece):
    note = f", {piece.value.files()[DST].name}"
    if piece.value.unmodelled():
        note += ", multiplies are not modelled"
    return note + kept_note("clears keep", piece.value, CLEAR.most())


def load_note(piece):
    return f", {piece.files()[piece.value.file].name}"


def row_lines(piece):
    file, first, numbers = piece.value
    lines = []
    for text, count in row_texts(numbers, piece.files()[file]):
        if count == 1:
            lines.append(f"  {text}  # row {first}")
        else:
            lines.append(f"  {count}x {text}  # rows {first} to {first + count - 1}")
        first += count
    return lines


def register_text(value):
    number = str(value.value) if value.value < 65536 else f"0x{value.value:08x}"
    return f"load register {value.thread}/{value.register} {number}"


def issue_note(piece):
    """What a word's text does not say by itself: the word, the effects of slot and clear, why it is bare."""
    word, instruction = piece.value.word, instruction_of(piece.value.word)
    if instruction is None:
        return ", unknown opcode"
    unnamed = instruction.unnamed(word)
    if unnamed:
        bits = "bit" if len(unnamed) == 1 else "bits"
        return f", {instruction.name} with unnamed {bits} {' '.join(map(str, unnamed))}"
    note, numbers = f", 0x{word:08x}", instruction.numbers(word)
    if instruction.is_scalar() and not instruction.undefined(word):
        _, mode, result, a, b = word_text(word).split()
        note += f", {result} = {a} {mode} {b}"
    elif "slot" in numbers and piece.settings:
        thread = piece.settings.threads[piece.value.thread]
        number = thread.slot_number(numbers["slot"])
        effect = slot_text(thread.slots[number])
        note += f", {slot_name(piece.value.thread, number)}: {effect}" if effect else ""
    return note + kept_note("clear keeps", piece.settings, numbers.get("clear", 0)) if piece.settings else note


# The line of each kind of field; what its comment says beside the offset; the lines below it.
TEXTS = {
    fields.SETTINGS: settings_text,
    fields.LOAD_ROWS: lambda value: f"load {FILES[value.file]} {value.first}:",
    fields.LOAD_REGISTER: register_text,
    fields.HAND_OVER: lambda value: f"hand over {FILES[value.file]}",
    fields.ISSUE: lambda value: f"issue {value.thread} {word_text(value.word)}",
    fields.OUTPUT_ROWS: lambda value: f"output rows {value.first} {value.count}",
    fields.OUTPUT_REGISTER: lambda value: f"output register {value.thread}/{value.register}",
    fields.ZERO_ROWS: lambda value: f"zero dst {value.first} {value.count}",
}
NOTES = {fields.SETTINGS: settings_note, fields.LOAD_ROWS: load_note, fields.ISSUE: issue_note}
BELOW = {fields.SETTINGS: lambda piece: thread_lines(piece.value), fields.LOAD_ROWS: row_lines}


def raw_lines(piece):
    """The bytes of what is no right field: the header on a line of its own."""
    data, head = piece.data, fields.HEADER.size
    rows = [data[:head]] + [data[at : at + 16] for at in range(head, len(data), 16)]
    return [f"# at {piece.at}, no right field: {piece.wrong}"] + [f"raw {row.hex(' ')}" for row in rows]


def piece_lines(piece):
    if piece.wrong:
        return raw_lines(piece)
    kind = piece.kind
    note = NOTES[kind](piece) if kind in NOTES else ""
    line = f"{TEXTS[kind](piece.value):<46}  # at {piece.at}{note}"
    return [line] + (BELOW[kind](piece) if kind in BELOW else [])


def listing(data, answer=None):
    """The text of a job file. An answer that refuses it is explained below the field at its place, or
    above all fields where it concerns the whole job."""
    pieces, lines, arrows = fields.split(data), [], {}
    if answer:
        arrow = arrow_lines(data, pieces, answer)
        if len(data) > JOB_LIMIT or not BY_NUMBER[answer.number].judged:
            lines = arrow
        else:
            arrows[answer.place] = arrow
    for piece in pieces:
        lines += piece_lines(piece) + arrows.get(piece.at, [])
    lines += arrows.get(len(data), [])
    fault = shape_fault(pieces, len(data))
    lines.append(f"# {len(data)} bytes, " + (f"shape wrong at {fault.place}: {fault.why}" if fault else "shape right"))
    return "\n".join(lines) + "\n"
