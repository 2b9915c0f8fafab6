"""What one answer of the job program means for a job file."""

from .fields import ISSUE
from .instructions import OPCODE_LOW, instruction_of
from .refusals import UNNAMED, refusal_with
from .rules import find_fault
from .wrong import Wrong, span


def arrow_lines(data, pieces, answer):
    """The answer in words, as comment lines."""
    refusal = refusal_of(answer)
    if answer.place not in [piece.at for piece in pieces] + [0, len(data)]:
        raise Wrong(f"no field begins at {answer.place}{around(pieces, answer.place)}; is this the file that was run?")
    lines = [f"# ^^^ {answer}: {refusal.meaning}"]
    doubts = [bit_doubt(pieces, answer)] if refusal.has_bit else []
    fault = find_fault(data, pieces)
    # A line without its bit is taken too.
    if fault and answer in (fault.answer(), fault.answer()._replace(bit=None)):
        lines += [f"#     why: {fault.why}", f"#     do:  {fault.what_to_do()}"]
    else:
        lines.append(f"#     do:  {refusal.remedy}")
        if refusal.judged:
            own = fault.answer() if fault else "finished"
            doubts.append(f"by this tool's reading this file's answer is `{own}`; is it the file that was run?")
    return lines + [f"#     but: {doubt}" for doubt in doubts if doubt]


def refusal_of(answer):
    """The refusal of an answer, whose number and bit must be such as a refusal gives."""
    refusal = refusal_with(answer.number)
    if answer.bit is not None and not refusal.has_bit:
        raise Wrong(f"a refusal {answer.number} has no bit; only a refusal {UNNAMED.number} has one")
    if answer.bit is not None and answer.bit >= OPCODE_LOW:
        raise Wrong(f"{answer.bit} is no bit that a refusal gives; they are {span(range(OPCODE_LOW))}")
    return refusal


def around(pieces, place):
    inside = [piece.at for piece in pieces if piece.at < place < piece.end()]
    return f"; the field around it begins at {inside[0]}" if inside else ""


def bit_doubt(pieces, answer):
    """What speaks against the bit of an answer, by the word at its place alone; nothing where the bit is
    the lowest unnamed one that is 1."""
    bit = answer.bit
    if bit is None:
        return f"the line of a refusal {answer.number} ends with its bit; one without it is an older emulator's"
    word = next((piece.value.word for piece in pieces if piece.at == answer.place and piece.kind is ISSUE), None)
    if word is None:
        return f"no right issue field begins at {answer.place}"
    instruction = instruction_of(word)
    if instruction is None:
        return f"0x{word:08x} has an unknown opcode, and its bits do not count then"
    naming = instruction.naming(bit)
    if naming:
        return f"{instruction.name} names bit {bit}: {naming.place()}"
    if not word >> bit & 1:
        return f"bit {bit} of 0x{word:08x} is 0"
    lowest = instruction.unnamed(word)[0]
    return f"bit {lowest} of 0x{word:08x} is 1 and unnamed too, and the lowest counts" if lowest < bit else ""
