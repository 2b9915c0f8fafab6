"""What each kind of instruction needs, reads and leaves behind, beside clear and slot."""

from typing import NamedTuple

from .instructions import COUNTERS, WHICH, Instruction, instruction_of
from .layout import A, B, BANK_ROWS, COLUMNS, DST_WRAP, SLOT_PARTS
from .record import Record
from .refusals import first_fault


class Issued(NamedTuple):
    """An instruction as it meets the record, with what the named bits of its word hold; none where the
    opcode is unknown."""

    record: Record
    instruction: Instruction
    thread: int
    word: int
    numbers: dict

    def counters(self):
        return self.record.counters[self.thread]

    def now(self, name):
        return self.counters().now[name]

    def effect(self):
        return EFFECTS[self.instruction.kind]

    def chosen(self, key):
        """The banks of the files whose bits are 1."""
        return [banks for banks in self.record.src if self.numbers.get(key, 0) >> banks.file & 1]

    def srca_row(self):
        return self.now("a") & 0x30

    def dst_terms(self):
        """What the first Dst row is the sum of."""
        settings = self.record.settings
        return {
            "dst": self.numbers["dst"],
            "math offset": settings.threads[self.thread].offset,
            "Dst counter": self.now("dst"),
            "base": settings.base,
        }

    def dst_rows(self):
        return self.effect().dst_rows(self)

    def dst_row(self):
        """The first of the Dst rows: the sum, wrapped and then lowered to a multiple of their count."""
        return sum(self.dst_terms().values()) & (DST_WRAP - self.dst_rows())


def issued_by(record, value):
    """The instruction of an issue field."""
    instruction = instruction_of(value.word)
    numbers = instruction.numbers(value.word) if instruction else {}
    return Issued(record, instruction, value.thread, value.word, numbers)


class Effect:
    """Nothing, where a kind does not say otherwise. `needs` are the files whose bank at the matrix
    unit's pointer it needs; `modelled_only` says that the settings must be modelled."""

    needs = ()
    modelled_only = False

    def dst_rows(self, issued):
        """The count of Dst rows it works on."""
        return 0

    def unset(self, issued):
        """The fault of reading what is unset, if it does."""
        return None

    def leave(self, issued):
        """Changes the record."""


class LeavesRow(Effect):
    """Needs both banks, and leaves the SrcA row that its counter gives behind as the last one."""

    needs = (A, B)

    def leave(self, issued):
        issued.record.last = issued.srca_row()
        issued.record.last_from = f"which {issued.instruction.name} left"


class Multiply(LeavesRow):
    modelled_only = True

    def __init__(self, rows):
        self.rows = rows

    def dst_rows(self, issued):
        return self.rows

    def unset(self, issued):
        record = issued.record
        return (
            record.src[A].unset(issued.srca_row(), COLUMNS)
            or record.src[B].unset(issued.now("b") & 0x38, self.rows)
            or record.unset_dst(issued.dst_row(), self.rows)
        )


class SetCounters(Effect):
    def leave(self, issued):
        for bit, (letter, part) in enumerate(zip(WHICH.words, SLOT_PARTS)):
            if issued.numbers["which"] >> bit & 1:
                issued.counters().set(part.name, issued.numbers.get(letter, 0))


class Increment(Effect):
    def leave(self, issued):
        for bits, part in zip(COUNTERS, SLOT_PARTS):
            issued.counters().add(part, issued.numbers[bits.key])


class Zero(Effect):
    def leave(self, issued):
        for banks in issued.chosen("files"):
            for rows in banks.rows if issued.numbers["banks"] else [banks.rows[banks.unpackers]]:
                rows.update(range(BANK_ROWS))


class ShiftA(Effect):
    needs = (A,)

    def unset(self, issued):
        record = issued.record
        fault = record.src[A].unset(record.last, COLUMNS)
        return fault and fault._replace(why=f"{fault.why}; the last SrcA row is {record.last}, {record.last_from}")

    def leave(self, issued):
        banks = issued.record.src[A]
        banks.rows[banks.matrix].update(range(COLUMNS))


class ShiftB(Effect):
    needs = (B,)

    def unset(self, issued):
        return issued.record.src[B].unset((issued.numbers["row"] + issued.now("b")) % BANK_ROWS, 1)


class Scalar(Effect):
    def unset(self, issued):
        keys = "A" if issued.numbers["constant"] else "AB"
        return first_fault(issued.record.unset_register(issued.thread, issued.numbers[key]) for key in keys)

    def leave(self, issued):
        issued.record.registers.add((issued.thread, issued.numbers["result"]))


EFFECTS = {
    "multiply": Multiply(8),
    "pool": Multiply(4),
    "legacy": LeavesRow(),
    "set": SetCounters(),
    "increment": Increment(),
    "zero": Zero(),
    "shift a": ShiftA(),
    "shift b": ShiftB(),
    "scalar": Scalar(),
    "nothing": Effect(),
}
