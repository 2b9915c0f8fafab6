"""The control record and the marks, as the fields so far leave them."""

from .instructions import CLEAR
from .layout import A, B, BANKS, PROPER, SLOT_PARTS, THREADS
from .refusals import UNSET, Fault
from .wrong import span


class Counters:
    """One thread's counters, each with its carry but for the phase."""

    def __init__(self):
        self.now = {part.name: 0 for part in SLOT_PARTS}
        self.carry = {part.name: 0 for part in SLOT_PARTS if "carry" in part.flags}

    def set(self, name, number):
        self.now[name] = number
        if name in self.carry:
            self.carry[name] = number

    def add(self, part, step):
        self.now[part.name] = (self.now[part.name] + step) % part.size

    def follow(self, slot):
        """What a slot does."""
        for part in SLOT_PARTS:
            name, step, on = part.name, getattr(slot, part.name), part.on(slot.flags)
            if "clear" in on:
                self.set(name, 0)
            elif "copy" in on:
                self.set(name, (self.now[name] + step) % part.size)
            elif "carry" in on:
                self.set(name, (self.carry[name] + step) % part.size)
            else:
                self.add(part, step)


class Banks:
    """The banks of SrcA or SrcB: which are the matrix unit's, both pointers, the set rows of each; whether
    clears keep them, and the place of the last clear that met each as the matrix unit's."""

    def __init__(self, file):
        self.file = file
        self.owned = [False] * BANKS
        self.matrix = self.unpackers = 0
        self.rows = [set() for _ in range(BANKS)]
        self.keep = False
        self.cleared = [None] * BANKS

    def place(self, bank):
        return f"bank {bank} of {PROPER[self.file]}"

    def letter(self):
        return CLEAR.words[self.file]

    def hand_over(self):
        self.owned[self.unpackers] = True
        self.unpackers ^= 1

    def clear(self, at):
        """What a clear by the field at a place does."""
        if self.owned[self.matrix]:
            self.cleared[self.matrix] = at
        if not self.keep:
            self.owned[self.matrix] = False
            self.rows[self.matrix].clear()
        self.matrix ^= 1

    def kept(self):
        """The matrix unit's bank that the last clear kept and moved on from, or None."""
        other = self.matrix ^ 1
        return other if self.keep and self.cleared[other] is not None else None

    def unset(self, first, count):
        """The fault of reading rows at the matrix unit's pointer, if any is unset."""
        fault = unset_rows(self.place(self.matrix), first, count, self.rows[self.matrix])
        kept = self.kept()
        # The way back is only told where it leads to set rows.
        if fault is None or kept is None or unset_rows("", first, count, self.rows[kept]):
            return fault
        return fault._replace(why=fault.why + self.last_clear(), remedy=fault.what_to_do() + way_back([self]))

    def given_back(self):
        """Whether the bank at the matrix unit's pointer, now the unpackers', was the matrix unit's until a clear."""
        return self.cleared[self.matrix] is not None

    def last_clear(self):
        """Behind a reason that the bank at the matrix unit's pointer will not do: the clear that has a part in it, if one has."""
        kept = self.kept()
        if kept is not None:
            return f"; the clear at {self.cleared[kept]} kept {self.place(kept)} and moved the pointer on"
        if self.given_back():
            return f"; the clear at {self.cleared[self.matrix]} gave {self.place(self.matrix)} back"
        return ""


def way_back(files):
    """Behind a remedy: how to come back to banks of these files that clears kept, if there are any."""
    files = [banks for banks in files if banks.kept() is not None]
    if not files:
        return ""
    places = " and ".join(banks.place(banks.kept()) for banks in files)
    return f"; or come back to {places} with a second clear, such as SETRWC clear={''.join(banks.letter() for banks in files)}"


class Record:
    def __init__(self):
        # The place of the field that acts.
        self.at = 0
        self.settings = None
        self.counters = [Counters() for _ in range(THREADS)]
        self.src = [Banks(file) for file in (A, B)]
        # The last SrcA row, and where it is from.
        self.last, self.last_from = 0, "as at the start"
        # The Dst rows and the (thread, register) pairs that are set.
        self.dst, self.registers = set(), set()

    def unset_dst(self, first, count):
        return unset_rows("Dst", first, count, self.dst)

    def unset_register(self, thread, register):
        if (thread, register) in self.registers:
            return None
        return Fault(UNSET, f"register {register} of thread {thread} is unset")


def unset_rows(name, first, count, set_rows):
    """The fault of reading rows of which some are unset, if any is."""
    rows = [row for row in range(first, first + count) if row not in set_rows]
    if not rows:
        return None
    one = len(rows) == 1
    return Fault(UNSET, f"{'row' if one else 'rows'} {span(rows)} of {name} {'is' if one else 'are'} unset")
