"""The kinds of field, each once: tag, name, payload to and from bytes. A job file as pieces."""

import struct
from collections import namedtuple
from typing import NamedTuple

from .layout import BASE, EXTRA, FIDELITY, FILE, FLAG_BITS, FORMAT, OFFSET, REGISTER, SRC_FILE, THREAD, VALUE
from .layout import COLUMNS, DST, KEEP, MOST_ROWS, NO_SETTINGS_FILES, SLOT_PARTS, SLOTS, THREADS
from .layout import files_of, row_counts, slot_name, thread_name, unmodelled
from .wrong import Wrong, span


class Packed:
    """Numbers that stand one after another in a file: their codes for struct, and by name the range of
    each; None where any number may stand or where a rule of the field's kind decides."""

    def __init__(self, codes, **ranges):
        self.struct = struct.Struct("<" + codes)
        self.size = self.struct.size
        self.ranges = ranges
        self.make = namedtuple("Numbers", ranges)

    def read(self, data, at=0, where=""):
        numbers = self.make(*self.struct.unpack_from(data, at))
        for allowed, number in zip(self.ranges.values(), numbers):
            if allowed:
                allowed.check(number, where)
        return numbers

    def write(self, numbers):
        return self.struct.pack(*numbers)


class Kind:
    """A kind of field whose payload is a few numbers."""

    def __init__(self, tag, name, codes, **ranges):
        self.tag, self.name, self.packed = tag, name, Packed(codes, **ranges)
        self.length = self.packed.size

    def check_length(self, length):
        if length != self.length:
            raise Wrong(f"{self.name} has the length {length}; it is {self.length}")

    def read(self, payload, files):
        """The value of a payload of the right length, under the files that the settings give."""
        return self.packed.read(payload)

    def payload(self, value):
        return self.packed.write(value)

    def field(self, value):
        """The bytes of a whole field."""
        payload = self.payload(value)
        return HEADER.write((self.tag, len(payload))) + payload


class DstRows(Kind):
    """A kind of field for rows of Dst, so many at most in one, or all of them."""

    def __init__(self, tag, name, codes, most=None):
        super().__init__(tag, name, codes, first=None, count=None)
        self.most = most

    def most_in(self, dst):
        return self.most or dst.rows

    def read(self, payload, files):
        value, dst = self.packed.read(payload), files[DST]
        dst.check_rows(*value, self.most_in(dst))
        return value


class Rows(NamedTuple):
    file: int
    first: int
    numbers: tuple

    def rows(self):
        return range(self.first, self.first + len(self.numbers) // COLUMNS)


class LoadRows(Kind):
    """A file, a first row and the numbers of the rows."""

    ROW_SIZE = 4 * COLUMNS

    def __init__(self, tag, name):
        super().__init__(tag, name, "BH", file=FILE, first=None)

    def check_length(self, length):
        rows, rest = divmod(length - self.packed.size, self.ROW_SIZE)
        if rest or not 1 <= rows <= MOST_ROWS:
            form = f"{self.packed.size} + {self.ROW_SIZE} for each of {row_counts()} rows"
            raise Wrong(f"{self.name} has the length {length}; it is {form}")

    def read(self, payload, files):
        head = self.packed.read(payload)
        numbers = payload[self.packed.size :]
        value = Rows(*head, struct.unpack(f"<{len(numbers) // 4}I", numbers))
        file = files[value.file]
        file.check_rows(value.first, len(value.rows()))
        for n, number in enumerate(value.numbers):
            row, column = divmod(n, COLUMNS)
            file.check_bits(number, f"row {value.first + row}, column {column}: {number:#x}")
        return value

    def payload(self, value):
        return self.packed.write(value[:2]) + struct.pack(f"<{len(value.numbers)}I", *value.numbers)


class Thread(NamedTuple):
    offset: int
    fidelity: int
    extra: int
    slots: tuple

    def slot_number(self, bits):
        """The slot that two bits of a word choose."""
        return bits + 4 * self.extra


class Settings(NamedTuple):
    format: int
    flags: int
    base: int
    threads: tuple

    def files(self):
        return files_of(self.format, self.flags)

    def unmodelled(self):
        return unmodelled(self.format, self.flags)

    def keeps(self):
        """The files whose banks clears keep, a bit for each."""
        return KEEP.get(self.flags)


class SettingsKind(Kind):
    """Format, flags and base, then each thread's numbers and slots."""

    PER_THREAD = Packed("HBB", offset=OFFSET, fidelity=FIDELITY, extra=EXTRA)
    PER_SLOT = Packed("BBHBB", **{part.name: part.step() for part in SLOT_PARTS}, flags=None)
    THREAD_SIZE = PER_THREAD.size + SLOTS * PER_SLOT.size

    def __init__(self, tag, name):
        super().__init__(tag, name, "BBH", format=FORMAT, flags=FLAG_BITS, base=BASE)
        self.length += THREADS * self.THREAD_SIZE

    def read(self, payload, files):
        head = self.packed.read(payload)
        return Settings(*head, tuple(self.read_thread(payload, t) for t in range(THREADS)))

    def read_thread(self, payload, t):
        at = self.packed.size + t * self.THREAD_SIZE
        numbers = self.PER_THREAD.read(payload, at, f"{thread_name(t)}: ")
        at += self.PER_THREAD.size
        slots = (self.PER_SLOT.read(payload, at + s * self.PER_SLOT.size, f"{slot_name(t, s)}: ") for s in range(SLOTS))
        return Thread(*numbers, tuple(slots))

    def payload(self, value):
        data = self.packed.write(value[:3])
        for thread in value.threads:
            data += self.PER_THREAD.write(thread[:3]) + b"".join(self.PER_SLOT.write(slot) for slot in thread.slots)
        return data


HEADER = Packed("BH", tag=None, length=None)
SETTINGS = SettingsKind(1, "settings")
LOAD_ROWS = LoadRows(2, "load rows")
LOAD_REGISTER = Kind(3, "load register", "BBI", thread=THREAD, register=REGISTER, value=VALUE)
HAND_OVER = Kind(4, "hand over", "B", file=SRC_FILE)
ISSUE = Kind(5, "issue", "BI", thread=THREAD, word=None)
OUTPUT_ROWS = DstRows(6, "output rows", "HB", MOST_ROWS)
OUTPUT_REGISTER = Kind(7, "output register", "BB", thread=THREAD, register=REGISTER)
ZERO_ROWS = DstRows(8, "zero Dst rows", "HH")

KINDS = (SETTINGS, LOAD_ROWS, LOAD_REGISTER, HAND_OVER, ISSUE, OUTPUT_ROWS, OUTPUT_REGISTER, ZERO_ROWS)
BY_TAG = {kind.tag: kind for kind in KINDS}
OUTPUTS = (OUTPUT_ROWS, OUTPUT_REGISTER)


class Piece(NamedTuple):
    """A part of a job file: a right field with its kind and value, or bytes, what is wrong with them
    and a remedy of its own or none. `settings` are the right ones that stand last above it, if any."""

    at: int
    data: bytes
    settings: object
    kind: object = None
    value: object = None
    wrong: str = ""
    remedy: str = ""

    def end(self):
        return self.at + len(self.data)

    def files(self):
        return self.settings.files() if self.settings else NO_SETTINGS_FILES


def piece_at(data, at, settings):
    """The field that begins at a place; one that the end cuts off takes the rest of the file."""
    if len(data) - at < HEADER.size:
        return Piece(at, data[at:], settings, wrong="its header of three bytes is cut off")
    tag, length = HEADER.read(data, at)
    end = at + HEADER.size + length
    piece = Piece(at, data[at:end], settings)
    payload = piece.data[HEADER.size :]
    try:
        if tag not in BY_TAG:
            raise Wrong(f"its tag is {tag}; tags are {span(BY_TAG)}")
        if len(payload) < length:
            raise Wrong(f"its payload is cut off: {length} bytes are announced, {len(payload)} are there")
        kind = BY_TAG[tag]
        kind.check_length(length)
        return piece._replace(kind=kind, value=kind.read(payload, piece.files()))
    except Wrong as wrong:
        return piece._replace(wrong=str(wrong), remedy=wrong.remedy)


def split(data):
    """A job file as pieces that lie end to end, whatever its bytes."""
    pieces, at, settings = [], 0, None
    while at < len(data):
        piece = piece_at(data, at, settings)
        if piece.kind is SETTINGS:
            settings = piece.value
        pieces.append(piece)
        at = piece.end()
    return pieces
