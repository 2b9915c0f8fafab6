"""Text to a job file, line by line."""

import re

from . import fields
from .cells import row_numbers
from .layout import COLUMNS, DST, FILES, NO_SETTINGS_FILES, PROPER, REGISTER, THREAD, VALUE, files_of, row_counts
from .settings import OpenSettings, settings_head, slot_of, thread_of
from .words import word_of
from .wrong import Wrong, did_you_mean, printable

LOAD_FORM = f"load srca 0: (or srcb, dst) with rows of {COLUMNS} values below, or load register 0/1 12"


def thread_register(text):
    thread, slash, register = text.partition("/")
    if not slash:
        raise Wrong(f"{text}: give thread and register as 0/12")
    return THREAD.read(thread), REGISTER.read(register)


class OpenLoad:
    """A load whose rows are being read, into a file given by its number and as it is under the
    settings above."""

    def __init__(self, line, number, file, first):
        self.line, self.number, self.file, self.first, self.numbers = line, number, file, first, []

    def add(self, words):
        """Adds a row; `8x` before it repeats it."""
        count = 1
        if re.fullmatch(r"[0-9]{1,2}x", words[0]):
            count = row_counts().read(words[0][:-1])
            words = words[1:]
        self.file.check_rows(self.first, len(self.numbers) // COLUMNS + count)
        self.numbers += row_numbers(words, self.file) * count

    def field(self):
        if not self.numbers:
            raise Wrong(f"a load needs {row_counts()} rows of {COLUMNS} values on the lines below it", self.line)
        return fields.LOAD_ROWS.field(fields.Rows(self.number, self.first, self.numbers))


class Assembler:
    """Takes a text line by line. Lines for threads and slots fill in the settings above them, rows
    of values the load above them; a line of another kind ends both."""

    ROW = re.compile(r"[0-9+.-]|(inf|nan)\b", re.ASCII)

    def __init__(self):
        self.job = bytearray()
        # The settings read last say what a readable number is, and how many rows and bits Dst has.
        self.files = NO_SETTINGS_FILES
        # The settings or the load that lines below may still fill in.
        self.open = None
        self.line = 0

    def take(self, line):
        self.line += 1
        words = line.split("#", 1)[0].lower().split()
        if not words:
            return
        verb = words[0]
        if self.ROW.match(verb):
            if not isinstance(self.open, OpenLoad):
                raise Wrong("a row of values stands only below a load")
            self.open.add(words)
        elif verb not in self.VERBS:
            raise Wrong(f"{verb} begins no line" + did_you_mean(verb, self.VERBS))
        else:
            if verb not in ("thread", "slot"):
                self.finish()
            self.VERBS[verb](self, words[1:])

    def finish(self):
        """Ends the settings or the load that is open."""
        if self.open:
            self.job += self.open.field()
        self.open = None

    def fill_in(self, name, numbers):
        if not isinstance(self.open, OpenSettings):
            raise Wrong(f"{name} stands only below settings")
        self.open.fill_in(name, numbers)

    def take_settings(self, words):
        head = settings_head(words)
        self.files = files_of(*head[:2])
        self.open = OpenSettings(head)

    def take_thread(self, words):
        self.fill_in(*thread_of(words))

    def take_slot(self, words):
        self.fill_in(*slot_of(words))

    def take_load(self, words):
        if words[:1] == ["register"] and len(words) == 3:
            value = VALUE.read(words[2])
            self.job += fields.LOAD_REGISTER.field((*thread_register(words[1]), value))
        elif len(words) == 2 and words[0] in FILES and words[1].endswith(":"):
            number = FILES.index(words[0])
            file = self.files[number]
            self.open = OpenLoad(self.line, number, file, file.first_row().read(words[1][:-1]))
        else:
            raise Wrong(f"write {LOAD_FORM}")

    def take_hand_over(self, words):
        if len(words) != 2 or words[0] != "over" or words[1] not in FILES[: len(PROPER)]:
            raise Wrong("write hand over srca, or hand over srcb")
        self.job += fields.HAND_OVER.field([FILES.index(words[1])])

    def take_issue(self, words):
        if len(words) < 2:
            raise Wrong("write issue THREAD and an instruction, such as issue 0 MVMUL dst=0 slot=0, or issue 0 0x5b883141")
        self.job += fields.ISSUE.field((THREAD.read(words[0]), word_of(words[1:])))

    def take_output(self, words):
        if len(words) == 2 and words[0] == "register":
            self.job += fields.OUTPUT_REGISTER.field(thread_register(words[1]))
        elif len(words) == 3 and words[0] == "rows":
            self.put_rows(fields.OUTPUT_ROWS, *words[1:])
        else:
            raise Wrong("write output rows FIRST COUNT, such as output rows 0 8, or output register 0/3")

    def take_zero(self, words):
        if len(words) != 3 or words[0] != "dst":
            raise Wrong("write zero dst FIRST COUNT, such as zero dst 0 512")
        self.put_rows(fields.ZERO_ROWS, *words[1:])

    def put_rows(self, kind, first, count):
        """A field for rows of Dst."""
        dst = self.files[DST]
        most = kind.most_in(dst)
        rows = dst.first_row().read(first), row_counts(most).read(count)
        dst.check_rows(*rows, most)
        self.job += kind.field(rows)

    def take_raw(self, words):
        if not words:
            raise Wrong("raw needs bytes, such as raw 05 05 00")
        for word in words:
            if not re.fullmatch(r"([0-9a-f]{2})+", word, re.ASCII):
                raise Wrong(f"{word}: raw bytes are pairs of hexadecimal digits, such as raw 05 05 00")
            self.job += bytes.fromhex(word)

    VERBS = {
        "settings": take_settings,
        "thread": take_thread,
        "slot": take_slot,
        "load": take_load,
        "hand": take_hand_over,
        "issue": take_issue,
        "output": take_output,
        "zero": take_zero,
        "raw": take_raw,
    }


def assemble(text):
    """The job file of a text. What is wrong begins with its line."""
    assembler = Assembler()
    try:
        for line in text.lstrip("\ufeff").split("\n"):
            assembler.take(line)
        assembler.finish()
    except Wrong as wrong:
        raise Wrong(f"line {wrong.line or assembler.line}: {printable(str(wrong))}") from None
    return bytes(assembler.job)
