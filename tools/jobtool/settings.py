"""The settings as text and back: their head, the threads and the slots."""

from .fields import SETTINGS, Settings, Thread
from .layout import BASE, FLAGS, FORMAT, FORMATS, KEEP, SLOT, SLOT_PARTS, SLOTS, THREAD, THREADS, slot_name, thread_name
from .ranges import WHOLE
from .words import bits_number, field_text
from .wrong import Wrong, did_you_mean, once

SETTINGS_FORM = "settings format bf16 fp32 base 0"
KEEPS = ("keep=a", "keep=b", "keep=ab")
KEEP_FORM = f"{', '.join(KEEPS[:-1])} or {KEEPS[-1]}"
WORDS = ("format", "base") + FLAGS
THREAD_FORM = "thread 0 offset 0 fidelity 0 extra 0"
SLOT_FORM = "slot 0.1 a +16 b +8 dst +8 phase clear"


def format_of(text):
    if text in FORMATS:
        return FORMATS.index(text)
    if WHOLE.fullmatch(text):
        return FORMAT.read(text)
    raise Wrong(f"there is no format {text}; formats are {', '.join(FORMATS)}, or {FORMAT}")


def keep_flags(word, seen):
    """The flags of a word such as `keep=ab`."""
    key, equals, letters = word.partition("=")
    if key != KEEP.key or not equals:
        raise Wrong(f"{word}: write {KEEP_FORM}")
    once(key, seen, f"one of {KEEP_FORM}")
    return bits_number(KEEP, letters) << KEEP.low


def settings_head(words):
    """Format, flags and base of a settings line."""
    form, flags, base, seen = None, 0, 0, set()
    words = iter(words)
    for word in words:
        if word.startswith(KEEP.key):
            flags |= keep_flags(word, seen)
            continue
        if word not in WORDS:
            raise Wrong(f"{word} is no setting; write {SETTINGS_FORM}" + did_you_mean(word, WORDS + KEEPS))
        once(word, seen)
        if word == "format":
            form = format_of(next(words, "without a name"))
        elif word == "base":
            base = BASE.read(next(words, ""))
        else:
            flags |= 1 << FLAGS.index(word)
    if form is None:
        raise Wrong(f"settings need a format; write {SETTINGS_FORM}")
    return form, flags, base


def thread_numbers(words):
    """Math offset, fidelity base and extra bit of a thread line; what is left out is 0."""
    ranges, seen = SETTINGS.PER_THREAD.ranges, set()
    numbers = dict.fromkeys(ranges, 0)
    for name, text in zip(words[::2], words[1::2] + [""]):
        if name not in ranges:
            raise Wrong(f"a thread has no {name}; write {THREAD_FORM}")
        once(name, seen)
        numbers[name] = ranges[name].read(text)
    return tuple(numbers.values())


def slot_numbers(words):
    """The steps and flags of a slot from its parts, such as `a +16 b clear dst +8 copy`."""
    parts = {part.name: part for part in SLOT_PARTS}
    steps, flags, part = {}, 0, None
    for word in words:
        if word in parts:
            part = parts[word]
        elif part is None:
            raise Wrong(f"{word}: a slot's parts begin with a, b, dst or phase")
        elif word in part.flags:
            flags |= 1 << part.flags[word]
        elif word[0] not in "+-":
            raise Wrong(f"{word}: {part.name} takes a step such as +1 or -1, or {', '.join(part.flags)}")
        elif part.name in steps:
            raise Wrong(f"{part.name} has two steps")
        else:
            step = part.step().read(word[1:])
            # A step back is the step that comes to the same after wrapping.
            steps[part.name] = step if word[0] == "+" else -step % part.size
    return (*(steps.get(name, 0) for name in parts), flags)


def thread_of(words):
    """The name and the numbers of a thread line."""
    if not words:
        raise Wrong(f"write {THREAD_FORM}")
    return thread_name(THREAD.read(words[0])), thread_numbers(words[1:])


def slot_of(words):
    """The name and the numbers of a slot line."""
    thread, dot, slot = (words[0] if words else "").partition(".")
    if not dot:
        raise Wrong(f"write {SLOT_FORM}, where 0.1 is slot 1 of thread 0")
    return slot_name(THREAD.read(thread), SLOT.read(slot)), slot_numbers(words[1:])


class OpenSettings:
    """Settings whose threads and slots are being read; one that is left out is all 0."""

    def __init__(self, head):
        self.head, self.parts = head, {}

    def fill_in(self, name, numbers):
        if name in self.parts:
            raise Wrong(f"{name} stands twice below these settings")
        self.parts[name] = numbers

    def field(self):
        return SETTINGS.field(Settings(*self.head, [self.thread(t) for t in range(THREADS)]))

    def thread(self, t):
        slots = [self.parts.get(slot_name(t, s), slot_numbers([])) for s in range(SLOTS)]
        return Thread(*self.parts.get(thread_name(t), thread_numbers([])), slots)


def slot_text(slot):
    """A slot's parts that do something."""
    words = []
    for part in SLOT_PARTS:
        step, texts = getattr(slot, part.name), part.on(slot.flags)
        if step:
            back = 2 * step > part.size and part.name != "phase"
            texts.insert(0, f"-{part.size - step}" if back else f"+{step}")
        if texts:
            words += [part.name] + texts
    return " ".join(words)


def settings_text(settings):
    flags = [flag for bit, flag in enumerate(FLAGS) if settings.flags >> bit & 1]
    if settings.keeps():
        flags.append(field_text(KEEP, settings.flags))
    return " ".join(["settings format", FORMATS[settings.format], *flags, f"base {settings.base}"])


def thread_lines(settings):
    """The lines below the settings, of the threads and slots that are not all 0."""
    lines = []
    for t, thread in enumerate(settings.threads):
        if any(thread[:3]):
            lines.append(f"  {thread_name(t)} offset {thread.offset} fidelity {thread.fidelity} extra {thread.extra}")
        for s, slot in enumerate(thread.slots):
            if any(slot):
                lines.append(f"  {slot_name(t, s)} {slot_text(slot)}")
    return lines
