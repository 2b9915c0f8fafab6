"""What is said where something is wrong."""

import difflib


class Wrong(Exception):
    """What is wrong with a text, a field or a call, in words; the line where it is not this one; what
    to do about it where that is not said for its number."""

    def __init__(self, text, line=None, remedy=""):
        super().__init__(text)
        self.line, self.remedy = line, remedy


def once(name, seen, instead=""):
    """Notes a name that may stand only once; what to write instead of two, where that is to be said."""
    if name in seen:
        raise Wrong(f"{name} stands twice" + (f"; write {instead}" if instead else ""))
    seen.add(name)


def did_you_mean(word, known):
    near = difflib.get_close_matches(word, list(known), 1)
    return f"; did you mean {near[0]}?" if near else ""


def printable(text):
    """A message that quotes a garbled text, fit for a terminal."""
    text = "".join(letter if letter.isprintable() else "?" for letter in text)
    return text if len(text) <= 300 else f"{text[:140]} .. {text[-140:]}"


def span(numbers):
    """Rising numbers as `3, 5 to 7`."""
    runs = []
    for number in numbers:
        if runs and runs[-1][1] == number - 1:
            runs[-1][1] = number
        else:
            runs.append([number, number])
    return ", ".join(str(low) if low == high else f"{low} to {high}" for low, high in runs)


def bits_span(bits):
    """Rising bit numbers as `bit 3`, or `bits 3, 5 to 7`."""
    return f"{'bit' if len(bits) == 1 else 'bits'} {span(bits)}"
