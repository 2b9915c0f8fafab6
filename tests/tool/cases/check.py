"""Cases, what is printed about one that fails, and their count."""

import traceback
from typing import NamedTuple

SHOWN = 400  # letters of a long text


class Case(NamedTuple):
    name: str
    passed: bool
    got: object
    wanted: object

    def report(self):
        got, wanted = text_of(self.got), text_of(self.wanted)
        at = next((n for n, (one, other) in enumerate(zip(got, wanted)) if one != other), min(len(got), len(wanted)))
        return f"failed: {self.name}\n    got    {around(got, at)}\n    wanted {around(wanted, at)}"


def text_of(value):
    return value.hex() if isinstance(value, bytes) else repr(value)


def around(text, at):
    """A text, or what stands around a place in a long one."""
    low = max(0, min(at - SHOWN // 2, len(text) - SHOWN))
    high = low + SHOWN
    return ("" if low == 0 else ".. ") + text[low:high] + ("" if high >= len(text) else " ..")


def equal(name, got, wanted):
    return Case(name, got == wanted, got, wanted)


def has(name, text, *parts):
    """A text that holds all of the parts; where not, its end and the parts that are missing are shown."""
    missing = [part for part in parts if part not in text]
    return Case(name, not missing, text[-SHOWN:], missing)


def starts(name, text, start):
    return Case(name, text.startswith(start), text, start)


def count(groups):
    """Prints what fails in some groups of cases; how many passed and failed."""
    passed, failed = 0, 0
    for group in groups:
        try:
            for case in group:
                passed += case.passed
                failed += not case.passed
                if not case.passed:
                    print(case.report())
        except Exception:  # a fault of the tool ends its group of cases and no more
            failed += 1
            print(f"failed: {group.__name__} ends early\n{traceback.format_exc()}")
    return passed, failed
