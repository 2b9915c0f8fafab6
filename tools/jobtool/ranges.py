"""Whole numbers that must lie in a range, as they stand in a file and in a text."""

import re
from typing import NamedTuple

from .wrong import Wrong

WHOLE = re.compile(r"\d{1,12}", re.ASCII)
HEXADECIMAL = re.compile(r"0x[0-9a-f]{1,8}", re.ASCII)


class Range(NamedTuple):
    """The numbers that something may be, under the name that messages give it."""

    name: str
    low: int
    high: int

    def __str__(self):
        return f"{self.low} to {self.high}"

    def check(self, number, where=""):
        if not self.low <= number <= self.high:
            raise Wrong(f"{where}{self.name} is {number}; {self} is allowed")
        return number

    def read(self, text):
        """The number that a text stands for."""
        if not (WHOLE.fullmatch(text) or HEXADECIMAL.fullmatch(text)):
            raise Wrong(f"{self.name}: {text or 'nothing'} is no whole number")
        return self.check(int(text, 16 if text.startswith("0x") else 10))


def below(name, size):
    return Range(name, 0, size - 1)
