"""The numbers of a row as text and back. Only a text that stands for exactly the bits is given or taken."""

import re
import struct
from decimal import Decimal
from fractions import Fraction

from .layout import COLUMNS, FORMATS, READABLE
from .ranges import HEXADECIMAL, Range
from .wrong import Wrong

NAN, INFINITY, SIGN = 0x7FC00000, 0x7F800000, 0x80000000
# Of binary32: the mantissa's bits, the exponent's bias, the exponent of the least normal number.
MANTISSA, BIAS, LEAST = 23, 127, -126
DECIMAL = re.compile(r"[+-]?(\d{1,60}(\.\d{0,200})?|\.\d{1,200})(e[+-]?\d{1,3})?", re.ASCII)
POWER = re.compile(r"([+-]?)2\^([+-]?\d{1,3})", re.ASCII)
REPEATS = Range("the count of repeats", 1, COLUMNS)


def decimal_text(value):
    return format(Decimal(value), "f")


def number_text(bits, mantissa):
    """A binary32 number of so many mantissa bits as it is written in a row, or None where
    hexadecimal reads better."""
    named = {0: "0", NAN: "nan", INFINITY: "inf", INFINITY | SIGN: "-inf"}
    if bits in named:
        return named[bits]
    exponent, fraction = (bits >> MANTISSA) & 255, bits & ((1 << MANTISSA) - 1)
    if exponent in (0, 255) or fraction & ((1 << (MANTISSA - mantissa)) - 1):
        return None
    text = decimal_text(struct.unpack("<f", struct.pack("<I", bits))[0])
    if len(text) <= 12:
        return text
    return None if fraction else f"{'-' if bits & SIGN else ''}2^{exponent - BIAS}"


def value_of(text):
    """A readable number as sign and exact size."""
    power = POWER.fullmatch(text)
    if power:
        return power.group(1) == "-", Fraction(2) ** int(power.group(2))
    if not DECIMAL.fullmatch(text):
        raise Wrong(f"{text} is no number")
    return text.startswith("-"), abs(Fraction(text))


def number_bits(text, file):
    """The binary32 bits of a readable number, which must be exact in the format of the file's numbers."""
    if text in ("inf", "+inf", "-inf", "nan"):
        return NAN if text == "nan" else INFINITY | (SIGN if text[0] == "-" else 0)
    negative, size = value_of(text)
    sign = SIGN if negative else 0
    if size == 0:
        return sign
    exponent = exponent_of(text, size, file)
    unit = Fraction(2) ** (exponent - file.mantissa)
    steps = size / unit
    if steps.denominator != 1:
        raise Wrong(f"{text} is not exact in {file.format}; the numbers beside it are {neighbours(steps, unit, negative)}")
    shift = MANTISSA - file.mantissa
    fraction = int(steps) - (1 << file.mantissa)
    if fraction < 0:
        return sign | int(steps) << shift
    return sign | (exponent + BIAS) << MANTISSA | fraction << shift


def exponent_of(text, size, file):
    """The exponent of a size other than 0; the least one for the sizes below it."""
    exponent = size.numerator.bit_length() - size.denominator.bit_length()
    if Fraction(2) ** exponent > size:
        exponent -= 1
    if exponent > BIAS:
        raise Wrong(f"{text} is too large for {file.format}")
    # Only Dst has numbers below this; a datum with exponent 0 is zero.
    if exponent < LEAST and not file.is_dst():
        raise Wrong(f"{text} is too small for {file.format}, whose least number is 2^{LEAST}")
    return max(exponent, LEAST)


def neighbours(steps, unit, negative):
    """The two numbers of a format on either side of one that is not exact."""
    texts = []
    for count in (int(steps), int(steps) + 1):
        size = float(-count * unit if negative else count * unit)
        text = decimal_text(size)
        texts.append(text if len(text) <= 24 else f"{size:.12g}..")
    return " and ".join(texts)


def cell_text(number, file):
    """One number of a row; Src numbers are readable in the two formats that are multiplied. A number of
    fewer bits than 32 is the top of a binary32 number."""
    if number == 0:
        return "0"
    readable = number_text(number << (32 - file.bits), file.mantissa) if file.format else None
    return readable or f"0x{number:0{(file.bits + 3) // 4}x}"


def cell_number(text, file):
    if text.startswith("0x"):
        if not HEXADECIMAL.fullmatch(text):
            raise Wrong(f"{text} is no hexadecimal number of at most 8 digits")
        return file.check_bits(int(text, 16), text)
    if text == "0":
        return 0
    if not file.format:
        formats = " and ".join(FORMATS[form] for form in READABLE)
        raise Wrong(f"{text}: only formats {formats} in the settings above make {file.name} numbers readable; write 0x..")
    bits = number_bits(text, file)
    if bits == SIGN and not file.is_dst():
        raise Wrong(f"{text}: a datum with exponent 0 is read as +0; write 0, or the bits {SIGN >> (32 - file.bits):#x}")
    return bits >> (32 - file.bits)


def row_numbers(words, file):
    """The numbers of a row; `0*12` stands for twelve zeros."""
    numbers = []
    for word in words:
        text, star, times = word.partition("*")
        count = REPEATS.read(times) if star else 1
        numbers += [cell_number(text, file)] * count
    if len(numbers) != COLUMNS:
        raise Wrong(f"a row has {COLUMNS} values, here are {len(numbers)}")
    return numbers


def row_texts(numbers, file):
    """Rows as texts with how often each is repeated, their columns aligned."""
    cells = [cell_text(number, file) for number in numbers]
    width = max(map(len, cells))
    texts = []
    for at in range(0, len(cells), COLUMNS):
        row = cells[at : at + COLUMNS]
        same = all(cell == row[0] for cell in row)
        text = f"{row[0]}*{COLUMNS}" if same else " ".join(cell.rjust(width) for cell in row)
        if texts and texts[-1][0] == text:
            texts[-1][1] += 1
        else:
            texts.append([text, 1])
    return texts
