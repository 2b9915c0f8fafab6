"""What is listed assembles to the same bytes: whole files, words and numbers."""

import random
import struct

from jobtool import layout
from jobtool.cells import cell_number, cell_text
from jobtool.listing import listing
from jobtool.text import assemble
from jobtool.words import word_of, word_text

from . import paper
from .check import equal
from .made import NAMES, SEED, assembled, field, read


def any_bytes(rng, count):
    return bytes(rng.randrange(256) for _ in range(count))


def made_fields(rng):
    """Fields with likely tags and lengths and any payload, so that much of it is almost right."""
    data = b""
    for _ in range(rng.randrange(1, 8)):
        tag = rng.randrange(0, 10)
        length = paper.LENGTHS.get(tag, paper.ONE_ROW) + rng.choice((0, 0, 0, 0, 1, -1))
        top = rng.choice((1, 3, 64, 256))
        data += field(tag, bytes(rng.randrange(top) for _ in range(length)))
    return data


def made_strings(rng):
    whole = [read(name, "job") for name in NAMES]
    for _ in range(100):
        yield "random bytes", any_bytes(rng, rng.randrange(0, 400))
    for _ in range(100):
        yield "random fields", made_fields(rng)
    for _ in range(100):
        data = rng.choice(whole)
        yield "a truncated example", data[: rng.randrange(len(data))]
    for _ in range(50):
        yield "a padded example", rng.choice(whole) + any_bytes(rng, rng.randrange(1, 80))
    for _ in range(100):
        data = bytearray(rng.choice(whole))
        for _ in range(rng.randrange(1, 4)):
            data[rng.randrange(len(data))] = rng.randrange(256)
        yield "an example with bytes changed", bytes(data)
    yield "nothing", b""
    yield "8,192 bytes", bytes(8192)
    yield "8,193 bytes", bytes(8193)
    yield "a field of the greatest length", b"\x09\xff\xff" + bytes(65535) + b"\x04\x01\x00\x01"


def files():
    strings = [(f"{name}.job", read(name, "job")) for name in NAMES] + list(made_strings(random.Random(SEED)))
    for name, data in strings:
        text = listing(data)
        yield equal(f"{name}, listed and assembled ({data[:40].hex()}..)", assembled(text), data)
        yield equal(f"{name}, listed again ({data[:40].hex()}..)", listing(assemble(text)), text)


def changed_words(words):
    """Those that do not come back from their text."""
    return [f"0x{word:08x}" for word in words if word_of(word_text(word).lower().split()) != word]


def words():
    rng = random.Random(SEED)
    for name, (opcode, named, _) in paper.INSTRUCTIONS.items():
        some = [opcode << 24 | rng.getrandbits(24) & named for _ in range(100)]
        some += [opcode << 24 | rng.getrandbits(24) for _ in range(20)]
        yield equal(f"words of {name}", changed_words(some), [])
    yield equal("any words", changed_words(rng.getrandbits(32) for _ in range(200)), [])


def changed_numbers(numbers, file):
    return [hex(number) for number in numbers if cell_number(cell_text(number, file), file) != number]


def numbers():
    rng = random.Random(SEED)
    for form in (paper.BF16, paper.TF32, 0):
        data = [rng.getrandbits(19) for _ in range(3000)] + [sign | e << 10 for sign in (0, 1 << 18) for e in range(256)]
        file = layout.files_of(form, 1)[layout.A]
        yield equal(f"Src numbers in {paper.FORMATS[form]}", changed_numbers(data, file), [])
    data = [rng.getrandbits(32) for _ in range(3000)]
    data += [struct.unpack("<I", struct.pack("<f", n / 8))[0] for n in range(-500, 500)]
    yield equal("numbers of 32-bit Dst", changed_numbers(data, layout.DST_32), [])
    yield equal("numbers of BF16 Dst", changed_numbers(range(1 << 16), layout.DST_BF16), [])


SRC_NUMBERS = (
    ("1", paper.BF16, 0x1FC00),
    ("-1.5", paper.TF32, 0x5FE00),
    ("2^-126", paper.BF16, 0x400),
    ("inf", paper.TF32, 0x3FC00),
    ("1.0009765625", paper.TF32, 0x1FC01),
)
DST_32_NUMBERS = (
    ("1.5", 0x3FC00000),
    ("-0", 0x80000000),
    ("2^-149", 1),
    ("nan", 0x7FC00000),
    ("340282346638528859811704183484516925440", 0x7F7FFFFF),
)
DST_BF16_NUMBERS = (
    ("1.5", 0x3FC0),
    ("-1.0078125", 0xBF81),
    ("-0", 0x8000),
    ("2^-126", 0x80),
    ("2^-133", 1),
    ("-2^-127", 0x8040),
    ("-inf", 0xFF80),
    ("nan", 0x7FC0),
    ("0xffff", 0xFFFF),
)


def known_numbers():
    for text, form, number in SRC_NUMBERS:
        yield equal(f"{text} in {paper.FORMATS[form]}", cell_number(text, layout.files_of(form, 1)[layout.A]), number)
    for file, known in ((layout.DST_32, DST_32_NUMBERS), (layout.DST_BF16, DST_BF16_NUMBERS)):
        for text, number in known:
            yield equal(f"{text} in {file.name}", cell_number(text, file), number)


GROUPS = (files, words, numbers, known_numbers)
