"""The examples: their texts, their refusals, and what the tiles and the kept weights print."""

import struct
from fractions import Fraction

from jobtool.listing import listing
from jobtool.refusals import answer_of as read_line

from . import paper
from .check import equal, has, starts
from .made import EXAMPLES, NAMES, REFUSED, answer_of, assembled, read


def texts():
    found = {path.stem for path in EXAMPLES.iterdir() if path.suffix in (".txt", ".job", ".out")}
    yield equal("the examples are the named ones", sorted(found), sorted(NAMES))
    for name in NAMES:
        yield equal(f"{name}.txt assembles to {name}.job", assembled(read(name, "txt").decode()), read(name, "job"))


def refused():
    for name, number in REFUSED.items():
        data, line = read(name, "job"), read(name, "out").decode()
        text = listing(data, read_line(line))
        yield starts(f"{name} prints that number", line, f"refused {number} at ")
        yield equal(f"{name} prints what the tool reads", line, f"{answer_of(data)}\n")
        yield has(f"{name} is explained", text, f"# ^^^ {line.strip()}: ", "why: ")
        yield equal(f"{name} explained assembles", assembled(text), data)


def printed_rows(name):
    """The printed Dst rows of an example, each value as its digits."""
    lines = [line.split() for line in read(name, "out").decode().splitlines()[1:]]
    return {int(row): values for _, row, *values in lines}


def digits32(number):
    """The digits of a number that is exact in binary32."""
    return struct.pack(">f", float(number)).hex()


def whole_product():
    """What tile_hifi4 prints; the formulas of the tiles stand in its text."""
    left = [[(37 * i + 11 * k + 3) % 256 for k in range(32)] for i in range(32)]
    p = [[(29 * k + 53 * j + 7) % 256 for j in range(16)] for k in range(16)]
    q = [[(71 * k + 19 * j + 130) % 256 for j in range(16)] for k in range(16)]
    right = [(p if k < 16 else q)[k % 16] + (q if k < 16 else p)[k % 16] for k in range(32)]
    rows = {row: [] for row in range(64)}
    for i in range(32):
        for j in range(32):
            number = sum(left[i][k] * right[k][j] for k in range(32))
            rows[i // 16 * 32 + j // 16 * 16 + i % 16].append(digits32(number))
    return rows


def to_bf16(number):
    """The bf16 number next to a positive one, of two equally near ones the even one."""
    unit = Fraction(1, 128)
    while number >= 256 * unit:
        unit *= 2
    return round(number / unit) * unit


def two_products():
    """What tile_fp32 and tile_bf16 print; the formulas stand in both texts."""
    left = [[(5 * i + 3 * k) % (i + 2) for k in range(32)] for i in range(16)]
    p = [[(3 * k + 5 * j) % 11 for j in range(16)] for k in range(16)]
    q = [[(7 * k + 2 * j + 4) % 11 for j in range(16)] for k in range(16)]
    wide, narrow = {}, {}
    for face, start, halves in ((0, Fraction(1, 2), (p, q)), (1, Fraction(0), (q, p))):
        for i in range(16):
            wide[16 * face + i], narrow[512 * face + i] = [], []
            for j in range(16):
                first, second = (sum(left[i][16 * h + k] * halves[h][k][j] for k in range(16)) for h in (0, 1))
                wide[16 * face + i].append(digits32(start + first + second))
                stored = digits32(to_bf16(to_bf16(start + first) + second))
                narrow[512 * face + i].append(stored[:4] if stored.endswith("0000") else stored)
    return wide, narrow


def src_loads(name):
    """The payloads of an example's loads into SrcA and SrcB, taken apart without the tool."""
    data, at, loads = read(name, "job"), 0, []
    while at < len(data):
        tag, length = struct.unpack_from("<BH", data, at)
        payload = data[at + 3 : at + 3 + length]
        if tag == paper.LOAD_ROWS and payload[0] != paper.FILE_DST:
            loads.append(payload)
        at += 3 + length
    return loads


def tiles():
    yield equal("tile_hifi4 is the whole-number product", printed_rows("tile_hifi4"), whole_product())
    wide, narrow = two_products()
    yield equal("tile_fp32 is the exact product", printed_rows("tile_fp32"), wide)
    yield equal("tile_bf16 is rounded by each multiply", printed_rows("tile_bf16"), narrow)
    pairs = [pair for row in range(32) for pair in zip(wide[row], narrow[row if row < 16 else row + 496])]
    differing = sum(one != other + "0000" for one, other in pairs)
    yield equal("393 of their 512 numbers differ", (differing, len(pairs)), (393, 512))
    yield equal("both load the same Src numbers", src_loads("tile_bf16"), src_loads("tile_fp32"))
    yield equal("both have two Src loads", len(src_loads("tile_bf16")), 2)


def kept_weights():
    """What keep_weights prints, by the formulas in its text; it and refused_6_kept without their switch."""
    rows = {}
    for t in range(4):
        for i in range(8):
            rows[16 * t + i] = [digits32(2 * (10 * t + i + j)) for j in range(16)]
            rows[16 * t + 8 + i] = [digits32(16 * (10 * t + i) + 120)] * 16
    yield equal("keep_weights doubles and sums", printed_rows("keep_weights"), rows)
    sizes = [len(load) + 3 for load in src_loads("keep_weights") if load[0] == 0]
    yield equal("keep_weights loads W and V once", sizes, [1030, 1030])
    yield equal("keep_weights has 4,396 bytes", len(read("keep_weights", "job")), 4396)
    for name, answer in (("keep_weights", "refused 6 at 3820"), ("refused_6_kept", "finished")):
        text = read(name, "txt").decode()
        without = text.replace("\nsettings format bf16 fp32 keep=a base 0\n", "\nsettings format bf16 fp32 base 0\n")
        yield equal(f"{name} without its switch", (without != text, answer_of(assembled(without))), (True, answer))


GROUPS = (texts, refused, tiles, kept_weights)
