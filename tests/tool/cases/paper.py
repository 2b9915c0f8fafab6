"""The sizes, tags and opcodes of document 01 and of orders 1 and 6, written out again. The tool's tables are
held against these, and fields are made from these and not from the tool."""

SETTINGS, LOAD_ROWS, LOAD_REGISTER, HAND_OVER, ISSUE, OUTPUT_ROWS, OUTPUT_REGISTER, ZERO_ROWS = range(1, 9)
# By tag; load rows have 3 and 64 for each row.
LENGTHS = {SETTINGS: 160, LOAD_REGISTER: 6, HAND_OVER: 1, ISSUE: 5, OUTPUT_ROWS: 3, OUTPUT_REGISTER: 2, ZERO_ROWS: 4}
ONE_ROW = 67
FILE_DST = 2

FORMATS = ("fp32", "fp16", "bf16", "bfp8", "bfp4", "bfp2", "tf32", "bfp8a", "bfp4a", "bfp2a", "fp8", "int32", "int8", "int16")
FLAGS = ("fp32", "int8", "fp16a")
# The switches' bits among the flags, by letter; the flags below them, which alone decide on multiplies and Dst.
SWITCHES = {"a": 3, "b": 4}
KIND_FLAGS = 7
BF16, TF32 = 2, 6
# Format and flags under which a multiply is modelled; the last has BF16 Dst.
MODELLED = ((BF16, 1), (TF32, 1), (BF16, 0))

SIZES = {
    "JOB_LIMIT": 8192,
    "COLUMNS": 16,
    "BANKS": 2,
    "BANK_ROWS": 64,
    "THREADS": 3,
    "REGISTERS": 64,
    "SLOTS": 8,
    "MOST_ROWS": 64,
    "DST_WRAP": 1024,
    "PHASES": 4,
    "DST_32_ROWS": 512,
    "DST_BF16_ROWS": 1024,
    "SRC_BITS": 19,
}

# By mnemonic: the opcode, the bits below it that are named, the defined numbers of each of its modes.
INSTRUCTIONS = {
    "MVMUL": (0x26, 0xF8FFFF, [[0]]),
    "DOTPV": (0x29, 0xF8FFFF, [[0]]),
    "GAPOOL": (0x34, 0xF9BFFF, [[0, 1]]),
    "CONV3S1": (0x22, 0xC2FFFF, []),
    "CONV3S2": (0x23, 0xC2FFFF, []),
    "MPOOL3S1": (0x24, 0xC2FFFF, []),
    "APOOL3S1": (0x25, 0xC2FFFF, []),
    "MPOOL3S2": (0x31, 0xC2FFFF, []),
    "APOOL3S2": (0x32, 0xC2FFFF, []),
    "SETRWC": (0x37, 0xFFFFCF, [[0]]),
    "INCRWC": (0x38, 0xFFFFC0, [[0]]),
    "ZEROSRC": (0x11, 0xFFFFFF, []),
    "SHIFTXA": (0x17, 0x000003, [[2, 3]]),
    "SHIFTXB": (0x18, 0x00C7FF, []),
    "GATESRCRST": (0x35, 0x000003, []),
    "CLREXPHIST": (0x21, 0x000000, []),
    "FLUSHDMA": (0x46, 0x00000F, []),
    "BITWOPDMAREG": (0x5B, 0x9FFFFF, [[0, 1, 2]]),
    "SHIFTDMAREG": (0x5C, 0x9FFFFF, [[0, 1]]),
    "CMPDMAREG": (0x5D, 0x9FFFFF, [[0, 1, 2]]),
}
