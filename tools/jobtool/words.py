"""An issued word by its mnemonic and fields, and back."""

import re

from .instructions import BY_NAME, OPCODE_LOW, instruction_of
from .layout import REGISTER
from .ranges import HEXADECIMAL, below
from .wrong import Wrong, did_you_mean, once


def bits_text(bits, number):
    if isinstance(bits.words, str):
        return "".join(letter for n, letter in enumerate(bits.words) if number >> n & 1) or "none"
    return bits.words[number] if bits.words else str(number)


def field_text(bits, word):
    """A field of a word, such as `clear=ab`."""
    return f"{bits.key}={bits_text(bits, bits.get(word))}"


def bits_number(bits, text):
    if isinstance(bits.words, str):
        letters = "" if text == "none" else text
        if not text or not set(letters) <= set(bits.words) or len(set(letters)) != len(letters):
            raise Wrong(f"{bits.key}={text}: give some of the letters {bits.words}, each once, or none")
        return sum(1 << bits.words.index(letter) for letter in letters)
    if bits.words:
        if text not in bits.words:
            raise Wrong(f"{bits.key}={text}: give {' or '.join(bits.words)}")
        return bits.words.index(text)
    return below(bits.key, bits.most() + 1).read(text)


def word_text(word):
    """A word by its mnemonic; the bare word where the table does not name all of its bits."""
    instruction = instruction_of(word)
    if instruction is None or instruction.unnamed(word):
        return f"0x{word:08x}"
    words, numbers = [instruction.name], instruction.numbers(word)
    if instruction.mode_words():
        mode = numbers.pop("mode")
        words.append(instruction.find("mode").modes.get(mode, f"mode={mode}"))
    if instruction.is_scalar():
        return " ".join(words + operands_text(numbers))
    for bits in instruction.bits:
        if bits.key in numbers and (bits.get(word) or bits.shown):
            words.append(field_text(bits, word))
    return " ".join(words)


def operands_text(numbers):
    b = numbers["B"]
    return [f"r{numbers['result']}", f"r{numbers['A']}", str(b) if numbers["constant"] else f"r{b}"]


def word_of(words):
    """A word from a mnemonic with its fields, or from its digits."""
    name, rest = words[0].upper(), words[1:]
    if HEXADECIMAL.fullmatch(words[0]) and not rest:
        return int(words[0], 16)
    if name.startswith("0X"):
        raise Wrong(f"{' '.join(words)}: a bare word is 0x and at most 8 hexadecimal digits, and stands alone")
    if name not in BY_NAME:
        raise Wrong(f"there is no instruction {name}" + did_you_mean(name, BY_NAME))
    instruction = BY_NAME[name]
    modes = instruction.mode_words()
    rest = [f"mode={modes[text]}" if text in modes else text for text in rest]
    operands = [text for text in rest if "=" not in text]
    word = instruction.opcode << OPCODE_LOW | fields_word(instruction, [text for text in rest if "=" in text])
    if instruction.is_scalar():
        return word | operands_word(instruction, operands)
    if operands:
        raise Wrong(f"{name} does not take {operands[0]}; it takes {fields_form(instruction)}")
    return word


def fields_form(instruction):
    """What may follow a mnemonic, for messages."""
    fields = list(instruction.mode_words())
    if not instruction.is_scalar():
        fields += [f"{bits.key}=.." for bits in instruction.bits]
    return ", ".join(fields) or "nothing"


def fields_word(instruction, texts):
    """The bits that `key=value` texts stand for, each key once."""
    word, seen = 0, set()
    for text in texts:
        key, _, value = text.partition("=")
        bits = instruction.find(key)
        if bits is None or (instruction.is_scalar() and key != "mode"):
            raise Wrong(f"{instruction.name} has no field {key}; it takes {fields_form(instruction)}")
        once(key, seen)
        word |= bits_number(bits, value) << bits.low
    if instruction.mode_words() and "mode" not in seen:
        raise Wrong(f"{instruction.name} needs one of {', '.join(instruction.mode_words())}")
    return word


def operands_word(instruction, operands):
    """The bits of result, A and B; a B without its r is a constant."""
    if len(operands) != 3:
        raise Wrong(f"{instruction.name} takes a result, A and B, such as r3 r1 r2 or r3 r1 5; here are {len(operands)} of them")
    result, a, b = operands
    numbers = {"result": register_number(result), "A": register_number(a)}
    if b.startswith("r"):
        numbers["B"] = register_number(b)
    else:
        # A constant may be marked by a c, as in 5c.
        digits = b[:-1] if re.fullmatch(r"[0-9]+c", b) else b
        most = instruction.find("B").most()
        numbers.update(B=below("the constant B", most + 1).read(digits), constant=1)
    return sum(number << instruction.find(key).low for key, number in numbers.items())


def register_number(text):
    if not re.fullmatch(r"r\d{1,3}", text, re.ASCII):
        raise Wrong(f"{text} is no register; registers are r{REGISTER.low} to r{REGISTER.high}")
    return REGISTER.read(text[1:])
