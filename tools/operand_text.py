"""The operands of the decoder's program and of objdump's text, compared.

An operand is a tuple of the name of its kind, as in m386_opmap's Arg, and its numbers: of memory the segment, base, index, scale
and displacement, with None for what isn't there, and of a far pointer the selector and the offset.
"""
import re

from compare_opcodes import REGISTERS, SEGMENTS, STRINGS

NUMBERS = {name: number for names in REGISTERS.values() for number, name in enumerate(names)}
DATA_SEGMENT = SEGMENTS.index("ds")
KIND = re.compile(r"\b(Reg|Seg|Cr0|Imm|Mem|Rel|Far)\b")


def printed(text):
    """The operands of a list as Rust's Debug writes it."""
    parts = KIND.split(text)[1:]
    numbers = [re.findall(r"None|\d+", part) for part in parts[1::2]]
    return [(kind, *(None if n == "None" else int(n) for n in own)) for kind, own in zip(parts[::2], numbers)]


def shown_address(text):
    """The base, index, scale and displacement that stand between brackets. EIZ is no index."""
    base, index, scale, displacement = None, None, 1, 0
    for sign, part in re.findall(r"([+-]?)([^+-]+)", text):
        register, _, factor = part.partition("*")
        if factor and register != "eiz":
            index, scale = NUMBERS[register], int(factor)
        elif register in NUMBERS:
            base = NUMBERS[register]
        elif register != "eiz":
            displacement = int(sign + part, 16) % 2**32
    return base, index, scale, displacement


def shown_operand(text):
    """An operand of objdump's text, of which a distance is the target as an Imm; None where it is of another form."""
    text = re.sub(r"^[A-Z]+ PTR ", "", text)
    memory = re.fullmatch(r"(?:([c-gs]s):)?\[(.*)\]", text) or re.fullmatch(r"([c-gs]s):(0x[0-9a-f]+)", text)
    far = re.fullmatch(r"0x([0-9a-f]+):0x([0-9a-f]+)", text)
    if text in NUMBERS:
        return "Reg", NUMBERS[text]
    if text in SEGMENTS:
        return "Seg", SEGMENTS.index(text)
    if memory:
        segment = memory.group(1)
        return "Mem", SEGMENTS.index(segment) if segment else None, *shown_address(memory.group(2))
    if far:
        return "Far", int(far.group(1), 16), int(far.group(2), 16)
    if re.fullmatch(r"(0x)?[0-9a-f]+", text):
        return "Imm", int(text, 16)
    return ("Cr0",) if text == "cr0" else None


def shown(name, text):
    """The operands of objdump's text that the table has: of string operations and XLAT the memory at ESI or EBX alone."""
    operands = [shown_operand(t) for t in text.split(",") if t]
    if name in STRINGS or name == "Xlat":
        return [o for o in operands if o and o[0] == "Mem" and o[2] in (NUMBERS["esi"], NUMBERS["ebx"])]
    return operands


def is_same(operand, other, width, end):
    """Whether an operand is objdump's, in an operation of this width that ends at this address."""
    if other is None:
        return False
    kind, *numbers = operand
    if kind == "Mem":
        named = numbers[0] == other[1] if numbers[0] is not None else other[1] in (None, DATA_SEGMENT)
        return other[0] == "Mem" and named and numbers[1:] == list(other[2:])
    if kind == "Rel":
        size = 2**16 if width == 16 else 2**32
        return other[0] == "Imm" and other[1] % size == (end + numbers[0]) % size
    if kind == "Imm":
        return other[0] == "Imm" and other[1] % 2**width == numbers[0]
    return operand == other


def are_same(name, operands, others, width, end):
    """Whether the operands are objdump's. Those of XCHG may stand in either order."""
    orders = [others, others[::-1]] if name == "Xchg" else [others]
    return len(operands) == len(others) and any(all(is_same(o, t, width, end) for o, t in zip(operands, order)) for order in orders)
