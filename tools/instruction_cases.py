"""Cases of single instructions of the 80386: their bytes, with registers, flags and memory before them.

The forms are those of the manual's chapter 17 for the instructions of integers, bits and flags: each operation with each kind
of operands and each width. Left out, since a later processor runs them otherwise or the manual says nothing of them:

- the other spellings that later processors take: opcode 82h, TEST by F6h and F7h with 1 in the ModRM byte's register field,
  shifts with 6 there;
- BOUND with a register, whose bytes begin longer instructions today, and F2h and F3h before two-byte opcodes for the same reason;
- LOCK before BT, which only the 80386 takes;
- SHLD and SHRD of 16 bits by more than 16, whose result the manual leaves undefined;
- CLI, STI and whatever else depends on the privilege level.

BSF and BSR of 0 leave the destination here as there, which the manual doesn't say.
"""
import struct
from dataclasses import dataclass, field, replace

CODE = 0x1000
AREA = 0x2000
AREA_SIZE = 64
MODULUS = 1 << 32
EAX, ECX, EDX, EBX, ESP, EBP, ESI, EDI = range(8)
CF, PF, AF, ZF, SF, DF, OF = 0x001, 0x004, 0x010, 0x040, 0x080, 0x400, 0x800
STATUS = CF | PF | AF | ZF | SF | OF
COMPARED = STATUS | DF
ALU = ["ADD", "OR", "ADC", "SBB", "AND", "SUB", "XOR", "CMP"]
SHIFTS = ["ROL", "ROR", "RCL", "RCR", "SHL", "SHR", None, "SAR"]
CONDITIONS = ["O", "NO", "B", "AE", "E", "NE", "BE", "A", "S", "NS", "P", "NP", "L", "GE", "LE", "G"]
SEGMENTS = [0x26, 0x2E, 0x36, 0x3E, 0x64, 0x65]
# What m386_cases begins with: no two registers are the same, and no two bytes that stand side by side.
FIRST_REGISTERS = [0xA0A1A2A3, 0xC0C1C2C3, 0xD0D1D2D3, 0xB0B1B2B3, 0x40414243, 0x50515253, 0x60616263, 0x70717273]
FIRST_AREA = bytes.fromhex(
    "112233445566778899aabbccddeeff102132435465768798a9bacbdcedfe0f20"
    "31425364758697a8b9cadbecfd0e1f30415263748596a7b8c9daebfc0d1e2f40"
)


@dataclass(frozen=True)
class Form:
    """One spelling of an operation.

    `digit` is the ModRM byte's register field, or None where it names a register; `place` says what the ModRM byte names, or
    "none" where there is none, "low" where the opcode's low bits name a register, "offset" for an address without ModRM.
    """

    name: str
    opcode: bytes
    width: int
    place: str
    digit: int = None
    immediate: int = 0
    lock: bool = False
    reach: int = 0
    kind: str = ""

    def text(self):
        """The form in words."""
        digit = "" if self.digit is None else f" /{self.digit}"
        return f"{self.opcode.hex(' ')}{digit} {self.width} bits {self.place}"


def each_width(name, opcode, places=("register", "memory"), **more):
    """The forms of an opcode of bytes, and of the one above it of 16 and of 32 bits."""
    for width in (8, 16, 32):
        last = opcode[-1] if width == 8 else opcode[-1] + 1
        yield from both(name, opcode[:-1] + bytes([last]), width, places, **more)


def wide(name, opcode, places=("register", "memory"), **more):
    """The forms of an opcode of 16 and of 32 bits."""
    for width in (16, 32):
        yield from both(name, opcode, width, places, **more)


def both(name, opcode, width, places=("register", "memory"), immediate="", reach=0, lock=False, **more):
    """The forms of an opcode of one width, by what its ModRM byte names."""
    sizes = {"": 0, "byte": 1, "whole": width // 8}
    for place in places:
        yield Form(
            name, opcode, width, place, immediate=sizes[immediate], reach=reach or width // 8, lock=lock and place == "memory", **more
        )


def arithmetic_forms():
    """The eight operations of two operands, TEST, and those of one operand."""
    for number, name in enumerate(ALU):
        lock = name != "CMP"
        yield from each_width(name, bytes([8 * number]), lock=lock)
        yield from each_width(name, bytes([8 * number + 2]))
        yield from each_width(name, bytes([8 * number + 4]), ["none"], immediate="whole")
        yield from each_width(name, b"\x80", digit=number, immediate="whole", lock=lock)
        yield from wide(name, b"\x83", digit=number, immediate="byte", lock=lock)
    yield from each_width("TEST", b"\x84")
    yield from each_width("TEST", b"\xa8", ["none"], immediate="whole")
    yield from each_width("TEST", b"\xf6", digit=0, immediate="whole")
    for digit, name in enumerate(["INC", "DEC"]):
        yield from each_width(name, b"\xfe", digit=digit, lock=True)
        yield from wide(name, bytes([0x40 + 8 * digit]), ["low"])
    for digit, name in [(2, "NOT"), (3, "NEG"), (4, "MUL"), (5, "IMUL")]:
        yield from each_width(name, b"\xf6", digit=digit, lock=digit < 4)
    for digit, name in [(6, "DIV"), (7, "IDIV")]:
        yield from each_width(name, b"\xf6", digit=digit, kind="divide")
    yield from wide("IMUL", b"\x0f\xaf")
    yield from wide("IMUL", b"\x69", immediate="whole")
    yield from wide("IMUL", b"\x6b", immediate="byte")


def bit_forms():
    """Shifts, bit tests and scans, and the conditions."""
    for digit, name in enumerate(SHIFTS):
        if name:
            yield from each_width(name, b"\xc0", digit=digit, immediate="byte", kind="shift by a number")
            yield from each_width(name, b"\xd0", digit=digit, kind="shift by 1")
            yield from each_width(name, b"\xd2", digit=digit, kind="shift by CL")
    for opcode, name in [(0xA4, "SHLD"), (0xAC, "SHRD")]:
        yield from wide(name, bytes([0x0F, opcode]), immediate="byte", kind="shift by a number")
        yield from wide(name, bytes([0x0F, opcode + 1]), kind="shift by CL")
    for number, name in enumerate(["BT", "BTS", "BTR", "BTC"]):
        yield from wide(name, bytes([0x0F, 0xA3 + 8 * number]), ["register"])
        yield from wide(name, bytes([0x0F, 0xA3 + 8 * number]), ["memory"], lock=number > 0, kind="bit string")
        yield from wide(name, b"\x0f\xba", digit=4 + number, immediate="byte", lock=number > 0)
    yield from wide("BSF", b"\x0f\xbc", kind="scan")
    yield from wide("BSR", b"\x0f\xbd", kind="scan")
    for number, condition in enumerate(CONDITIONS):
        yield from both("SET" + condition, bytes([0x0F, 0x90 + number]), 8)


def move_forms():
    """Moves, exchanges and addresses."""
    yield from each_width("MOV", b"\x88")
    yield from each_width("MOV", b"\x8a")
    yield from each_width("MOV", b"\xa0", ["offset"])
    yield from each_width("MOV", b"\xa2", ["offset"])
    yield from both("MOV", b"\xb0", 8, ["low"], immediate="whole")
    yield from wide("MOV", b"\xb8", ["low"], immediate="whole")
    yield from each_width("MOV", b"\xc6", digit=0, immediate="whole")
    for opcode, name in [(0xB6, "MOVZX"), (0xBE, "MOVSX")]:
        yield from wide(name, bytes([0x0F, opcode]), reach=1)
        yield from wide(name, bytes([0x0F, opcode + 1]), reach=2)
    yield from each_width("XCHG", b"\x86", lock=True)
    yield from wide("XCHG", b"\x90", ["low"])
    yield from wide("LEA", b"\x8d", ["memory"], kind="address")
    yield from both("XLAT", b"\xd7", 8, ["none"], kind="table")
    for width in (16, 32):
        yield from both("BOUND", b"\x62", width, ["memory"], reach=width // 4, kind="bounds")


def plain_forms():
    """Operations with no operand."""
    for opcode, name in [(0x98, "CWDE"), (0x99, "CDQ")]:
        yield from wide(name, bytes([opcode]), ["none"])
    for opcode, name in [(0x90, "NOP"), (0x9E, "SAHF"), (0x9F, "LAHF"), (0xF5, "CMC"), (0xF8, "CLC"), (0xF9, "STC"), (0xFC, "CLD"), (0xFD, "STD")]:
        yield from both(name, bytes([opcode]), 32, ["none"])


FORMS = [*move_forms(), *arithmetic_forms(), *bit_forms(), *plain_forms()]
NAMES = list(dict.fromkeys(form.name for form in FORMS))


@dataclass
class Case:
    """An instruction with what stands before it. `undefined` are the flags that the manual leaves undefined after it."""

    form: Form
    code: bytes = b""
    registers: list = field(default_factory=lambda: list(FIRST_REGISTERS))
    flags: int = 2
    area: bytearray = field(default_factory=lambda: bytearray(FIRST_AREA))
    undefined: int = 0


def signed(value, width):
    """The value as a number with a sign."""
    value &= (1 << width) - 1
    return value - (1 << width) if value >> (width - 1) else value


def number(dice, width):
    """A value of so many bits: often one at a border, else any."""
    top = 1 << width
    choice = dice.randrange(16)
    if choice < 6:
        return (0, 1, top - 1, top // 2, top // 2 - 1, top - 2)[choice]
    if choice == 6:
        return 1 << dice.randrange(width)
    if choice == 7:
        return dice.randrange(-128, 128) % top
    return dice.randrange(top)


def get_register(case, register, width):
    """A register of a width; of 8 bits AL, CL, DL, BL, AH, CH, DH, BH."""
    if width == 8:
        return case.registers[register % 4] >> (register // 4 * 8) & 0xFF
    return case.registers[register] & (1 << width) - 1


def set_register(case, register, width, value):
    """Sets a register of a width, and leaves the bits beside it."""
    shift = register // 4 * 8 if width == 8 else 0
    register = register % 4 if width == 8 else register
    mask = (1 << width) - 1 << shift
    case.registers[register] = case.registers[register] & ~mask | value << shift & mask


def set_memory(case, address, size, value):
    """Sets bytes of the area."""
    case.area[address - AREA : address - AREA + size] = (value % (1 << 8 * size)).to_bytes(size, "little")


@dataclass(frozen=True)
class Shape:
    """A memory operand as a ModRM byte spells it: its parts, of which each register counts `factors` times."""

    modrm: int
    sib: bytes
    factors: dict
    size: int


def shape_of(mod, low, sib):
    """The memory operand of a ModRM byte's fields, and of a SIB byte where the low one is 4."""
    factors, base = {}, low
    if low == 4:
        base, index = sib & 7, sib >> 3 & 7
        if index != 4:
            factors[index] = 1 << (sib >> 6)
    is_bare = base == 5 and mod == 0
    if not is_bare:
        factors[base] = factors.get(base, 0) + 1
    return Shape(mod << 6 | low, bytes([sib]) if low == 4 else b"", factors, 4 if is_bare else (0, 1, 4)[mod])


PLAIN = [shape_of(mod, low, 0) for mod in range(3) for low in range(8) if low != 4]
SCALED = [shape_of(mod, 4, sib) for mod in range(3) for sib in range(256)]


class Rejected(Exception):
    """What was drawn so far fits no case."""


def displacement(dice, size):
    """A displacement of so many bytes, with its sign."""
    if size == 1:
        return dice.choice([-128, 127, dice.randrange(-128, 128)])
    return signed(number(dice, 32), 32) if size else 0


def divided(dice, value, factor):
    """A number whose product with the factor is the value modulo 2^32."""
    odd = factor
    even = 1
    while odd % 2 == 0:
        odd, even = odd // 2, even * 2
    if value % even:
        raise Rejected
    low = value // even * pow(odd, -1, MODULUS) % (MODULUS // even)
    return (low + dice.randrange(even) * (MODULUS // even)) % MODULUS


def address(dice, case, target, shape, kept=()):
    """The ModRM byte of a shape with the register field 0, and what follows it, for an address; sets registers but for those kept."""
    free = [r for r in shape.factors if r not in kept]
    added = displacement(dice, shape.size)
    if shape.size == 4 and (not free or dice.random() < 0.5):
        added = signed(target - sum(case.registers[r] * n for r, n in shape.factors.items()), 32)
    elif free:
        solved = dice.choice(free)
        for register in free:
            case.registers[register] = number(dice, 32)
        others = sum(case.registers[r] * n for r, n in shape.factors.items() if r != solved)
        case.registers[solved] = divided(dice, (target - added - others) % MODULUS, shape.factors[solved])
    else:
        raise Rejected
    tail = (added % (1 << 8 * shape.size)).to_bytes(shape.size, "little") if shape.size else b""
    return bytes([shape.modrm]) + shape.sib + tail


def takes_lock_alike(form):
    """Whether a later processor takes or refuses LOCK before a form as the 80386 does."""
    return form.name != "BT" or form.place != "memory"


def prefixes(dice, form, memory, locked):
    """Prefixes in any order: the width's, LOCK or at times so, a segment, a repeat that does nothing, and some of them twice."""
    found = [0x66] if form.width == 16 else []
    is_locked = locked or dice.random() < (0.2 if form.lock else 0.01) and takes_lock_alike(form)
    if is_locked:
        found.append(0xF0)
    if memory and dice.random() < 0.25:
        found.append(dice.choice(SEGMENTS))
    if form.opcode[0] != 0x0F and not is_locked and dice.random() < 0.03:
        found.append(dice.choice([0xF2, 0xF3]))
    if found and dice.random() < 0.1:
        found.append(dice.choice(found))
    dice.shuffle(found)
    return bytes(found)


def set_dividend(dice, case, name, divisor):
    """Sets the dividend so that the quotient mostly fits, often only just."""
    width = case.form.width
    half = 1 << (width - 1)
    if name == "IDIV":
        divisor, limits = signed(divisor, width), (-half - 1, -half, half - 1, half)
    else:
        limits = (2 * half - 1, 2 * half, 0)
    quotient = dice.choice([*limits, signed(number(dice, width), width) if name == "IDIV" else number(dice, width)])
    rest = dice.randrange(abs(divisor)) if divisor else 0
    dividend = quotient * divisor + (rest if quotient * divisor >= 0 else -rest)
    if dice.random() < 0.15:
        dividend = dice.randrange(1 << 2 * width)
    if width == 8:
        set_register(case, EAX, 16, dividend)
    else:
        set_register(case, EAX, width, dividend)
        set_register(case, EDX, width, dividend >> width)


def operand_value(dice, form):
    """A value for the operand that the ModRM byte names."""
    width = 8 * form.reach
    if form.kind == "scan" and dice.random() < 0.6:
        return dice.choice([0, 1 << dice.randrange(width), number(dice, width) & number(dice, width)])
    return number(dice, width)


def bounds_value(dice, case, register):
    """Bounds, one above the other, about the register's value."""
    width = case.form.width
    index = signed(get_register(case, register, width), width)
    low = dice.choice([index, index + 1, index - 1, index - dice.randrange(1000), signed(number(dice, width), width)])
    high = dice.choice([index, index + 1, index - 1, index + dice.randrange(1000), signed(number(dice, width), width)])
    return low % (1 << width) | high % (1 << width) << width


def count_of(case, immediate):
    """The count of a shift, of 5 bits."""
    by = {"shift by 1": 1, "shift by CL": case.registers[ECX], "shift by a number": immediate}
    return by[case.form.kind] % 32


def undefined_flags(case, immediate):
    """The flags that the manual leaves undefined after the instruction."""
    name = case.form.name
    if name in ("AND", "OR", "XOR", "TEST"):
        return AF
    if name in ("MUL", "IMUL"):
        return SF | ZF | AF | PF
    if name in ("DIV", "IDIV"):
        return STATUS
    if name in ("BT", "BTS", "BTR", "BTC"):
        return STATUS & ~CF
    if name in ("BSF", "BSR"):
        return STATUS & ~ZF
    if not case.form.kind.startswith("shift"):
        return 0
    count = count_of(case, immediate)
    if count == 0:
        return 0
    return (0 if name in ("ROL", "ROR", "RCL", "RCR") else AF) | (0 if count == 1 else OF)


def counted(dice):
    """A count: often small, else any byte."""
    return dice.choice([dice.randrange(10), dice.randrange(256), dice.choice([0, 1, 1, 8, 15, 16, 17, 31, 32, 33])])


def accumulators(dice, case):
    """Sets AL, AX or EAX, and CL where it is a count, for the forms that take them."""
    set_register(case, EAX, case.form.width, number(dice, case.form.width))
    if case.form.kind == "shift by CL":
        set_register(case, ECX, 8, counted(dice))


def modrm(dice, case, reg, shape):
    """The ModRM byte and what follows it, of a shape where it names memory; sets the operand that it names."""
    form = case.form
    value = operand_value(dice, form)
    if form.kind == "divide":
        set_dividend(dice, case, form.name, value)
    if form.place == "register":
        low = dice.randrange(8)
        if dice.random() < 0.9:
            set_register(case, low, 8 * form.reach, value)
        return bytes([0xC0 | reg << 3 | low])
    target = AREA + dice.randrange(AREA_SIZE - form.reach + 1)
    kept = ()
    place = target
    if form.kind == "bit string":
        kept = (reg,)
        place = target - form.width // 8 * (signed(get_register(case, reg, form.width), form.width) // form.width)
    if form.kind == "address":
        place = number(dice, 32)
    bytes_after = bytearray(address(dice, case, place % MODULUS, shape, kept))
    bytes_after[0] |= reg << 3
    if form.kind == "bounds":
        value = bounds_value(dice, case, reg)
    if form.kind != "address":
        set_memory(case, target, form.reach, value)
    return bytes(bytes_after)


def operands(dice, case, shape):
    """The bytes behind the opcode but for an immediate, and a number to add to the opcode."""
    form = case.form
    accumulators(dice, case)
    if form.place in ("register", "memory"):
        reg = dice.randrange(8) if form.digit is None else form.digit
        if form.digit is None:
            set_register(case, reg, form.width, number(dice, form.width))
        return modrm(dice, case, reg, shape), 0
    if form.place == "low":
        low = dice.randrange(1 if form.opcode == b"\x90" else 0, 8)
        set_register(case, low, form.width, number(dice, form.width))
        return b"", low
    target = AREA + dice.randrange(AREA_SIZE - form.reach + 1)
    if form.place == "offset" or form.kind == "table":
        set_memory(case, target, form.reach, number(dice, 8 * form.reach))
    if form.kind == "table":
        case.registers[EBX] = (target - get_register(case, EAX, 8)) % MODULUS
    return (target.to_bytes(4, "little") if form.place == "offset" else b""), 0


def scattered(dice, case):
    """Sets all registers and all bytes of memory anew."""
    case.registers = list(struct.unpack("<8I", dice.randbytes(32)))
    case.area = bytearray(dice.randbytes(AREA_SIZE))
    for _ in range(2):
        case.registers[dice.getrandbits(3)] = number(dice, 32)
    if dice.random() < 0.2:
        case.registers[dice.getrandbits(3)] = case.registers[dice.getrandbits(3)]


def drawn(dice, form, everywhere, shape, locked):
    """A random case of a form."""
    case = Case(form)
    if everywhere:
        scattered(dice, case)
    case.flags = 2 | dice.getrandbits(12) & COMPARED
    tail, low = operands(dice, case, shape)
    is_count = form.kind == "shift by a number"
    immediate = counted(dice) if is_count else number(dice, 8 * form.immediate) if form.immediate else 0
    memory = form.place in ("memory", "offset") or form.kind == "table"
    opcode = form.opcode[:-1] + bytes([form.opcode[-1] + low])
    case.code = prefixes(dice, form, memory, locked) + opcode + tail + immediate.to_bytes(form.immediate, "little")
    if form.name in ("SHLD", "SHRD") and form.width == 16 and count_of(case, immediate) > 16:
        raise Rejected
    case.undefined = undefined_flags(case, immediate)
    return case


def case_of(dice, form, everywhere, shape=None, locked=False):
    """A random case of a form, of a shape of its memory operand and with LOCK where these are given.

    `everywhere` sets also what the instruction doesn't name.
    """
    while True:
        try:
            return drawn(dice, form, everywhere, shape or dice.choice(SCALED if dice.random() < 0.4 else PLAIN), locked)
        except Rejected:
            continue
