"""One instruction of an SPU, written from the public standard (SPU Instruction Set Architecture 1.2) alone, as tables of lanes: tests/vectors compares the
vectors of the proved machine with it. It shares no code and no table with the product.

Quadwords are integers of 128 bits; bit 0 of the standard is the most significant one.
"""
import dataclasses
from typing import Callable, Dict, List, Optional, Tuple

STORE, WORD, QUAD = 0x40000, 0xFFFFFFFF, (1 << 128) - 1
TRUE = -1
Lane = Callable[[int, int, int], int]


def signed(value: int, bits: int) -> int:
    value &= (1 << bits) - 1
    return value - (1 << bits) if value >> (bits - 1) else value


def lanes(quad: int, bits: int) -> List[int]:
    return [quad >> shift & ((1 << bits) - 1) for shift in range(128 - bits, -1, -bits)]


def joined(values: List[int], bits: int) -> int:
    quad = 0
    for value in values:
        quad = quad << bits | value & ((1 << bits) - 1)
    return quad


@dataclasses.dataclass
class State:
    """The registers, quadwords of the store by address, the inbound mailbox, the PC and the status."""
    registers: Dict[int, int]
    store: Dict[int, int]
    mailbox: List[int]
    pc: int
    status: str = "running"

    def word(self, register: int) -> int:
        """The preferred slot."""
        return self.registers[register] >> 96


def low(value: int) -> int:
    return signed(value, 16)


def high(value: int) -> int:
    return signed(value >> 16, 16)


def truth(holds: bool) -> int:
    return TRUE if holds else 0


# ---- by lanes: the width, and the value of a lane by those of RA, RB or the immediate, and RT

LANES: Dict[int, Tuple[int, Lane]] = {  # by opcodes of 11 bits, RR
    0x0C8: (16, lambda a, b, t: a + b), 0x0C0: (32, lambda a, b, t: a + b), 0x048: (16, lambda a, b, t: b - a), 0x040: (32, lambda a, b, t: b - a),
    0x340: (32, lambda a, b, t: a + b + (t & 1)), 0x341: (32, lambda a, b, t: b + (a ^ WORD) + (t & 1)), 0x0C2: (32, lambda a, b, t: a + b >> 32),
    0x342: (32, lambda a, b, t: a + b + (t & 1) >> 32), 0x042: (32, lambda a, b, t: int(b >= a)), 0x343: (32, lambda a, b, t: b + (a ^ WORD) + (t & 1) >> 32),
    0x3C4: (32, lambda a, b, t: low(a) * low(b)), 0x3CC: (32, lambda a, b, t: (a & 0xFFFF) * (b & 0xFFFF)), 0x3C5: (32, lambda a, b, t: (a >> 16) * (b & 0xFFFF) << 16),
    0x3C7: (32, lambda a, b, t: low(a) * low(b) >> 16), 0x3C6: (32, lambda a, b, t: high(a) * high(b)), 0x346: (32, lambda a, b, t: high(a) * high(b) + t),
    0x3CE: (32, lambda a, b, t: (a >> 16) * (b >> 16)), 0x34E: (32, lambda a, b, t: (a >> 16) * (b >> 16) + t),
    0x2A5: (32, lambda a, b, t: 32 - a.bit_length()), 0x2B4: (8, lambda a, b, t: bin(a).count("1")),
    0x2B6: (16, lambda a, b, t: signed(a, 8)), 0x2AE: (32, lambda a, b, t: signed(a, 16)), 0x2A6: (64, lambda a, b, t: signed(a, 32)),
    0x0D3: (8, lambda a, b, t: a + b + 1 >> 1), 0x053: (8, lambda a, b, t: abs(a - b)), 0x253: (32, lambda a, b, t: sum(b.to_bytes(4, "big")) << 16 | sum(a.to_bytes(4, "big"))),
    0x0C1: (128, lambda a, b, t: a & b), 0x041: (128, lambda a, b, t: a | b), 0x241: (128, lambda a, b, t: a ^ b), 0x0C9: (128, lambda a, b, t: ~(a & b)),
    0x049: (128, lambda a, b, t: ~(a | b)), 0x249: (128, lambda a, b, t: ~(a ^ b)), 0x2C1: (128, lambda a, b, t: a & ~b), 0x2C9: (128, lambda a, b, t: a | ~b),
    0x05F: (16, lambda a, b, t: a << (b & 31)), 0x05B: (32, lambda a, b, t: a << (b & 63)),
    0x05C: (16, lambda a, b, t: a << (b & 15) | a >> 16 - (b & 15)), 0x058: (32, lambda a, b, t: a << (b & 31) | a >> 32 - (b & 31)),
    0x05D: (16, lambda a, b, t: a >> (-b & 31)), 0x059: (32, lambda a, b, t: a >> (-b & 63)),
    0x05E: (16, lambda a, b, t: signed(a, 16) >> (-b & 31)), 0x05A: (32, lambda a, b, t: signed(a, 32) >> (-b & 63)),
    **{code + place: (bits, lambda a, b, t: truth(a == b)) for code, places in ((0x3C0, (0, 8, 16)),) for place, bits in zip(places, (32, 16, 8))},
    0x250: (8, lambda a, b, t: truth(signed(a, 8) > signed(b, 8))), 0x248: (16, lambda a, b, t: truth(low(a) > low(b))),
    0x240: (32, lambda a, b, t: truth(signed(a, 32) > signed(b, 32))),
    0x2D0: (8, lambda a, b, t: truth(a > b)), 0x2C8: (16, lambda a, b, t: truth(a > b)), 0x2C0: (32, lambda a, b, t: truth(a > b)),
}  # fmt: skip
# By opcodes of 8 bits, RI10, with the immediate's bits as a lane of that width; those of 11 bits with an immediate of 7 bits use LANES by another opcode.
LANES_OF_TEN: Dict[int, Tuple[int, Lane]] = {
    0x1D: LANES[0x0C8], 0x1C: LANES[0x0C0], 0x0D: LANES[0x048], 0x0C: LANES[0x040], 0x74: LANES[0x3C4], 0x75: LANES[0x3CC],
    0x16: (8, lambda a, i, t: a & i), 0x15: (16, lambda a, i, t: a & i), 0x14: (32, lambda a, i, t: a & i), 0x06: (8, lambda a, i, t: a | i), 0x05: (16, lambda a, i, t: a | i),
    0x04: (32, lambda a, i, t: a | i), 0x46: (8, lambda a, i, t: a ^ i), 0x45: (16, lambda a, i, t: a ^ i), 0x44: (32, lambda a, i, t: a ^ i),
    0x7E: LANES[0x3D0], 0x7D: LANES[0x3C8], 0x7C: LANES[0x3C0], 0x4E: LANES[0x250], 0x4D: LANES[0x248], 0x4C: LANES[0x240], 0x5E: LANES[0x2D0], 0x5D: LANES[0x2C8],
    0x5C: LANES[0x2C0],
}  # fmt: skip
LANES_OF_SEVEN = {0x07F: LANES[0x05F], 0x07B: LANES[0x05B], 0x07C: LANES[0x05C], 0x078: LANES[0x058], 0x07D: LANES[0x05D], 0x079: LANES[0x059], 0x07E: LANES[0x05E],
                  0x07A: LANES[0x05A]}
# Of whole quadwords, by RA and a count: the preferred slot of RB, or the immediate of 7 bits.
WHOLE: Dict[int, Callable[[int, int], int]] = {
    0x1DB: lambda a, n: a << (n & 7), 0x1DF: lambda a, n: a << 8 * (n & 31), 0x1CF: lambda a, n: a << 8 * (n >> 3 & 31),
    0x1DC: lambda a, n: turned(a, 8 * (n & 15)), 0x1CC: lambda a, n: turned(a, 8 * (n >> 3 & 15)), 0x1D8: lambda a, n: turned(a, n & 7),
    0x1DD: lambda a, n: a >> 8 * (-n & 31), 0x1CD: lambda a, n: a >> 8 * (-(n >> 3) & 31), 0x1D9: lambda a, n: a >> (-n & 7),
}
WHOLE_OF_SEVEN = {0x1FB: WHOLE[0x1DB], 0x1FF: WHOLE[0x1DF], 0x1FC: WHOLE[0x1DC], 0x1F8: WHOLE[0x1D8], 0x1FD: WHOLE[0x1DD], 0x1F9: WHOLE[0x1D9]}


def turned(quad: int, bits: int) -> int:
    return quad << bits | quad >> 128 - bits


def masked(mask: int, count: int, bits: int) -> int:
    """A truth value for each of `count` bits of a mask, from the left."""
    return joined([truth(bool(mask >> count - 1 - place & 1)) for place in range(count)], bits)


def gathered(quad: int, bits: int) -> int:
    """The lowest bit of each lane, in the preferred slot."""
    return joined([lane & 1 for lane in lanes(quad, bits)], 1) << 96


ONE: Dict[int, Callable[[int], int]] = {  # of RA alone
    0x1B6: lambda a: masked(a >> 96, 16, 8), 0x1B5: lambda a: masked(a >> 96, 8, 16), 0x1B4: lambda a: masked(a >> 96, 4, 32),
    0x1B2: lambda a: gathered(a, 8), 0x1B1: lambda a: gathered(a, 16), 0x1B0: lambda a: gathered(a, 32),
    0x1F0: lambda a: (lanes(a, 32)[0] | lanes(a, 32)[1] | lanes(a, 32)[2] | lanes(a, 32)[3]) << 96,
}
INSERTED = {0: ([3], 0xF), 1: ([2, 3], 0xE), 2: ([0, 1, 2, 3], 0xC), 3: (list(range(8)), 0x8)}  # by the last two bits of the opcode: the bytes, and the mask of their place


def insertion(kind: int, address: int) -> int:
    pattern, mask = INSERTED[kind]
    found = list(range(0x10, 0x20))
    at = address & mask
    found[at:at + len(pattern)] = pattern
    return joined(found, 8)


def shuffled(a: int, b: int, c: int) -> int:
    both = lanes(a, 8) + lanes(b, 8)
    return joined([0 if x >> 6 == 2 else 0xFF if x >> 5 == 6 else 0x80 if x >> 5 == 7 else both[x & 31] for x in lanes(c, 8)], 8)


CONSTANTS: Dict[int, Callable[[int, int], int]] = {  # by opcodes of 9 bits, of the immediate of 16 bits and RT
    0x081: lambda i, t: joined([signed(i, 16)] * 4, 32), 0x083: lambda i, t: joined([i] * 8, 16), 0x082: lambda i, t: joined([i << 16] * 4, 32),
    0x0C1: lambda i, t: t | joined([i] * 4, 32), 0x065: lambda i, t: masked(i, 16, 8),
}


# ---- one instruction

def step(state: State, word: int) -> None:
    """Executes a word. A form that this model lacks is a KeyError of its tables."""
    rt, ra, rb = word & 127, word >> 7 & 127, word >> 14 & 127
    for form in (of_four, of_seven, of_eight, of_nine, of_eleven):
        if form(state, word, rt, ra, rb):
            return
    raise ValueError(f"{word:08x} is in no table")


def put(state: State, register: int, value: int) -> bool:
    """Puts a value into a register, and goes on."""
    state.registers[register] = value & QUAD
    return go(state)


def go(state: State, target: Optional[int] = None) -> bool:
    state.pc = (state.pc + 4 if target is None else target) % STORE
    return True


def of_four(state: State, word: int, rc: int, ra: int, rb: int) -> bool:
    """RRR."""
    rt, registers = word >> 21 & 127, state.registers
    opcode = word >> 28
    if opcode == 0xC:
        products = [low(a) * low(b) + c for a, b, c in zip(lanes(registers[ra], 32), lanes(registers[rb], 32), lanes(registers[rc], 32))]
        return put(state, rt, joined(products, 32))
    if opcode == 0x8:
        return put(state, rt, registers[rb] & registers[rc] | registers[ra] & ~registers[rc])
    return opcode == 0xB and put(state, rt, shuffled(registers[ra], registers[rb], registers[rc]))


def of_seven(state: State, word: int, rt: int, _ra: int, _rb: int) -> bool:
    """RI18, and the hints of 7 bits."""
    opcode = word >> 25
    if opcode == 0x21:
        return put(state, rt, joined([word >> 7 & 0x3FFFF] * 4, 32))
    return opcode in (0x08, 0x09) and go(state)


def of_eight(state: State, word: int, rt: int, ra: int, _rb: int) -> bool:
    """RI10."""
    opcode, immediate, registers = word >> 24, signed(word >> 14, 10), state.registers
    if opcode in LANES_OF_TEN:
        bits, lane = LANES_OF_TEN[opcode]
        return put(state, rt, joined([lane(a, immediate & ((1 << bits) - 1), 0) for a in lanes(registers[ra], bits)], bits))
    if opcode in (0x34, 0x24):
        return moved(state, rt, state.word(ra) + 16 * immediate, opcode == 0x34)
    if opcode in (0x7F, 0x4F, 0x5F):
        return halted(state, opcode, state.word(ra), immediate & WORD, (0x7F, 0x4F))
    return False


def moved(state: State, rt: int, address: int, is_load: bool) -> bool:
    """A load or store of the quadword at an address."""
    at = address & 0x3FFF0
    if is_load:
        return put(state, rt, state.store[at])
    state.store[at] = state.registers[rt]
    return go(state)


def halted(state: State, opcode: int, one: int, other: int, equal_and_signed: Tuple[int, int]) -> bool:
    equal, with_sign = equal_and_signed
    holds = one == other if opcode == equal else signed(one, 32) > signed(other, 32) if opcode == with_sign else one > other
    if holds:
        state.status = "halted"
    return go(state)


def of_nine(state: State, word: int, rt: int, _ra: int, _rb: int) -> bool:
    """RI16."""
    opcode, bits = word >> 23, word >> 7 & 0xFFFF
    offset = 4 * signed(bits, 16)
    if opcode in CONSTANTS:
        return put(state, rt, CONSTANTS[opcode](bits, state.registers[rt]))
    if opcode in (0x061, 0x041):
        return moved(state, rt, offset, opcode == 0x061)
    if opcode in (0x067, 0x047):
        return moved(state, rt, state.pc + offset, opcode == 0x067)
    if opcode in (0x064, 0x060):
        return go(state, offset + (state.pc if opcode == 0x064 else 0))
    if opcode in (0x066, 0x062):
        target = offset + (state.pc if opcode == 0x066 else 0)
        state.registers[rt] = (state.pc + 4) % STORE << 96
        return go(state, target)
    if opcode in (0x042, 0x040, 0x046, 0x044):
        return branched(state, rt, opcode in (0x042, 0x046), opcode in (0x046, 0x044), state.pc + offset)
    return False


def branched(state: State, rt: int, wants_other: bool, is_half: bool, target: int) -> bool:
    """A branch on zero or not zero of the preferred word, or of its right halfword."""
    value = state.word(rt) & 0xFFFF if is_half else state.word(rt)
    return go(state, target if (value != 0) == wants_other else None)


def of_eleven(state: State, word: int, rt: int, ra: int, rb: int) -> bool:
    """RR, RI7, indirect branches, and those without operands."""
    opcode, seven, registers = word >> 21, word >> 14 & 127, state.registers
    if opcode in LANES:
        bits, lane = LANES[opcode]
        b = lanes(registers.get(rb, 0), bits)
        return put(state, rt, joined([lane(*parts) for parts in zip(lanes(registers[ra], bits), b, lanes(registers[rt], bits))], bits))
    if opcode in LANES_OF_SEVEN:
        bits, lane = LANES_OF_SEVEN[opcode]
        return put(state, rt, joined([lane(a, seven, 0) for a in lanes(registers[ra], bits)], bits))
    if opcode in WHOLE:
        return put(state, rt, WHOLE[opcode](registers[ra], state.word(rb)))
    if opcode in WHOLE_OF_SEVEN:
        return put(state, rt, WHOLE_OF_SEVEN[opcode](registers[ra], seven))
    if opcode in ONE:
        return put(state, rt, ONE[opcode](registers[ra]))
    if opcode >> 2 in (0x1F4 >> 2, 0x1D4 >> 2):
        return put(state, rt, insertion(opcode & 3, state.word(ra) + (signed(seven, 7) if opcode >> 2 == 0x1F4 >> 2 else state.word(rb))))
    if opcode in (0x1C4, 0x144):
        return moved(state, rt, state.word(ra) + state.word(rb), opcode == 0x1C4)
    if opcode in (0x3D8, 0x258, 0x2D8):
        return halted(state, opcode, state.word(ra), state.word(rb), (0x3D8, 0x258))
    return of_control(state, opcode, word, rt, ra)


def of_control(state: State, opcode: int, word: int, rt: int, ra: int) -> bool:
    if opcode in (0x1A8, 0x1A9, 0x129, 0x128, 0x12B, 0x12A):
        target = state.word(ra) & 0x3FFFC
        if opcode == 0x1A9:
            state.registers[rt] = (state.pc + 4) % STORE << 96
        return go(state, target) if opcode in (0x1A8, 0x1A9) else branched(state, rt, bool(opcode & 1), bool(opcode & 2), target)
    if opcode == 0:
        state.status = f"stopped 0x{word & 0x3FFF:04x}"
        return go(state)
    if opcode in (0x00D, 0x00F, 0x10D):
        return of_channel(state, opcode, rt, ra)
    return opcode in (0x201, 0x001, 0x002, 0x003, 0x1AC) and go(state)


# ---- channels: the direction, and the count at the start (CBEA, "SPU channel map"); reads at the start give 0 where they don't wait

READ, WRITE = 0x00D, 0x10D
CHANNELS: Dict[int, Tuple[int, int]] = {
    0: (READ, 0), 1: (WRITE, 1), 2: (WRITE, 1), 3: (READ, 0), 4: (READ, 0), 11: (READ, 1), 12: (READ, 1), **{number: (WRITE, 1) for number in range(16, 21)},
    21: (WRITE, 16), 22: (WRITE, 1), 23: (WRITE, 1), 24: (READ, 0), 25: (READ, 0), 26: (WRITE, 1), 27: (READ, 0), 28: (WRITE, 1), 29: (READ, 0), 30: (WRITE, 1),
}  # fmt: skip


def of_channel(state: State, opcode: int, rt: int, number: int) -> bool:
    direction, count = CHANNELS.get(number, (0, 0))
    count = len(state.mailbox) if number == 29 else count
    if direction == 0 or opcode not in (0x00F, direction):
        state.status = "badchannel"
        return True
    if opcode == 0x00F:
        return put(state, rt, count << 96)
    if count == 0:
        return True  # it waits
    if opcode == WRITE:
        return go(state)
    return put(state, rt, (state.mailbox.pop(0) if number == 29 else 0) << 96)
