"""Which register an instruction writes, by its word: docs/reference/instructions.md has the formats."""
from typing import Dict, Optional, Set

TOP_BITS = (4, 7, 8, 9, 11)  # that an opcode may have
OF_FOUR = {0x8, 0xB, 0xC}  # selb, shufb and mpya have their target in bits 4 to 10, all others in bits 25 to 31
# Of each length the opcodes that write no register.
WITHOUT: Dict[int, Set[int]] = {
    4: set(),
    7: {0x08, 0x09},  # hbra, hbrr
    8: {0x24, 0x4F, 0x5F, 0x7F},  # stqd; hgti, hlgti, heqi
    9: {0x041, 0x047, 0x040, 0x042, 0x044, 0x046, 0x060, 0x064},  # stqa, stqr; brz, brnz, brhz, brhnz, bra, br
    11: {0x000, 0x001, 0x002, 0x003, 0x201,  # stop, lnop, sync, dsync, nop
         0x144, 0x258, 0x2D8, 0x3D8,  # stqx; hgt, hlgt, heq
         0x128, 0x129, 0x12A, 0x12B, 0x1A8, 0x1AC, 0x10D},  # biz, binz, bihz, bihnz, bi, hbr, wrch
}  # fmt: skip
STOP = 0x000
HALTS = {8: {0x4F, 0x5F, 0x7F}, 11: {0x258, 0x2D8, 0x3D8}}


def target_of(word: int) -> Optional[int]:
    """The number of the register that an instruction writes; None where it writes none. Of a word that spells no instruction the answer says nothing."""
    if any(word >> 32 - bits in WITHOUT[bits] for bits in TOP_BITS):
        return None
    return word >> 21 & 0x7F if word >> 28 in OF_FOUR else word & 0x7F


def ends_rightly(word: int) -> bool:
    """Whether an instruction that ends its processor does what it is for: a stop or a halt, and no fault."""
    return word >> 21 == STOP or any(word >> 32 - bits in opcodes for bits, opcodes in HALTS.items())
