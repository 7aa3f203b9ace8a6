"""What a halt instruction compared, and why that halted its SPU. docs/reference/instructions.md has the six, with their formats."""
from typing import Callable, Dict, List, NamedTuple, Optional, Tuple

BITS, WORD_DIGITS = 32, 8
TEN = 10  # bits of an immediate value
FIELD = 0x7F  # of a register
Register = Callable[[int], str]  # from a register's number to its hexadecimal digits


class Halt(NamedTuple):
    """A halt instruction: the relation that its condition asks for, whether it compares signed, and whether it compares with a value of its own."""
    relation: str
    is_signed: bool
    is_immediate: bool


# By how many bits an opcode has, and the opcode.
HALTS: Dict[Tuple[int, int], Halt] = {
    (11, 0x3D8): Halt("equals", True, False), (11, 0x258): Halt("is greater than", True, False), (11, 0x2D8): Halt("is greater than", False, False),
    (8, 0x7F): Halt("equals", True, True), (8, 0x4F): Halt("is greater than", True, True), (8, 0x5F): Halt("is greater than", False, True),
}  # fmt: skip


def halt_of(word: int) -> Optional[Halt]:
    """The halt instruction that a word is; None for any other."""
    return next((halt for (bits, opcode), halt in HALTS.items() if word >> BITS - bits == opcode), None)


def registers_of(word: int) -> List[int]:
    """The registers that a halt instruction compares; none for any other word."""
    halt = halt_of(word)
    return [] if halt is None else [word >> 7 & FIELD] if halt.is_immediate else [word >> 7 & FIELD, word >> 14 & FIELD]


def compared_text(word: int, register: Register) -> str:
    """The registers that a halt instruction compared, with their values, as ./hunt prints them."""
    return ", ".join(f"${number} = 0x{value_of(number, register):08x}" for number in registers_of(word))


def condition_text(word: int, register: Register) -> str:
    """The condition of a halt instruction, with the values that it compared."""
    halt = halt_of(word)
    if halt is None:
        return f"0x{word:08x} is not a halt instruction"
    immediate = [signed(word >> 14 & (1 << TEN) - 1, TEN) % (1 << BITS)] if halt.is_immediate else []
    values = [*(value_of(number, register) for number in registers_of(word)), *immediate]
    left, right = (signed(value, BITS) if halt.is_signed else value for value in values)
    how = "" if halt.relation == "equals" else " (signed)" if halt.is_signed else " (unsigned)"
    return f"{left} {halt.relation} {right}{how}"


def signed(value: int, bits: int) -> int:
    return value - (1 << bits) if value >> bits - 1 else value


def value_of(number: int, register: Register) -> int:
    """What a halt instruction compares of a register: its word 0."""
    return int(register(number)[:WORD_DIGITS], 16)
