"""The one grammar by which a debugger's user names bytes, registers, values and conditions."""
import dataclasses
import operator
import re
from typing import Callable, Dict, List, Optional, Sequence, Tuple

from celltools.common.texts import number_of
from celltools.debugger.places import MOST, STORE, Places, Wrong, is_processor, processor_of, register_of
from celltools.run.effects import Span
from celltools.run.stepping import Run
from celltools.telling.words import counted

PART = re.compile(r"(\$\w+)\.([0-3])", re.A)
TOKEN = re.compile(r"[=!<>]=?|[^\s=!<>]+")
NEGATIVE = re.compile(r"-(?=\w)")
WORD, REGISTER_BYTES = 4, 16
WIDTHS = {"bytes": 1, "halfwords": 2, "words": 4, "doublewords": 8, "quadwords": 16}
VALUE_BYTES = (1, 2, 4, 8, 16)
COMPARED: Dict[str, Callable[[int, int], bool]] = {"==": operator.eq, "!=": operator.ne, "<": operator.lt, "<=": operator.le, ">": operator.gt,
                                                  ">=": operator.ge}
OF_CONDITIONS = "type VALUE, one of == != < <= > >=, and VALUE; join several with `and` (see `help watch`)"


class Value:
    """What has bytes behind so many steps; of a processor, where it names none itself."""

    def read(self, run: Run, place: int, spe: int) -> bytes:
        raise NotImplementedError

    def as_number(self, run: Run, place: int, spe: int, is_signed: bool) -> int:
        return int.from_bytes(self.read(run, place, spe), "big", signed=is_signed)


@dataclasses.dataclass(frozen=True)
class Register(Value):
    """A register, or one word of it; `spe` is None where it is of the processor that a condition is asked of."""
    number: int
    spe: Optional[int] = None
    part: Optional[int] = None

    def read(self, run: Run, place: int, spe: int) -> bytes:
        """Its bytes behind so many steps."""
        digits = bytes.fromhex(run.state(place).spes[spe if self.spe is None else self.spe].register(self.number))
        return digits if self.part is None else digits[WORD * self.part:][:WORD]

    @property
    def name(self) -> str:
        return f"${self.number}" + ("" if self.part is None else f".{self.part}")


@dataclasses.dataclass(frozen=True)
class Counter(Value):
    """A PC."""
    spe: Optional[int] = None

    def read(self, run: Run, place: int, spe: int) -> bytes:
        return run.state(place).spes[spe if self.spe is None else self.spe].pc.to_bytes(WORD, "big")


@dataclasses.dataclass(frozen=True)
class Bytes(Value):
    """Bytes of a store or of main memory; `register` is the one whose word 0 was their address."""
    span: Span
    register: Optional[int] = None

    def read(self, run: Run, place: int, spe: int) -> bytes:
        return run.bytes_of(self.span, place)

    @property
    def addressed(self) -> str:
        """What there is to say of an address that a register had."""
        return "" if self.register is None else f" (at 0x{self.span.at:x}, the present value of ${self.register})"


@dataclasses.dataclass(frozen=True)
class Number(Value):
    """A number; a negative one lets both sides of a comparison be read signed."""
    value: int

    def as_number(self, run: Run, place: int, spe: int, is_signed: bool) -> int:
        return self.value


@dataclasses.dataclass(frozen=True)
class Comparison:
    left: Value
    sign: str
    right: Value

    def holds(self, run: Run, place: int, spe: int) -> bool:
        """Whether it is so behind so many steps, of a processor."""
        is_signed = any(isinstance(side, Number) and side.value < 0 for side in (self.left, self.right))
        return COMPARED[self.sign](*(side.as_number(run, place, spe, is_signed) for side in (self.left, self.right)))


@dataclasses.dataclass(frozen=True)
class Condition:
    """Comparisons that all have to hold."""
    text: str
    comparisons: Tuple[Comparison, ...]

    def holds(self, run: Run, place: int, spe: int) -> bool:
        return all(comparison.holds(run, place, spe) for comparison in self.comparisons)


class Grammar:
    """Reads words for one session."""

    def __init__(self, run: Run, places: Places) -> None:
        self.run, self.places = run, places

    # ---- processors and ranges

    def owned(self, words: Sequence[str]) -> Tuple[Optional[int], List[str]]:
        """The processor that the first word names as x1, and the others; None where it names none."""
        if words and is_processor(words[0]):
            return processor_of(words[0], self.run.spes), list(words[1:])
        return None, list(words)

    def span(self, words: Sequence[str], looked_at: int) -> Span:
        """The bytes that words name."""
        return self.bytes(words, looked_at).span

    def bytes(self, words: Sequence[str], looked_at: int) -> Bytes:
        if words[:1] == ["mem"]:
            return self.bytes_at(None, words[1:], self.run.memory, looked_at)
        if words[:1] == ["ls"] and len(words) > 1:
            return self.bytes_at(processor_of(words[1], self.run.spes), words[2:], STORE, looked_at)
        spe, rest = self.owned(words)
        return self.bytes_at(looked_at if spe is None else spe, rest, STORE, looked_at)

    def bytes_at(self, spe: Optional[int], words: Sequence[str], size: int, looked_at: int) -> Bytes:
        """The bytes that an address and perhaps a size name, of a place with so many bytes."""
        if not words:
            raise Wrong("missing range: type an address, a label or a register, and a number of bytes (see `help x`)")
        owner = looked_at if spe is None else spe
        at = self.address(words[0], owner)
        if at is None:
            raise Wrong(f"`{words[0]}` is not an address, a label of SPU {owner} or a register (see `help x`)")
        many = self.places.size_of(words[0], owner) if len(words) == 1 else number_of(words[1]) if len(words) == 2 else None
        if not many or many > MOST:
            raise Wrong(f"`{' '.join(words[1:])}` is not a number of bytes: type 1 to {MOST}")
        if at + many > size:
            raise Wrong(f"the range of {counted(many, 'byte')} at 0x{at:x} goes beyond the end, 0x{size:x}: type a lower address or fewer bytes")
        return Bytes(Span(spe, at, many), register_of(words[0]))

    def address(self, word: str, spe: int) -> Optional[int]:
        """The address that a word names: a number, a label, or word 0 of a register."""
        register = register_of(word)
        if register is not None:
            return int(self.run.state().spes[spe].register(register)[:8], 16)
        number = number_of(word)
        return number if number is not None else self.places.address(word, spe)

    # ---- values

    def register(self, word: str, spe: Optional[int]) -> Optional[Register]:
        """The register, or the word of one, that a word names; None for any other word."""
        found = PART.fullmatch(word)
        number = register_of(found[1] if found else word)
        return None if number is None else Register(number, spe, int(found[2]) if found else None)

    def split(self, words: Sequence[str]) -> List[List[str]]:
        """The words of several things, each of its own: a number behind an address or a label is its size."""
        parts: List[List[str]] = []
        left = list(words)
        while left:
            many = self.least(left)
            if left[many:] and number_of(left[many]) is not None and not self.is_sizeless(left[:many]):
                many += 1
            parts.append(left[:many])
            del left[:many]
        return parts

    def is_sizeless(self, words: Sequence[str]) -> bool:
        """Whether words name what has a size of its own: a register or a PC, and not the bytes at its address."""
        return words[0] not in ("mem", "ls") and (words[-1] == "pc" or self.register(words[-1], None) is not None)

    def least(self, words: Sequence[str]) -> int:
        """How many words the thing has at least with which these begin."""
        return {"mem": 2, "ls": 3}.get(words[0], 2 if is_processor(words[0]) else 1)

    def value(self, words: Sequence[str], looked_at: int) -> Value:
        """The value that the words of one side of a comparison name. A register without a processor is of the one that the condition is asked of."""
        spe, rest = self.owned(words)
        if len(rest) == 1:
            register = self.register(rest[0], spe)
            if register:
                return register if register.part is not None else dataclasses.replace(register, part=0)
            if rest[0] == "pc":
                return Counter(spe)
            number = number_of(NEGATIVE.sub("", rest[0], count=1))
            if number is not None and spe is None:
                return Number(-number if rest[0].startswith("-") else number)
        found = self.bytes([*words, str(WORD)] if len(words) == self.least(words) else words, looked_at)
        if found.span.size not in VALUE_BYTES:
            raise Wrong(f"a range of {counted(found.span.size, 'byte')} is not a number: type 1, 2, 4, 8 or 16 after the address")
        return found

    def condition(self, words: Sequence[str], looked_at: int) -> Condition:
        """What words say behind `if`."""
        tokens = TOKEN.findall(" ".join(words))
        return Condition(" ".join(tokens), tuple(self.comparison(part, looked_at) for part in split_at(tokens, "and")))

    def comparison(self, tokens: Sequence[str], looked_at: int) -> Comparison:
        signs = [k for k, token in enumerate(tokens) if token in COMPARED]
        if len(signs) != 1 or not 0 < signs[0] < len(tokens) - 1:
            raise Wrong((f"`{' '.join(tokens)}` is not a comparison: " if tokens else "missing comparison: ") + OF_CONDITIONS)
        at = signs[0]
        return Comparison(self.value(tokens[:at], looked_at), tokens[at], self.value(tokens[at + 1:], looked_at))

    def conditional(self, words: Sequence[str], looked_at: int) -> Tuple[List[str], Optional[Condition]]:
        """The words before `if`, and the condition behind it; None where there is none."""
        if "if" not in words:
            return list(words), None
        at = list(words).index("if")
        return list(words[:at]), self.condition(words[at + 1:], looked_at)


def split_at(tokens: Sequence[str], mark: str) -> List[List[str]]:
    """The tokens between marks."""
    parts: List[List[str]] = [[]]
    for token in tokens:
        if token == mark:
            parts.append([])
        else:
            parts[-1].append(token)
    return parts


def with_width(words: Sequence[str]) -> Tuple[List[str], Optional[int]]:
    """The words before `as`, and how many bytes are shown together; None where nothing is said of it."""
    if "as" not in words:
        return list(words), None
    at = list(words).index("as")
    width = WIDTHS.get(words[at + 1]) if len(words) == at + 2 else None
    if width is None:
        raise Wrong(f"usage: .. as WIDTH, at the end; WIDTH is one of {', '.join(WIDTHS)}")
    return list(words[:at]), width
