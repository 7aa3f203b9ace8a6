"""The expressions of GNU as: numbers, characters, names, operators with their ranks, and what they come to."""
import collections
import re
from typing import Callable, Deque, Dict, NamedTuple, Optional, Tuple

from celltools.source.language import value_of

ATOM = re.compile(r"(\d+[bf](?!\w)|\d\w*|'(?:\\.|[^\\])'?|[A-Za-z_.][\w.$]*|<<|>>|<>|[<>=!]=|&&|\|\||!!|\S)", re.S | re.A)
NUMERIC_LABEL = re.compile(r"(\d+)([bf])", re.A)
# As GNU as has them; a word of one rank more holds its sides together before one of one rank less does.
RANKS = {**dict.fromkeys(("*", "/", "%", "<<", ">>"), 6), **dict.fromkeys(("|", "&", "^", "!", "!!"), 5), "+": 4, "-": 4,
         **dict.fromkeys(("==", "!=", "<>", "<", "<=", ">", ">="), 3), "&&": 2, "||": 1}
COMPARED: Dict[str, Callable[[int, int], bool]] = {
    "==": lambda a, b: a == b, "!=": lambda a, b: a != b, "<>": lambda a, b: a != b, "<": lambda a, b: a < b, "<=": lambda a, b: a <= b,
    ">": lambda a, b: a > b, ">=": lambda a, b: a >= b,
}  # fmt: skip
CHARACTERS = {"n": 10, "t": 9, "r": 13, "b": 8, "f": 12}
OCTAL = set("01234567")
NUMBERS = [(8, re.compile(r"0([0-7]+)")), (16, re.compile(r"0[xX]([0-9A-Fa-f]+)")), (2, re.compile(r"0[bB]([01]+)")), (10, re.compile(r"(0|[1-9][0-9]*)"))]
SHOWN = 24  # characters of a number that is too large
WRAP = 2**64  # GNU as computes modulo this; a shift right fills with zeros
MOST_NESTED = 100  # parentheses, signs and names within one another


class Value(NamedTuple):
    """A label, or None, and what is added to it."""
    name: Optional[str]
    number: int


class Known:
    """What an expression asks about names."""

    def look_up(self, word: str, depth: int = 1) -> Value:
        """The value of a name."""
        raise NotImplementedError

    def distance(self, left: str, right: str) -> int:
        """How many bytes the first label stands behind the second."""
        raise NotImplementedError


class Unwritable(Exception):
    """Why a line can't be rewritten."""


def number_value(word: str) -> int:
    """The value of a number, a character or an octal of GNU as."""
    if word[0] == "'":
        if word[1] != "\\":
            return ord(word[1])
        return int(word[2], 8) if word[2] in OCTAL else CHARACTERS.get(word[2], ord(word[2]))
    base, found = next(((base, found) for base, form in NUMBERS if (found := form.fullmatch(word))), (10, None))
    if not found:
        raise Unwritable(f"`{word}` is not a number")
    value = value_of(found[1], base)
    if value is None:
        raise Unwritable(f"`{word if len(word) <= SHOWN else word[:SHOWN] + '..'}` has more than 64 bits")
    return value


def wrapped(number: int) -> int:
    """A sum as it is where it has at most 64 bits, so that what is outside the range of its line is refused there; else modulo that."""
    return number if abs(number) < WRAP else (number + WRAP // 2) % WRAP - WRAP // 2


def divided(left: int, right: int) -> Tuple[int, int]:
    """The quotient toward zero, and the remainder that goes with it."""
    if right == 0:
        raise Unwritable("division by zero")
    whole = abs(left) // abs(right) * (1 if (left < 0) == (right < 0) else -1)
    return whole, left - whole * right


def combined(mark: str, left: Value, right: Value) -> Value:
    """What an operator makes of two values; only + and - take labels."""
    if mark == "+" and not (left.name and right.name):
        return Value(left.name or right.name, wrapped(left.number + right.number))
    if mark == "-" and not right.name:
        return Value(left.name, wrapped(left.number - right.number))
    if left.name or right.name:
        raise Unwritable("only a number can be added to a label or subtracted from it")
    a, b = left.number, right.number
    if mark in ("<<", ">>") and not 0 <= b < 64:
        raise Unwritable(f"a shift must be by 0 to 63 bits, not by {b}")
    if mark in COMPARED:
        return Value(None, -1 if COMPARED[mark](a, b) else 0)
    work: Dict[str, Callable[[], int]] = {
        "*": lambda: a * b, "/": lambda: divided(a, b)[0], "%": lambda: divided(a, b)[1], "<<": lambda: a << b,
        ">>": lambda: a % WRAP >> b, "|": lambda: a | b, "&": lambda: a & b, "^": lambda: a ^ b, "!": lambda: a | ~b, "!!": lambda: a ^ b,
        "&&": lambda: int(a != 0 and b != 0), "||": lambda: int(a != 0 or b != 0),
    }  # fmt: skip
    return Value(None, (work[mark]() + WRAP // 2) % WRAP - WRAP // 2)


def negated(value: Value, times: int) -> Value:
    """What one `!` or two make of a number: whether it is 0, or isn't."""
    if value.name:
        raise Unwritable(f"`!` takes a number, but `{value.name}` is a label")
    return Value(None, int((value.number == 0) == (times == 1)))


class Expression:
    """Reads one expression of GNU as; `names` looks up the value of a name, and the distance of two labels.

    `depth` is in how many names, signs and parentheses it stands.
    """

    def __init__(self, text: str, names: Known, depth: int = 0) -> None:
        self.words: Deque[str] = collections.deque(ATOM.findall(text))
        self.names, self.depth = names, depth

    def value(self) -> Value:
        value = self.ranked(1)
        if self.words:
            raise Unwritable(f"unexpected `{self.words[0]}` in an expression")
        return value

    def ranked(self, least: int) -> Value:
        value = self.prefixed()
        while self.words and RANKS.get(self.words[0], 0) >= least:
            mark = self.words.popleft()
            right = self.ranked(RANKS[mark] + 1)
            if (mark == "-" or mark in COMPARED) and value.name and right.name:
                value = Value(None, wrapped(self.names.distance(value.name, right.name) + value.number))
                right = Value(None, right.number)
            value = combined(mark, value, right)
        return value

    def within(self, read: Callable[[], Value]) -> Value:
        """What is read one level deeper."""
        if self.depth == MOST_NESTED:
            raise Unwritable(f"more than {MOST_NESTED} nested parentheses, signs and names")
        self.depth += 1
        value = read()
        self.depth -= 1
        return value

    def prefixed(self) -> Value:
        if not self.words:
            raise Unwritable("missing expression")
        word = self.words.popleft()
        if word == "(":
            value = self.within(lambda: self.ranked(1))
            if not self.words or self.words.popleft() != ")":
                raise Unwritable("missing `)`")
            return value
        if word in ("-", "~", "+", "!", "!!"):
            value = self.within(self.prefixed)
            if word == "+":
                return value
            if word.startswith("!"):
                return negated(value, len(word))
            value = combined("-", Value(None, 0), value)
            return value if word == "-" else Value(None, wrapped(value.number - 1))
        if word[0] == "'" and word != "'" or word[0].isdigit() and not NUMERIC_LABEL.fullmatch(word):
            return Value(None, number_value(word))
        return self.within(lambda: self.names.look_up(word, self.depth))
