"""The words by which a debugger's user names processors, places of programs and ranges of bytes."""
import os
import re
from typing import Dict, Iterable, List, Optional, Sequence

from celltools.common.texts import number_of
from celltools.run.machine_state import Actor
from celltools.source.language import SMALL
from celltools.source.placed import Place
from celltools.source.sites import Sites

STORE = 262_144
MOST_STEPS = 1_000_000  # of any run
PLAIN_SIZE = 16  # bytes of a range that says no size
MOST = 4096  # bytes of a range
ACTOR = re.compile(r"([xm])(\d{1,2})|h(?:ost)?", re.A)
FILE_LINE = re.compile(r"(.+):(\d+)", re.A)
LABEL = re.compile(r"([A-Za-z_.][\w.]*)(?:([+-])(\w+))?", re.A)
REGISTER = re.compile(rf"\$({SMALL}|lr|sp)", re.A)
NAMED = {"lr": 0, "sp": 1}


class Wrong(Exception):
    """What is wrong with a command, and what to type."""


def part_number(word: str) -> int:
    """The number that a part of a place spells; Wrong where it is none."""
    number = number_of(word)
    if number is None:
        raise Wrong(f"`{word}` is not a number: type decimal digits without a leading zero, or 0x and 1 to 8 hexadecimal digits")
    return number


def count_of(words: Sequence[str]) -> int:
    """The number of steps that words say, 1 where there are none."""
    if not words:
        return 1
    count = number_of(words[0]) if len(words) == 1 else None
    if not count or count > MOST_STEPS:
        raise Wrong(f"`{' '.join(words)}` is not a number of steps: type 1 to {MOST_STEPS}")
    return count


def actor_of_word(word: str, spes: int) -> Optional[Actor]:
    """The actor that a word names: x and a processor, m and that of a flow controller, h; None for any other word."""
    found = ACTOR.fullmatch(word)
    if not found:
        return None
    if not found[1]:
        return "h", None
    return found[1], processor_of(found[2], spes, word)


def is_processor(word: str) -> bool:
    """Whether a word is x and a number."""
    return re.fullmatch(r"x\d{1,2}", word, re.A) is not None


def processor_of(word: str, spes: int, typed: str = "") -> int:
    """The processor of a number; `typed` is the actor that was typed, if the number is a part of that."""
    number = number_of(word.removeprefix("x"))
    if number is None or number >= spes:
        last, kind = spes - 1, "an MFC" if typed.startswith("m") else "an SPU"
        raise Wrong(f"`{typed or word}` is not {kind}: " + (f"type a number from 0 to {last}" if last else "there is only SPU 0"))
    return number


def register_of(word: str) -> Optional[int]:
    """The number of a register by its name; None for any other word."""
    found = REGISTER.fullmatch(word)
    if not found:
        return None
    return NAMED[found[1]] if found[1] in NAMED else int(found[1])


class Places:
    """Knows where lines and labels of a machine's sources stand."""

    def __init__(self, sites: Sites) -> None:
        self.sites, self.spes = sites, len(sites.of_processor)

    def label(self, name: str, spe: int) -> Optional[Place]:
        """The address and the size of a label in a processor's store; None where it has none."""
        return self.sites.labels[spe].get(name)

    def of_lines(self, file: str, number: int, spe: int) -> List[int]:
        """The addresses of a processor's instructions that come from a line of a file."""
        origin = f"{file}:{number}"
        return [at for at, site in self.sites.of_processor[spe].items()
                if site.number == number and is_named(site.file, file) or site.origin and is_named(site.origin_line, origin)]

    def last_line(self, file: str, spe: int) -> int:
        """The last line of a file that placed something in a processor's store; 0 where none did."""
        return max((site.number for site in self.sites.of_processor[spe].values() if is_named(site.file, file)), default=0)

    def file_line(self, file: str, number: int, spe: int) -> Optional[int]:
        """The address of the first instruction from a line of a file, or else from the next line that placed one."""
        for line in range(number, max(number, self.last_line(file, spe)) + 1):
            found = self.of_lines(file, line, spe)
            if found:
                return min(found)
        return None

    def address(self, word: str, spe: int) -> Optional[int]:
        """The address of a place in a processor's store; None where it isn't there."""
        number = number_of(word)
        if number is not None:
            return number if number < STORE else None
        found = FILE_LINE.fullmatch(word)
        if found:
            return self.file_line(found[1], part_number(found[2]), spe)
        found = LABEL.fullmatch(word)
        place = self.label(found[1], spe) if found else None
        if not found or not place:
            return None
        offset = part_number(found[3]) if found[3] else 0
        at = place[0] + (-offset if found[2] == "-" else offset)
        return at if at >= 0 else None

    def addresses(self, word: str, spes: Iterable[int]) -> Dict[int, int]:
        """Of each of these processors the address of a place, for those where it is an instruction's."""
        all_of = {spe: self.address(word, spe) for spe in spes}
        found = {spe: at for spe, at in all_of.items() if at is not None and 0 <= at < STORE}
        if not found:
            raise Wrong(f"`{word}` is not a place: type a label, FILE:LINE or a local store address (see `help break`)")
        if any(at % 4 for at in found.values()):
            raise Wrong(f"there is no instruction at `{word}`: its address is not a multiple of 4")
        return found

    def size_of(self, word: str, spe: int) -> int:
        """How many bytes a range has that begins with this word and says no size."""
        place = self.label(word, spe)
        return min(place[1] or PLAIN_SIZE, MOST) if place else PLAIN_SIZE


def is_named(path: object, name: str) -> bool:
    """Whether a name is that of a file, with its folders or without."""
    return str(path) == name or os.path.basename(str(path)) == name
