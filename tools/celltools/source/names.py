"""The names of places: of a store's bytes the labels of its sources, and of main memory's those that a machine file gives by comments.

A line `# mem NAME A N` of a machine file names N bytes of main memory from A on. For `cell` it is a comment, as any other line of that form that isn't right.
"""
import re
from typing import Dict, Iterable, List, NamedTuple, Optional, Tuple

from celltools.common.texts import number_of
from celltools.run.effects import MEMORY_LINE, Span
from celltools.source.language import NAME

COMMENT = re.compile(r"[ \t]*#[ \t]*mem[ \t]+([^ \t]+)[ \t]+([^ \t]+)[ \t]+([^ \t]+)[ \t]*")


class Named(NamedTuple):
    """A range of bytes that has a name: its first address, and how many they are."""
    name: str
    at: int
    size: int


def named_range(line: str) -> Optional[Named]:
    """The range of main memory that a line of a machine file names; None for every other line."""
    found = COMMENT.fullmatch(line)
    if not found or not NAME.fullmatch(found[1]):
        return None
    at, size = number_of(found[2]), number_of(found[3])
    return Named(found[1], at, size) if at is not None and size else None


def is_local(label: str) -> bool:
    """Whether a label is one of a compiler's own."""
    return label.startswith(".L")


def named_by_labels(labels: Dict[str, Tuple[int, int]]) -> List[Named]:
    """The ranges of a store that the labels of a source name, each of which says where it stands and how many bytes stand behind it. Of labels of one place
    the first has them all, and a compiler's own label goes on with what stands before it."""
    found: List[Named] = []
    for name, (at, size) in sorted(labels.items(), key=lambda label: (label[1][0], is_local(label[0]))):
        last = found[-1] if found else None
        if last and (at == last.at or is_local(name) and at == last.at + last.size):
            found[-1] = last._replace(size=max(last.size, at + size - last.at))
        else:
            found.append(Named(name, at, size))
    return found


def name_in(ranges: Iterable[Named], address: int) -> str:
    """The name of an address, with how far behind the name's own it is; nothing where no range has it. Of several ranges that one names it which begins the
    latest, and of these the shortest."""
    around = [named for named in ranges if named.at <= address < named.at + named.size]
    if not around:
        return ""
    best = max(around, key=lambda named: (named.at, -named.size))
    return best.name if address == best.at else f"{best.name}+0x{address - best.at:x}"


class Names:
    """The names of the places of a machine: of each processor's store, and of main memory."""

    def __init__(self, stores: List[List[Named]], memory: List[Named]) -> None:
        self.stores, self.memory = stores, memory

    def of(self, spe: Optional[int], address: int) -> str:
        """The name of an address of a processor's store, or of main memory where there is None; nothing where it has none."""
        return name_in(self.memory if spe is None else self.stores[spe] if spe < len(self.stores) else (), address)

    def address(self, spe: Optional[int], address: int, digits: int = 0) -> str:
        """An address, and behind it its name, if it has one."""
        name = self.of(spe, address)
        return f"0x{address:0{digits}x} ({name})" if name else f"0x{address:0{digits}x}"

    def line(self, number: int) -> str:
        """A line of main memory by its number."""
        return f"line {self.address(None, number * MEMORY_LINE)}"

    def start(self, span: Span) -> str:
        """Where a span begins."""
        return f"{self.address(span.spe, span.at)} in {place_of(span)}"

    def range(self, span: Span) -> str:
        """A span as its first and its last address. The last is named where its name has another beginning."""
        last = span.at + span.size - 1
        same = base_of(self.of(span.spe, span.at)) == base_of(self.of(span.spe, last))
        end = f"0x{last:x}" if same else self.address(span.spe, last)
        return f"{self.address(span.spe, span.at)} to {end} in {place_of(span)}"


NONE = Names([], [])  # of a machine that isn't known


def base_of(name: str) -> str:
    """A name without how far behind it something is."""
    return name.partition("+")[0]


def place_of(span: Span) -> str:
    return "main memory" if span.spe is None else f"the local store of SPU {span.spe}"
