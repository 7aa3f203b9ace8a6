"""The words of the instructions that a run executed: as they were placed, and where the run had written over them, as they stood then."""
import bisect
import collections
import re
from typing import Callable, Dict, List, Optional, Tuple

from celltools.run.effects import Span, Trace
from celltools.source.sites import Sites

FETCH = re.compile(r"x (\d+) \| fetch \d+ (\d+)")
STORED = re.compile(r" \| write (\d+) (\d+) (\d+)")
WORD_BYTES = 4
NOTHING = -1, -1  # where a step is no instruction
ROW = 16  # bytes: no store writes fewer


class Executed:
    """Knows of each instruction of a trace its word. `bytes_of` tells the bytes of a span as they stand behind so many steps."""

    def __init__(self, trace: Trace, sites: Sites, bytes_of: Callable[[Span, int], bytes]) -> None:
        self.trace, self.sites, self.bytes_of = trace, sites, bytes_of
        self.begin()

    def begin(self) -> None:
        self.seen, self.cuts = 0, self.trace.cuts
        self.written: Dict[Tuple[int, int], List[int]] = collections.defaultdict(list)  # of a processor and a row the places that wrote into it
        self.known: Dict[Tuple[int, int, int], int] = {}  # of a processor, an address and the last of those places

    def look(self, end: int) -> None:
        """Takes in which rows were written by the steps before a place."""
        if self.cuts != self.trace.cuts:
            self.begin()
        for place in range(self.seen, end):
            found = STORED.search(self.trace.lines[place])
            if found:
                spe, at, size = map(int, found.groups())
                for row in range(at // ROW, (at + size - 1) // ROW + 1):
                    self.written[spe, row].append(place)
        self.seen = max(self.seen, end)

    def fetched(self, place: int) -> Optional[Tuple[int, int]]:
        """The processor and the address of the instruction of a step; None where it is none."""
        found = FETCH.match(self.trace.lines[place])
        return (int(found[1]), int(found[2])) if found else None

    def word(self, place: int) -> int:
        """The word of the instruction of a step."""
        spe, at = self.fetched(place) or NOTHING
        self.look(place)
        writers = self.written.get((spe, at // ROW), ())
        before = bisect.bisect_left(writers, place)
        if not before:
            site = self.sites.of_processor[spe].get(at)
            return site.word if site else 0
        key = spe, at, writers[before - 1]
        if key not in self.known:
            self.known[key] = int.from_bytes(self.bytes_of(Span(spe, at, WORD_BYTES), place), "big")
        return self.known[key]
