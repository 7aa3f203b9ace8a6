"""Of each place, main memory or a store, the ranges of bytes that a run's steps touch; and how many steps each column has in each part of the run."""
import collections
import operator
import re
from typing import DefaultDict, Dict, Iterable, List, Sequence, Tuple, Union

SPAN = re.compile(r" \| (?:read|write) (\S+ \d+ \d+)")
HEAD = operator.itemgetter(slice(0, 5))  # of a line: its kind and processor
JOINED = 32    # ranges that stand so near to each other are one
MOST = 24      # ranges of a place that are kept: the widest
BUCKETS = 480

Span = Tuple[int, int]  # the first byte, and the byte behind the last
Range = List[int]       # the same


def touched(text: str) -> Dict[int, List[Range]]:
    """The ranges, first byte and the byte behind the last, by place: -1 is main memory."""
    spans: DefaultDict[int, List[Span]] = collections.defaultdict(list)
    for found in set(SPAN.findall(text)):
        place, at, size = found.split()
        spans[-1 if place == "mem" else int(place)].append((int(at), int(at) + int(size)))
    return {place: widest(joined(sorted(found))) for place, found in sorted(spans.items())}


def joined(spans: Iterable[Span]) -> List[Range]:
    found: List[Range] = []
    for low, high in spans:
        if found and low <= found[-1][1] + JOINED:
            found[-1][1] = max(found[-1][1], high)
        else:
            found.append([low, high])
    return found


def widest(ranges: Iterable[Range]) -> List[Range]:
    return sorted(sorted(ranges, key=lambda found: found[0] - found[1])[:MOST])


def lane(head: str, spes: int) -> int:
    """The column of a line that begins so: each processor has two, its own and its flow controller's, and behind them comes the host's."""
    words = head.split()
    return 2 * spes if words[0] == "h" else 2 * int(words[1]) + (words[0] != "x")


def overview(lines: Sequence[str], spes: int) -> Dict[str, Union[int, List[List[int]]]]:
    """How many steps a part has, and of each column how many of its steps are in each part."""
    size = max(1, -(-len(lines) // BUCKETS))
    rows = [[0] * -(-len(lines) // size) for _ in range(2 * spes + 1)]
    for part, start in enumerate(range(0, len(lines), size)):
        for head, count in collections.Counter(map(HEAD, lines[start:start + size])).items():
            rows[lane(head, spes)][part] += count
    return {"size": size, "rows": rows}
