"""Adds up the parts of a hunt, as `hunt --json` prints them, to the text of one hunt of all their runs."""
import json
import re
from typing import Any, Dict, Iterator, List, Tuple

COUNTED = re.compile(r'(.*),"runs":(\d+),"first":(\d+|null)\}')
ORDER = ("race", "end", "result", "missed", "finding", "warning")  # of the lines between the first and those of the sources
SOURCE = '{"source":'  # begins the line of a source
KEYED = ("race", "finding", "warning")  # lines with a member `key`, by which two of them are the same
SUMS = ("runs", "all_stopped", "left_out", "steps")  # numbers of the first line that are added; others are the same in each part

Json = Dict[str, Any]


def compact(value: object) -> str:
    return json.dumps(value, separators=(",", ":"))


def together(first: Json, second: Json) -> Json:
    """The count of both, of which the second is of later runs."""
    return {"runs": first["runs"] + second["runs"], "first": second["first"] if first["first"] is None else first["first"]}


class Line:
    """A line between the first and those of the sources, with its count."""

    def __init__(self, front: str, runs: int, first: int) -> None:
        self.front, self.runs, self.first = front, runs, first

    def __str__(self) -> str:
        return f'{self.front},"runs":{self.runs},"first":{self.first}}}'


class Source:
    """The lines of a source that have an instruction: the number of each, and 1 if a run executed it, else 0."""

    def __init__(self, members: Json) -> None:
        self.name: str = members["source"]
        self.lines: List[List[int]] = members["lines"]

    def add(self, other: "Source") -> None:
        """Adds what other runs executed."""
        self.lines = [[number, executed | also] for (number, executed), (_, also) in zip(self.lines, other.lines)]

    def __str__(self) -> str:
        return compact({"source": self.name, "lines": self.lines})


class Sum:
    """The sum of parts, which come in the order of their runs."""

    def __init__(self) -> None:
        self.head: Json = {}
        self.lines: Dict[str, Dict[str, Line]] = {kind: {} for kind in ORDER}
        self.sources: List[Source] = []  # in the order of the machine file
        self.kinds: Dict[str, int] = {}

    def add(self, text: str) -> None:
        head, *lines, last = text.splitlines()
        self.add_head(json.loads(head))
        for line in lines:
            if not line.startswith(SOURCE):
                self.add_line(line)
        self.add_sources([Source(json.loads(line)) for line in lines if line.startswith(SOURCE)])
        for digest, runs in json.loads(last)["kinds"].items():
            self.kinds[digest] = self.kinds.get(digest, 0) + runs

    def add_head(self, head: Json) -> None:
        for name, value in head.items():
            if name not in self.head:
                self.head[name] = value
            elif isinstance(value, dict):
                self.head[name] = together(self.head[name], value)
            elif name in SUMS:
                self.head[name] += value

    def add_sources(self, sources: List[Source]) -> None:
        for known, source in zip(self.sources, sources):
            known.add(source)
        self.sources = self.sources or sources

    def add_line(self, text: str) -> None:
        front, runs, first = parts_of(text)
        kind, key = told_by(front)
        line = self.lines[kind].setdefault(key, Line(front, 0, int(first)))
        line.runs += int(runs)

    def texts(self) -> Iterator[str]:
        yield compact(self.head)
        for kind in ORDER:
            yield from map(str, self.lines[kind].values())
        yield from map(str, self.sources)
        yield compact({"kinds": self.kinds})

    def text(self) -> str:
        return "".join(f"{line}\n" for line in self.texts())


def parts_of(text: str) -> Tuple[str, str, str]:
    found = COUNTED.fullmatch(text)
    if not found:
        raise ValueError(f"a line of a hunt without a count: {text}")
    front, runs, first = found.groups()
    return front, runs, first


def told_by(front: str) -> Tuple[str, str]:
    """Which kind of line this is, and by what two of that kind are the same: those that have a key by that, others by all that is before their counts."""
    names: List[str] = [kind for kind in ORDER if front.startswith(f'{{"{kind}"')]
    if not names:
        raise ValueError(f"an unknown line of a hunt: {front}")
    return names[0], json.loads(f"{front}}}")["key"] if names[0] in KEYED else front
