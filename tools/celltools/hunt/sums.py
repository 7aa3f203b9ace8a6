"""Adds up parts of a hunt to what one hunt of all the runs would print. Results, of which there may be a million, stay in their files: of each a digest is kept,
its counts, and its place in a line of a file."""
import array
import dataclasses
import hashlib
import itertools
import operator
from typing import IO, Dict, Iterator, List, Optional, Sequence, Tuple

from celltools.hunt import lines as written
from celltools.hunt.endings import Explained, Json
from celltools.hunt.findings import FINDING_KINDS, WARNING_KINDS
from celltools.hunt.reading import FLAWS, FORM_OF_HUNT, Count, Head, Hearer, Kept, Part, Reader, Result, Wrong, columns_of, object_of, opened
from celltools.run.runs import Refused

MOST_RUNS = 1_000_000  # of one call of ./hunt
DIGEST = 16  # bytes
COUNTED = ("runs", "first")
OF_ENDINGS = ("places", "words")


@dataclasses.dataclass
class Told:
    """A race, an ending, a missed line, a finding or a warning: its members, and its count. Of several parts that have it the members are those of the first run."""
    members: Json
    count: Count
    place: int  # among all that was read, for those of one first run

    @property
    def order(self) -> Tuple[int, int]:
        return self.count.first or 0, self.place


class Tally:
    """Races, endings, missed lines, findings or warnings, by their keys."""

    def __init__(self) -> None:
        self.told: Dict[str, Told] = {}
        self.taken = 0

    def take(self, key: str, members: Json, count: Count) -> None:
        other, told = self.told.get(key), Told(members, count, self.taken)
        self.taken += 1
        if other:
            first = min(other, told, key=lambda each: each.order)
            told = Told(first.members, other.count.added(told.count), first.place)
        self.told[key] = told

    def in_order(self) -> List[Told]:
        return sorted(self.told.values(), key=lambda told: told.order)


class Results:
    """The results of endings."""

    def __init__(self) -> None:
        self.places: Dict[bytes, int] = {}  # by the digest of an ending and a text
        self.endings: Dict[str, int] = {}
        self.ending, self.file, self.place = array.array("I"), array.array("I"), array.array("B")
        self.runs, self.first, self.offset = array.array("Q"), array.array("Q"), array.array("Q")

    @staticmethod
    def digest(ending: int, text: bytes) -> bytes:
        return hashlib.blake2b(b"%d %s" % (ending, text), digest_size=DIGEST).digest()

    def take(self, result: Result, file: int) -> None:
        ending, first = self.endings.setdefault(result.ending, len(self.endings)), result.count.first or 0
        place = self.places.setdefault(self.digest(ending, result.text), len(self.runs))
        if place == len(self.runs):
            self.ending.append(ending)
            self.runs.append(result.count.runs)
            for numbers, number in ((self.file, file), (self.first, first), (self.offset, result.offset), (self.place, result.place)):
                numbers.append(number)
            return
        self.runs[place] += result.count.runs
        if first < self.first[place]:
            self.file[place], self.first[place], self.offset[place], self.place[place] = file, first, result.offset, result.place

    def in_order(self) -> List[int]:
        """The places of the results, in the order of their first runs."""
        return sorted(range(len(self.first)), key=self.first.__getitem__)

    def by_ending(self) -> Dict[str, List[int]]:
        """The same of each ending."""
        found: List[List[int]] = [[] for _ in self.endings]
        for place in self.in_order():
            found[self.ending[place]].append(place)
        return {ending: found[number] for ending, number in self.endings.items()}

    def count(self, place: int) -> Count:
        return Count(self.runs[place], self.first[place])


@dataclasses.dataclass
class SourceLines:
    """The lines of a source with an instruction: their numbers, and for each 1 if a run executed it, else 0. The name has a character a byte."""
    name: str
    numbers: "array.array[int]"
    executed: bytearray

    def add(self, executed: Sequence[int]) -> None:
        """Adds what other runs executed."""
        self.executed = bytearray(map(operator.or_, self.executed, executed))


class Listener(Hearer):
    """Takes what a part has into the sum."""

    def __init__(self, hunt: "Hunt", file: int, part: Part) -> None:
        self.hunt, self.file = hunt, file
        self.kinds = hunt.kinds_of_part(part)
        self.sources = 0

    def take_told(self, what: str, key: str, members: Json, count: Count) -> None:
        self.hunt.tallies[what].take(key, {name: value for name, value in members.items() if name not in COUNTED}, count)

    def take_result(self, result: Result) -> None:
        self.hunt.results.take(result, self.file)

    def take_source(self, name: str, numbers: List[int], executed: List[int]) -> None:
        self.hunt.take_source(self.sources, SourceLines(name, array.array("I", numbers), bytearray(executed)))
        self.sources += 1

    def take_kinds(self, digests: List[int], runs: List[int]) -> None:
        self.kinds[0].extend(digests)
        self.kinds[1].extend(runs)

    def end(self) -> None:
        self.hunt.refuse_fewer_sources(self.sources)


Kinds = Tuple["array.array[int]", "array.array[int]"]


class Hunt:
    """The sum of parts."""

    def __init__(self, files: Sequence[str], may_have_gaps: bool = False) -> None:
        self.names = ["standard input" if name == "-" else name for name in files]
        self.files: List[Optional[IO[bytes]]] = []
        self.tallies = {what: Tally() for what in ("race", "end", "missed", "finding", "warning")}
        self.results = Results()
        self.sources: List[SourceLines] = []  # in the order of the machine file, each once
        self.kinds_of_parts: List[Tuple[int, Kinds]] = []
        self.parts: List[Part] = []
        for number, name in enumerate(files):
            self.read(number, name)
        self.parts.sort(key=lambda part: part.head.start)
        refuse_shared(self.parts)
        if not may_have_gaps:
            refuse_gaps(self.parts)
        self.head = head_of(self.parts)

    # ---- reading

    def read(self, number: int, name: str) -> None:
        """Reads a file. It is opened again by its name when texts of its results are wanted, unless it is a stream."""
        try:
            file = opened(name)
        except OSError as why:
            raise Refused(f"{name}: {why.strerror}: name an output of `./hunt MACHINE --json`") from None
        for part in Reader(self.names[number], file).parts(lambda part: self.hearer(number, part)):
            self.parts.append(part)
        if not isinstance(file, Kept):
            file.close()
        self.files.append(file.copy if isinstance(file, Kept) else None)

    def hearer(self, number: int, part: Part) -> Hearer:
        refuse_others(self.parts[0] if self.parts else part, part)
        return Listener(self, number, part)

    def kinds_of_part(self, part: Part) -> Kinds:
        kinds = array.array("Q"), array.array("I")
        self.kinds_of_parts.append((part.head.start, kinds))
        return kinds

    def take_source(self, place: int, source: SourceLines) -> None:
        """Takes the source of a place among those of a part. Wrong if the parts before have another one."""
        if not self.parts:
            self.sources.append(source)
            return
        known = self.sources[place] if place < len(self.sources) else None
        if not known or (known.name, known.numbers) != (source.name, source.numbers):
            raise Wrong(f"the name or the line numbers of this source differ from those in {place_of(self.parts[0])}")
        known.add(source.executed)

    def refuse_fewer_sources(self, sources: int) -> None:
        """Refuses a part with so many sources, if the parts before have more."""
        if sources < len(self.sources):
            raise Wrong(f"the part has {sources} of the {len(self.sources)} sources of {place_of(self.parts[0])}")

    # ---- what it has

    @property
    def machine(self) -> str:
        return str(self.parts[0].opening["machine"])

    def kinds(self) -> Dict[int, int]:
        """The classes of runs, in the order of the first runs, each with how many runs are of it."""
        found: Dict[int, int] = {}
        for _, (digests, runs) in sorted(self.kinds_of_parts, key=lambda kinds: kinds[0]):
            for digest, count in zip(digests, runs):
                found[digest] = found.get(digest, 0) + count
        return found

    def endings(self) -> List[Told]:
        """The endings, in the order of the first runs; words and places of faults are left to those that one hunt of all the runs explains."""
        explained = Explained()
        return [told if explained.takes(told.members["end"]) else unexplained(told) for told in self.tallies["end"].in_order()]

    def findings(self) -> List[Told]:
        """The failures by their kinds, those of a kind in the order of their first runs."""
        return sorted(self.tallies["finding"].in_order(), key=lambda found: list(FINDING_KINDS).index(found.members["finding"]))

    def warnings(self) -> List[Told]:
        """The same of the warnings."""
        return sorted(self.tallies["warning"].in_order(), key=lambda found: list(WARNING_KINDS).index(found.members["warning"]))

    def leave_warnings_out(self) -> None:
        self.tallies["warning"] = Tally()

    def texts(self, places: Sequence[int]) -> Iterator[bytes]:
        """The texts of results. Refused if a file has changed since it was read. Each line is read once for places in the order of their first runs."""
        for number, of_file in itertools.groupby(places, self.results.file.__getitem__):
            file = self.files[number] or open(self.names[number], "rb")
            try:
                for offset, of_line in itertools.groupby(of_file, self.results.offset.__getitem__):
                    yield from self.texts_at(file, offset, list(of_line))
            except Wrong:
                raise Refused(f"{self.names[number]}: the file changed while it was read: run this command again") from None

    def texts_at(self, file: IO[bytes], offset: int, places: Sequence[int]) -> Iterator[bytes]:
        """The texts of results of one line. Wrong if it has others."""
        results = self.results
        file.seek(offset)
        texts = columns_of(object_of(file.readline()))[-1]
        for place in places:
            found = texts.of(results.place[place])
            if results.places.get(results.digest(results.ending[place], found)) != place:
                raise Wrong
            yield found


def unexplained(told: Told) -> Told:
    """An ending without words, and with the places of those processors alone that run."""
    parts = written.parts_in(told.members["end"])
    places = [place if " running " in part else None for part, place in zip(parts, told.members["places"])]
    return dataclasses.replace(told, members={**told.members, "places": places, "words": []})


def head_of(parts: Sequence[Part]) -> Head:
    """The head of all runs."""
    heads = [part.head for part in parts]
    flaws = {name: heads[0].flaws[name] for name in FLAWS}
    for head in heads[1:]:
        flaws = {name: flaws[name].added(head.flaws[name]) for name in FLAWS}
    sums = {name: sum(getattr(head, name) for head in heads) for name in ("runs", "all_stopped", "left_out", "steps")}
    return dataclasses.replace(heads[0], flaws=flaws, **sums)


# ---- what doesn't belong together

def place_of(part: Part) -> str:
    return f"{part.file}:{part.line}"


def refuse_others(first: Part, part: Part) -> None:
    """Refuses a part of another program, another machine, another seed or other expectations than the first."""
    there = place_of(first)
    for name, what in (("version", "version"), ("program", "state of the program")):
        if part.opening[name] != first.opening[name]:
            raise Refused(f"{place_of(part)}: this part is of {what} {part.opening[name]}, but {there} is of {first.opening[name]}: make both with the same one")
    if part.opening["sum"] != first.opening["sum"]:
        raise Refused(f"{place_of(part)}: this part is of another hunt than {there}: {part.opening['machine']}, one of its sources, or a file of --expect or --pass "
                      "differs")
    if part.head.seed != first.head.seed:
        raise Refused(f"{place_of(part)}: this part has seed {part.head.seed}, but {there} has seed {first.head.seed}")
    if part.head.expects != first.head.expects:  # of one file, which is the one's --expect and the other's --pass
        raise Refused(f"{place_of(part)}: its --expect or --pass differs from that of {there}")


def refuse_shared(parts: Sequence[Part]) -> None:
    """Refuses parts, in the order of their runs, if two of them share a run."""
    for before, after in zip(parts, parts[1:]):
        if after.head.start < before.head.stop:
            raise Refused(f"{place_of(after)}: run {after.head.start} is also in {place_of(before)}")


def refuse_gaps(parts: Sequence[Part]) -> None:
    """Refuses parts, in the order of their runs, if a run between two of them is missing."""
    for before, after in zip(parts, parts[1:]):
        if after.head.start > before.head.stop:
            raise Refused(f"{place_of(after)}: it begins with run {after.head.start}, but the runs from {before.head.stop} on are missing: "
                          f"`tools/hunts --missing {parts[-1].head.stop} FILE..` lists all missing runs")


def missing(parts: Sequence[Part], runs: int) -> Iterator[Tuple[int, int]]:
    """The ranges of the runs from 0 to `runs` - 1 that no part has, each with its first run and its length. `parts` are in the order of their runs. No range is longer
    than one call of ./hunt can make."""
    starts = [0, *(part.head.stop for part in parts)]
    stops = [*(part.head.start for part in parts), runs]
    for start, stop in zip(starts, stops):
        for first in range(start, min(stop, runs), MOST_RUNS):
            yield first, min(MOST_RUNS, stop - first, runs - first)


# ---- writing

def json_lines(hunt: Hunt) -> Iterator[bytes]:
    """The lines that one hunt of all runs prints with --json, but for the last."""
    yield written.line_of(hunt.parts[0].opening)
    head = hunt.head
    counts: Json = {name: dataclasses.asdict(count) for name, count in head.flaws.items()}
    yield written.line_of({"hunt": FORM_OF_HUNT, "seed": head.seed, "from": head.start, "runs": head.runs, "expects": head.expects,
                           "all_stopped": head.all_stopped, "left_out": head.left_out, "steps": head.steps, **counts})
    numbers: Dict[str, int] = {}
    yield from map(told_line, hunt.tallies["race"].in_order())
    for told in hunt.endings():
        numbers[told.members["end"]] = told.members["number"] = len(numbers)
        yield told_line(told)
    yield from written.result_lines(result_rows(hunt, numbers))
    for what in ("missed", "finding", "warning"):
        yield from map(told_line, hunt.tallies[what].in_order())
    yield from (written.source_line(source.name, source.numbers, source.executed) for source in hunt.sources)
    kinds = hunt.kinds()
    yield from written.kinds_lines(list(kinds), list(kinds.values()))


def told_line(told: Told) -> bytes:
    added = {name: value for name, value in told.members.items() if name in OF_ENDINGS}
    first = {name: value for name, value in told.members.items() if name not in OF_ENDINGS}
    return written.line_of({**first, **dataclasses.asdict(told.count), **added})


def result_rows(hunt: Hunt, numbers: Dict[str, int]) -> Iterator[written.Row]:
    results = hunt.results
    of_ending = {number: numbers[ending] for ending, number in results.endings.items()}
    places = results.in_order()
    for place, text in zip(places, hunt.texts(places)):
        yield written.Row(of_ending[results.ending[place]], results.runs[place], results.first[place], text)
