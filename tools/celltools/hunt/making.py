"""Makes a part of what the program of ./hunt prints with --json, line by line."""
import array
import hashlib
import itertools
import json
import operator
import re
from typing import Any, BinaryIO, Dict, Iterator, List, Sequence

from celltools.common.repository import program_sources, version
from celltools.common.texts import bytes_of
from celltools.hunt.endings import Json
from celltools.hunt.lines import FEED, FORM, Row, kinds_lines, last_line, line_of, result_lines, text_of
from celltools.hunt.words import Explainer, end_places, places_of
from celltools.run.plans import sources_of
from celltools.run.runs import IN_PLACE, UNPROVED, Refused, prepare
from celltools.run.snapshots import Snapshot
from celltools.source.sites import Sites

RESULTS = b'{"result":'
RESULT = re.compile(rb'^\{"result":"([^"]*)","end":"([^"]*)","runs":(\d+),"first":(\d+)\}\n', re.M)
READ_AT_ONCE = 16  # results, which is quicker than one by one
QUOTE = b'"'
KINDS = b'{"kinds":{'
KIND = re.compile(rb'"(\d+)":(\d+)')


def sum_of_files(machine: str, others: List[str]) -> str:
    """A checksum of a machine file, its sources, and other files, by their bytes and in this order."""
    whole_sum = hashlib.sha256()
    for name in [machine, *sources_of(machine), *others]:
        whole_sum.update(hashlib.sha256(bytes_of(name)).digest())
    return whole_sum.hexdigest()


def first_members(machine: str, checksum: str) -> Json:
    """The members of a part's first line."""
    status = prepare()
    program = "unproved" if status == UNPROVED else program_sources(status == IN_PLACE)
    return {"part": FORM, "version": version(), "program": program, "machine": machine, "sum": checksum}


def texts_of(written: Sequence[bytes]) -> List[bytes]:
    """The texts of strings without their quotation marks."""
    texts = QUOTE.join(written).replace(FEED, b"\n")
    return list(map(text_of, written)) if b"\\" in texts else texts.split(QUOTE)


class Checked:
    """Lines, of which the number and the checksum are kept."""

    def __init__(self) -> None:
        self.count, self.checksum = 0, hashlib.sha256()

    def add(self, line: bytes) -> bytes:
        self.count += 1
        self.checksum.update(line)
        return line

    def last(self) -> bytes:
        return last_line(self.count, self.checksum.hexdigest())


def whole(lines: Iterator[bytes]) -> Iterator[bytes]:
    """Lines with the last line of a part after them."""
    checked = Checked()
    for line in lines:
        yield checked.add(line)
    yield checked.last()


class Maker:
    """Turns lines of the program into those of a part."""

    def __init__(self, sites: Sites, machine: Snapshot, seed: int) -> None:
        self.sites, self.explainer = sites, Explainer(machine, seed)
        self.numbers: Dict[bytes, int] = {}  # of the endings, by how the program writes them

    def lines(self, output: BinaryIO) -> Iterator[bytes]:
        """The lines for those after the head."""
        for are_results, lines in itertools.groupby(output, operator.methodcaller("startswith", RESULTS)):
            yield from result_lines(self.rows(lines)) if are_results else itertools.chain.from_iterable(map(self.lines_for, lines))

    def rows(self, lines: Iterator[bytes]) -> Iterator[Row]:
        """The results of lines. ValueError if one of them has none."""
        while together := list(itertools.islice(lines, READ_AT_ONCE)):
            found = RESULT.findall(b"".join(together))
            if len(found) != len(together):
                raise ValueError
            texts, endings, runs, first = zip(*found)
            yield from map(Row, map(self.numbers.__getitem__, endings), map(int, runs), map(int, first), texts_of(texts))

    def lines_for(self, line: bytes) -> Iterator[bytes]:
        """The lines for one that has no result."""
        if line.startswith(KINDS):
            digests, runs = array.array("Q"), array.array("I")
            for digest, count in (kind.groups() for kind in KIND.finditer(line)):
                digests.append(int(digest))
                runs.append(int(count))
            yield from kinds_lines(digests, runs)
        else:
            yield line_of(self.completed(json.loads(line), line))

    def completed(self, members: Dict[str, Any], line: bytes) -> Json:
        """The object of a race, an ending or a missed line, with what is added to it."""
        if "race" in members:
            return {**members, "places": places_of(self.sites, members["race"])}
        if "end" in members:
            ending, number = members["end"], len(self.numbers)
            self.numbers[line.split(b'"')[3]] = number
            explained = self.explainer.of(ending, members["first"], self.sites)
            return {"number": number, **members, "places": end_places(self.sites, ending, explained), "words": list(explained.words)}
        return members


def lines_made(output: BinaryIO, checksum: str, sites: Sites, machine: Snapshot) -> Iterator[bytes]:
    """The lines of a part but for its last."""
    yield line_of(first_members(str(machine), checksum))
    head = output.readline()
    members = json.loads(head)
    yield head
    yield from Maker(sites, machine, members["seed"]).lines(output)


def part_lines(output: BinaryIO, checksum: str, sites: Sites, machine: Snapshot) -> Iterator[bytes]:
    """The lines of a part, of what the program prints. Refused if that isn't what it prints."""
    try:
        yield from whole(lines_made(output, checksum, sites, machine))
    except (ValueError, KeyError, IndexError, TypeError, OverflowError):
        raise Refused("standard input is not an output of ./hunt with --json") from None
