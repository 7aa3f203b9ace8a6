"""Reads parts, the outputs of `./hunt MACHINE --json`, line by line, and refuses all that ./hunt doesn't write: each refusal has the file, the line and the reason."""
import dataclasses
import errno
import hashlib
import itertools
import json
import operator
import os
import re
import stat
import sys
import tempfile
from typing import Any, BinaryIO, Callable, Dict, Iterator, List, Optional, Sequence, Tuple, Union

from celltools.hunt import lines as written
from celltools.hunt.copies import first_of_pipe
from celltools.hunt.endings import SPENT, STOPPED, STUCK, Json, end_word, has_fault, has_halt
from celltools.hunt.findings import FINDING_KINDS, WARNING_KINDS
from celltools.run.runs import Refused

# What can be wrong in a run, in the order in which it is printed.
FLAWS = ("race", "stuck", "livelock", "budget", "fault", "halt", "missed")
FORM_OF_HUNT = 1
HEAD = ("hunt", "seed", "from", "runs", "expects", "all_stopped", "left_out", "steps", *FLAWS)  # members of a part's second line
MOST_RUN, MOST_SEED = 0xFFFF_FFFE, 0xFFFF_FFFF_FFFF_FFFF
MOST_STEPS = 1_000_000  # of a run: the greatest budget
MOST_LINE = 1 << 28  # bytes
MOST_SOURCE_LINE = 1 << 22  # of a source: it has at most so many bytes
CHECKSUM = re.compile(r"[0-9a-f]{64}")
VERSION = re.compile(r"[0-9]+\.[0-9]+\.[0-9]+")
BYTES = re.compile(r"[\0-\xff]*")
SHOWN = re.compile(r"(?:  [\0-\x09\x0b-\xff]*\n)+")  # the lines of a finding
ONE_OF_RUN = ("deadlock", "livelock", "budget")  # findings of which a run has one at most
AGAIN = "make the part again with `./hunt MACHINE --json`"
OLDER = b'{"machine":'  # begins what earlier versions printed


class Wrong(Exception):
    """Why a line is none of a part's."""


@dataclasses.dataclass
class Count:
    """How many runs have something, and the first of them, None if none has."""
    runs: int
    first: Optional[int]

    def added(self, other: "Count") -> "Count":
        """Both together."""
        return Count(self.runs + other.runs, min((first for first in (self.first, other.first) if first is not None), default=None))


@dataclasses.dataclass
class Head:
    """A hunt's head: its runs are those of the seed from `start` on."""
    seed: int
    start: int
    runs: int
    expects: bool
    all_stopped: int
    left_out: int
    steps: int
    flaws: Dict[str, Count]

    @property
    def stop(self) -> int:
        """The number after the last run."""
        return self.start + self.runs

    @property
    def spent(self) -> Count:
        """The runs that spent their budget. Some of them were still progressing, and the others are livelocks."""
        return self.flaws["livelock"].added(self.flaws["budget"])


@dataclasses.dataclass
class Part:
    """A part: where it is, the members of its first line, and its head."""
    file: str
    line: int
    opening: Json
    head: Head


@dataclasses.dataclass
class Result:
    """The result of an ending, where its line begins in its file, and its place in this line."""
    text: bytes
    ending: str
    count: Count
    offset: int
    place: int


class Hearer:
    """Takes what parts have, in the order of their lines."""

    def take_told(self, what: str, key: str, members: Json, count: Count) -> None:
        """A race, an ending, a missed line, a finding or a warning."""

    def take_result(self, result: Result) -> None:
        """A result of an ending."""

    def take_source(self, name: str, numbers: List[int], executed: List[int]) -> None:
        """A source: the numbers of its lines with an instruction, and for each 1 if a run executed it, else 0. Wrong if another part has other sources."""

    def take_kinds(self, digests: List[int], runs: List[int]) -> None:
        """Classes of runs."""

    def end(self) -> None:
        """The part has nothing more. Wrong if another part has more sources."""


# ---- members

def is_number(value: object, least: int, most: int) -> bool:
    return type(value) is int and least <= value <= most


def are_numbers(values: object, least: int, most: int) -> bool:
    """Whether this is a list of numbers; of a million of them each is looked at by built-in functions, which are quicker."""
    return isinstance(values, list) and set(map(type, values)) <= {int} and (not values or bool(least <= min(values) and max(values) <= most))


def refuse_other(name: str, value: object, is_right: bool, wanted: str) -> None:
    if not is_right:
        said = json.dumps(value)
        raise Wrong(f'"{name}" is {said if len(said) < 80 else said[:77] + "..."}, not {wanted}')


def number_in(members: Json, name: str, least: int, most: int) -> int:
    value = members[name]
    refuse_other(name, value, is_number(value, least, most), f"a number from {least} to {most}")
    return int(value)


def text_in(members: Json, name: str, pattern: Optional["re.Pattern[str]"] = None, wanted: str = "a string") -> str:
    value = members[name]
    refuse_other(name, value, isinstance(value, str) and (pattern is None or bool(pattern.fullmatch(value))), wanted)
    return str(value)


def list_in(members: Json, name: str, kinds: Tuple[type, ...], length: Optional[int] = None) -> List[Any]:
    value = members[name]
    is_right = isinstance(value, list) and all(isinstance(item, kinds) for item in value) and length in (None, len(value))
    refuse_other(name, value, is_right, "a list of strings" + ("" if length is None else f" and nulls, {length} in all"))
    return list(value)


def refuse_names(members: Json, names: Sequence[str]) -> None:
    """Refuses an object that has other members, or in another order."""
    if list(members) != list(names):
        raise Wrong(f"its members are {', '.join(map(str, members)) or 'none'}, not {', '.join(names)}")


def object_of(line: bytes) -> Json:
    """The object of a line."""
    try:
        found = json.loads(line)
    except (ValueError, RecursionError):
        raise Wrong("this is not JSON") from None
    if not isinstance(found, dict):
        raise Wrong("this is not a JSON object")
    return found


def refuse_other_writing(members: Json, line: bytes) -> None:
    """Refuses a line that has the right members, but not as ./hunt writes them, such as twice or with spaces."""
    if written.line_of(members) != line:
        raise Wrong("this is not in the form that ./hunt writes")


# ---- results

def numbers_in(members: Json, name: str, length: Optional[int] = None) -> List[int]:
    """A list of numbers, as many as a line may have results if there is no other length."""
    value = members[name]
    lengths = range(1, written.MOST_ROWS + 1) if length is None else (length,)
    is_right = are_numbers(value, 0, MOST_RUN + 1) and len(value) in lengths
    refuse_other(name, value, is_right, f"a list of {length or f'1 to {written.MOST_ROWS}'} numbers from 0 to {MOST_RUN + 1}")
    return list(value)


def spans_in(members: Json, length: int) -> List[List[int]]:
    """The ranges of places of a text of a length, one after the other."""
    value = members["spans"]
    are_pairs = isinstance(value, list) and all(isinstance(span, list) and len(span) == 2 for span in value)
    edges = [edge for span in value for edge in span] if are_pairs else []
    is_right = are_pairs and are_numbers(edges, 0, length) and all(map(operator.lt, edges, edges[1:]))
    refuse_other("spans", value, is_right, f"a list of ranges in a text of {length} characters")
    return list(value)


def columns_of(members: Json) -> Tuple[List[int], List[int], List[int], written.Texts]:
    """The results of a line: their endings, runs, first runs and texts."""
    refuse_names(members, written.OF_RESULTS)
    endings = numbers_in(members, "endings")
    runs, distances = (numbers_in(members, name, len(endings)) for name in ("runs", "first"))
    text = text_in(members, written.TEXT, BYTES, "a string of bytes").encode("latin-1")
    if len(endings) > written.most_rows(len(text)):
        raise Wrong(f"it has {len(endings)} results of {len(text)} bytes, not 1 to {written.most_rows(len(text))}")
    spans, digits = spans_in(members, len(text)), text_in(members, "digits")
    try:
        texts = written.Texts(text, spans, digits, len(endings))
    except ValueError:
        raise Wrong('"digits" is not base64 of the digits at the spans') from None
    return endings, runs, list(itertools.accumulate(distances)), texts


def rows_of(members: Json) -> List[written.Row]:
    """The results of a line, one by one."""
    endings, runs, first, texts = columns_of(members)
    return list(map(written.Row, endings, runs, first, map(texts.of, range(len(endings)))))


# ---- sources

def lines_of_source(members: Json) -> Tuple[List[int], List[int]]:
    """The numbers of the lines of a source, in ascending order, and for each 1 if a run executed it, else 0."""
    value = members["lines"]
    are_pairs = isinstance(value, list) and all(isinstance(pair, list) and len(pair) == 2 for pair in value)
    numbers, executed = ([pair[place] for pair in value] if are_pairs else [] for place in (0, 1))
    is_right = are_pairs and are_numbers(numbers, 1, MOST_SOURCE_LINE) and are_numbers(executed, 0, 1) and all(map(operator.lt, numbers, numbers[1:]))
    refuse_other("lines", value, is_right, "a list of pairs of a line number and 0 or 1, in the order of the numbers")
    return numbers, executed


# ---- lines

def opening_of(line: bytes) -> Json:
    """The first line of a part."""
    if line.startswith(OLDER):
        raise Wrong("this part is of an earlier version, without a checksum")
    members = object_of(line)
    if written.PART not in members:
        raise Wrong('no part begins here: the first line of a part has "part"')
    refuse_names(members, ("part", "version", "program", "machine", "sum"))
    refuse_other("part", members["part"], is_number(members["part"], written.FORM, written.FORM), f"{written.FORM}, the form that this tools/hunts reads")
    text_in(members, "version", VERSION, "a version such as 1.0.0")
    text_in(members, "program")
    text_in(members, "machine")
    text_in(members, "sum", CHECKSUM, "a SHA-256")
    refuse_other_writing(members, line)
    return members


def flaw_of(members: Json, name: str, head: Head) -> Count:
    value = members[name]
    refuse_other(name, value, isinstance(value, dict) and list(value) == ["runs", "first"], "an object with runs and first")
    runs = number_in(value, "runs", 0, head.runs)
    if not runs:
        refuse_other(f"{name}.first", value["first"], value["first"] is None, "null, since no run has it")
        return Count(0, None)
    return Count(runs, number_in(value, "first", head.start, head.stop - runs))


def head_of(line: bytes) -> Head:
    """The second line of a part."""
    members = object_of(line)
    refuse_names(members, HEAD)
    number_in(members, "hunt", FORM_OF_HUNT, FORM_OF_HUNT)
    runs = number_in(members, "runs", 1, MOST_RUN + 1)
    start = number_in(members, "from", 0, MOST_RUN + 1 - runs)
    refuse_other("expects", members["expects"], isinstance(members["expects"], bool), "true or false")
    stopped, left_out = (number_in(members, name, 0, runs) for name in ("all_stopped", "left_out"))
    seed, steps = number_in(members, "seed", 0, MOST_SEED), number_in(members, "steps", 0, runs * MOST_STEPS)
    head = Head(seed, start, runs, members["expects"], stopped, left_out, steps, {})
    head.flaws.update({name: flaw_of(members, name, head) for name in FLAWS})
    refuse_other_writing(members, line)
    return head


def kind_and_key(members: Json, name: str, kinds: Sequence[str]) -> Tuple[str, str]:
    """The kind and the key of a finding or a warning, whose line has the kind under this name."""
    refuse_names(members, (name, "key", "shown", "runs", "first"))
    kind, key = text_in(members, name), text_in(members, "key", BYTES, "a string of bytes")
    refuse_other(name, kind, kind in kinds and kind == key.partition(" ")[0], f"the first word of its key, which is one of {', '.join(kinds)}")
    refuse_other("shown", members["shown"], bool(SHOWN.fullmatch(text_in(members, "shown"))), "lines of bytes that begin with two blanks")
    return kind, key


class Body:
    """The lines of a part after its head, which it judges one by one and then together."""

    def __init__(self, part: Part, hearer: Hearer) -> None:
        self.head, self.hearer = part.head, hearer
        # How the lines begin, in their order, and what takes them.
        self.taking: List[Tuple[bytes, Callable[[bytes, int], None]]] = [
            (b'{"race":', self.take_race), (b'{"number":', self.take_ending), (b'{"text":', self.take_results), (b'{"missed":', self.take_missed),
            (b'{"finding":', self.take_finding), (b'{"warning":', self.take_warning), (b'{"source":', self.take_source), (b'{"kinds":', self.take_kinds),
        ]  # fmt: skip
        self.stage = 0
        self.endings: List[Tuple[str, Count]] = []
        self.left: List[int] = []  # of each ending, how many runs have no result yet
        self.findings: Dict[str, Dict[str, Count]] = {kind: {} for kind in FINDING_KINDS}  # by their kinds and keys
        self.listed: Dict[str, Dict[str, Count]] = {"race": {}, "missed": {}}  # of races and missed lines, which are findings too, the same
        self.seen: Dict[str, Dict[str, None]] = {"race": {}, "end": {}, "missed": {}, "finding": {}, "warning": {}, "source": {}}
        self.kinds = 0
        self.last_first = -1

    def count_of(self, runs: int, first: int, most: int) -> Count:
        if not 1 <= runs <= most:
            raise Wrong(f"it counts {runs} runs, not 1 to {most}")
        if not self.head.start <= first <= self.head.stop - runs:
            raise Wrong(f"run {first} cannot be the first of {runs} runs: the part has the runs {self.head.start} to {self.head.stop - 1}")
        return Count(runs, first)

    def counted(self, members: Json, most: int) -> Count:
        return self.count_of(number_in(members, "runs", 1, most), number_in(members, "first", 0, MOST_RUN), most)

    def take(self, line: bytes, offset: int) -> None:
        """Takes in a line. Wrong if it isn't one, or comes too late."""
        stage = next((stage for stage, (start, _) in enumerate(self.taking) if line.startswith(start)), None)
        if stage is None:
            raise Wrong("this is not a line of a part")
        if stage < self.stage:
            raise Wrong("this line is out of order: races come first, then endings, results, missed lines, findings, warnings, sources and classes of runs")
        self.stage = stage
        self.taking[stage][1](line, offset)

    def take_once(self, what: str, key: str, members: Json, line: bytes, count: Count) -> None:
        refuse_other_writing(members, line)
        if key in self.seen[what]:
            raise Wrong("an earlier line of this part has the same key")
        self.seen[what][key] = None
        self.hearer.take_told(what, key, members, count)

    def take_race(self, line: bytes, _: int) -> None:
        members = object_of(line)
        refuse_names(members, ("race", "key", "runs", "first", "places"))
        list_in(members, "places", (str, type(None)), len(written.parts_in(text_in(members, "race"))))
        count, key = self.counted(members, self.head.flaws["race"].runs), text_in(members, "key")
        self.take_once("race", key, members, line, count)
        self.listed["race"][f"race{key}"] = count

    def take_ending(self, line: bytes, _: int) -> None:
        members = object_of(line)
        refuse_names(members, ("number", "end", "runs", "first", "places", "words"))
        number_in(members, "number", len(self.endings), len(self.endings))
        ending = text_in(members, "end")
        list_in(members, "places", (str, type(None)), len(written.parts_in(ending)))
        list_in(members, "words", (str,))
        count = self.counted(members, self.head.runs)
        self.endings.append((ending, count))
        self.left.append(count.runs)
        self.take_once("end", ending, members, line, count)

    def take_results(self, line: bytes, offset: int) -> None:
        rows = rows_of(object_of(line))
        if written.result_line(rows) != line:
            raise Wrong("this is not in the form that ./hunt writes")
        for place, row in enumerate(rows):
            self.take_row(row, offset, place)

    def take_row(self, row: written.Row, offset: int, place: int) -> None:
        number, first = row.ending, row.first
        if number >= len(self.endings):
            raise Wrong(f"there is no ending {number}: this part has {len(self.endings)}")
        if first <= self.last_first:
            raise Wrong(f"its first run is {first}, that of the previous result is {self.last_first}: results are sorted by their first runs")
        self.last_first = first
        count = self.count_of(row.runs, first, self.left[number])
        self.left[number] -= row.runs
        self.hearer.take_result(Result(row.text, self.endings[number][0], count, offset, place))

    def take_missed(self, line: bytes, _: int) -> None:
        members = object_of(line)
        refuse_names(members, ("missed", "runs", "first"))
        count, missed = self.counted(members, self.head.flaws["missed"].runs), text_in(members, "missed", BYTES, "a string of bytes")
        self.take_once("missed", missed, members, line, count)
        self.listed["missed"][f"missed {missed}"] = count

    def take_finding(self, line: bytes, _: int) -> None:
        members = object_of(line)
        kind, key = kind_and_key(members, "finding", list(FINDING_KINDS))
        count = self.counted(members, self.head.flaws[FINDING_KINDS[kind].flaw].runs)
        self.take_once("finding", key, members, line, count)
        self.findings[kind][key] = count

    def take_warning(self, line: bytes, _: int) -> None:
        members = object_of(line)
        key = kind_and_key(members, "warning", list(WARNING_KINDS))[1]
        self.take_once("warning", key, members, line, self.counted(members, self.head.runs))

    def take_source(self, line: bytes, _: int) -> None:
        members = object_of(line)
        refuse_names(members, written.OF_SOURCE)
        name, (numbers, executed) = text_in(members, written.SOURCE, BYTES, "a string of bytes"), lines_of_source(members)
        refuse_other_writing(members, line)
        if name in self.seen["source"]:
            raise Wrong("an earlier line of this part has the same source")
        self.seen["source"][name] = None
        self.hearer.take_source(name, numbers, executed)

    def take_kinds(self, line: bytes, _: int) -> None:
        members = object_of(line)
        refuse_names(members, (written.KINDS, "runs"))
        try:
            digests = written.unpacked(text_in(members, written.KINDS))
        except ValueError:
            raise Wrong(f'"{written.KINDS}" is not base64 of 64-bit numbers') from None
        runs = members["runs"]
        if not are_numbers(runs, 1, self.head.runs) or len(runs) != len(digests):
            raise Wrong(f'"runs" is not a list of {len(digests)} numbers from 1 to {self.head.runs}')
        refuse_other_writing(members, line)
        self.kinds += sum(runs)
        self.hearer.take_kinds(digests, runs)

    def refuse_sums(self) -> None:
        """Refuses counts that don't belong together."""
        head = self.head
        of_endings: List[Tuple[str, Count, Callable[[str], bool]]] = [
            ("all", Count(head.runs, head.start), bool),
            (STOPPED, Count(head.all_stopped, None), lambda ending: end_word(ending) == STOPPED),
            (STUCK, head.flaws["stuck"], lambda ending: end_word(ending) == STUCK),
            (SPENT, head.spent, lambda ending: end_word(ending) == SPENT),
            ("faulty", head.flaws["fault"], has_fault), ("halted", head.flaws["halt"], has_halt),
        ]  # fmt: skip
        for what, wanted, is_one in of_endings:
            counts = [count for ending, count in self.endings if is_one(ending)]
            refuse_sum(f"the endings of {what} runs", sum(count.runs for count in counts), wanted.runs)
            refuse_first(f"the endings of {what} runs", counts, wanted)
        for number, left in enumerate(self.left):
            refuse_sum(f"the results of ending {number}", self.endings[number][1].runs - left, self.endings[number][1].runs)
        refuse_sum("the classes of runs", self.kinds, head.runs)
        self.refuse_findings()

    def refuse_findings(self) -> None:
        """Refuses findings that don't belong to the counts of the head, or are others than the races and missed lines."""
        for kind, findings in self.findings.items():
            wanted, counts, what = self.head.flaws[FINDING_KINDS[kind].flaw], list(findings.values()), f"the findings of `{kind}`"
            found = sum(count.runs for count in counts)
            if kind in ONE_OF_RUN:
                refuse_sum(what, found, wanted.runs)
            if found < wanted.runs:
                raise Wrong(f"{what} count fewer runs than the head, which counts {wanted.runs}")
            refuse_first(what, counts, wanted)
            if list(self.listed.get(kind, findings).items()) != list(findings.items()):
                raise Wrong(f"{what} have other keys or counts than the lines of `{kind}`")


def refuse_sum(what: str, found: int, wanted: int) -> None:
    if found != wanted:
        raise Wrong(f"{what} count {found} runs instead of {wanted}")


def refuse_first(what: str, counts: Sequence[Count], wanted: Count) -> None:
    first = min((count.first for count in counts if count.first is not None), default=None)
    if wanted.first is not None and first != wanted.first:
        raise Wrong(f"{what} begin with run {first} instead of run {wanted.first}, as in the head")


LAST = b'{"lines":'


# ---- files

class Kept:
    """A stream that can be read once, such as a pipe: what is read of it is kept, in a file that no folder names."""

    def __init__(self, stream: BinaryIO, first: bytes) -> None:
        self.stream, self.first = stream, first
        self.copy = tempfile.TemporaryFile()

    def readline(self, most: int) -> bytes:
        line = self.first
        self.first = b""
        if not line.endswith(b"\n"):
            line += self.stream.readline(most - len(line))
        self.copy.write(line)
        return line


def opened(file: str) -> Union[BinaryIO, Kept]:
    """A file, whose lines are to be read. OSError if it can't be."""
    if file == "-":
        return Kept(sys.stdin.buffer, b"")
    descriptor = os.open(file, os.O_RDONLY | os.O_NONBLOCK | os.O_NOCTTY)
    kind = os.fstat(descriptor).st_mode
    if stat.S_ISDIR(kind):
        os.close(descriptor)
        raise IsADirectoryError(errno.EISDIR, os.strerror(errno.EISDIR), file)
    first = first_of_pipe(descriptor, file) if stat.S_ISFIFO(kind) else b""
    os.set_blocking(descriptor, True)
    stream = open(descriptor, "rb")
    return stream if stat.S_ISREG(kind) else Kept(stream, first)


class Reader:
    """The lines of a file, each with its number."""

    def __init__(self, name: str, file: Union[BinaryIO, Kept]) -> None:
        self.name, self.file = name, file
        self.number, self.offset, self.next_offset = 0, 0, 0

    def line(self) -> bytes:
        """The next line; nothing at the end."""
        found = self.file.readline(MOST_LINE + 1)
        self.number += 1
        self.offset, self.next_offset = self.next_offset, self.next_offset + len(found)
        if len(found) > MOST_LINE:
            raise Wrong(f"it has more than {MOST_LINE:,} bytes")
        return found

    def parts(self, hearer: Callable[[Part], Hearer]) -> Iterator[Part]:
        """The parts of the file, each when all of it has been judged. Refused if one is wrong."""
        try:
            line = self.line()
            while line or self.number == 1:
                yield self.part(line, hearer)
                line = self.line()
        except Wrong as why:
            raise Refused(f"{self.name}:{self.number}: {why}: {AGAIN}") from None

    def part(self, first: bytes, hearer: Callable[[Part], Hearer]) -> Part:
        """The part that begins with a line."""
        if not first:
            raise Wrong("the file is empty")
        start, checksum = self.number, hashlib.sha256(first)
        opening, second = opening_of(first), self.line()
        checksum.update(second)
        part = Part(self.name, start, opening, head_of(second or self.cut(start)))
        body = Body(part, hearer(part))
        while True:
            line = self.line() or self.cut(start)
            if line.startswith(LAST):
                break
            body.take(line, self.offset)
            checksum.update(line)
        self.refuse_last(line, self.number - start, checksum.hexdigest())
        body.refuse_sums()
        body.hearer.end()
        return part

    def cut(self, start: int) -> bytes:
        raise Wrong(f'the part that begins in line {start} ends here without its last line, which begins with {LAST.decode()}')

    @staticmethod
    def refuse_last(line: bytes, count: int, checksum: str) -> None:
        """Refuses the last line of a part if it doesn't fit the lines before it."""
        members = object_of(line)
        refuse_names(members, (written.LAST, "sha256"))
        if not is_number(members[written.LAST], count, count):
            raise Wrong(f'"{written.LAST}" is {json.dumps(members[written.LAST])}, but the part has {count} lines before this one: lines were removed or added')
        if members["sha256"] != checksum:
            raise Wrong(f"the lines of this part were changed: their SHA-256 is {checksum}")
        refuse_other_writing(members, line)
