"""The lines of a part, as `./hunt MACHINE --json` prints it: docs/guide/cluster.md has the form. Each line has one way to be written.

Line 1 names the form, the version and the sources of the program, the machine file, and a checksum of it and its sources. Line 2 is the hunt's head. Then come
races, endings with their numbers, results, expected lines that runs miss, findings, warnings, the lines of the sources with an instruction, and the classes of
runs. The last line has the number of lines before it and their SHA-256.

A line of results has columns. The texts of a hunt's results have the same `show` lines, so they differ in hexadecimal digits alone: the line has the first text, the
ranges of places at which the texts differ, and the digits at these places.
"""
import array
import base64
import binascii
import functools
import itertools
import json
import operator
import re
import sys
from typing import Iterable, Iterator, List, NamedTuple, Sequence, Tuple


FORM = 3
PART, TEXT, SOURCE, KINDS = "part", "text", "source", "kinds"  # the first members of a part's first line, and of a line of results, of a source, of classes
LAST = "lines"  # and of the last line
OF_RESULTS = (TEXT, "spans", "digits", "endings", "runs", "first")  # the members of a line of results
OF_SOURCE = (SOURCE, "lines")  # and of a source
MOST_ROWS = 100  # in a line: more would take longer to read for one text
MOST_TEXT = 1 << 22  # bytes of the texts of a line that has several
MOST_KINDS = 3000  # in a line: a multiple of 3, so that base64 has no padding between lines
ODD = re.compile(r'[^ !#-\[\]-~]')
FEED = b"\\u000a"  # a line feed as a string has it
WITHOUT_DIGITS = bytes.maketrans(b"123456789abcdef", b"0" * 15)
DIFFERING = re.compile(rb"[^\0]+")


class Row(NamedTuple):
    """A result: the number of its ending, how many runs left it, the first of them, and its text."""
    ending: int
    runs: int
    first: int
    text: bytes


# ---- JSON

def json_line(value: object) -> str:
    """A value without spaces, of whose strings all but plain characters are written by their numbers. They have a character a byte."""
    if isinstance(value, dict):
        return "{" + ",".join(f"{json_line(name)}:{json_line(member)}" for name, member in value.items()) + "}"
    if isinstance(value, list) and set(map(type, value)) == {int}:
        return "[" + ",".join(map(str, value)) + "]"
    if isinstance(value, list):
        return "[" + ",".join(map(json_line, value)) + "]"
    if isinstance(value, str):
        return '"' + ODD.sub(lambda found: f"\\u{ord(found[0]):04x}", value) + '"'
    return json.dumps(value)


def line_of(value: object) -> bytes:
    return f"{json_line(value)}\n".encode()


def text_of(written: bytes) -> bytes:
    """The text of a string without its quotation marks. ValueError if a character of it is no byte."""
    plain = written.replace(FEED, b"\n")
    return plain if b"\\" not in plain else str(json.loads(b'"%s"' % written)).encode("latin-1")


# ---- results

def result_lines(rows: Iterable[Row]) -> Iterator[bytes]:
    """The lines of results: each has up to `most_rows` of them, whose texts differ in hexadecimal digits alone."""
    for skeleton, alike in itertools.groupby(rows, key=lambda row: row.text.translate(WITHOUT_DIGITS)):
        while together := list(itertools.islice(alike, most_rows(len(skeleton)))):
            yield result_line(together)


def most_rows(length: int) -> int:
    """How many results of texts of a length a line has at most."""
    return max(1, min(MOST_ROWS, MOST_TEXT // max(1, length)))


def result_line(rows: Sequence[Row]) -> bytes:
    """The line of results that belong into one."""
    texts, first = [row.text for row in rows], [row.first for row in rows]
    spans = differing_spans(texts)
    digits = b"".join([text[start:stop] for text in texts for start, stop in spans])
    distances = [first[0], *map(operator.sub, first[1:], first)]
    columns = [row.ending for row in rows], [row.runs for row in rows], distances
    return line_of(dict(zip(OF_RESULTS, (texts[0].decode("latin-1"), spans, packed_digits(digits), *columns))))


def differing_spans(texts: Sequence[bytes]) -> List[List[int]]:
    """The ranges of places at which texts of the same length differ, each with its start and its stop."""
    first = int.from_bytes(texts[0], "big")
    differing = functools.reduce(operator.or_, [int.from_bytes(text, "big") ^ first for text in texts])
    return [list(found.span()) for found in DIFFERING.finditer(differing.to_bytes(len(texts[0]), "big"))]


class Texts:
    """The texts of a line of results, each made when it is asked for."""

    def __init__(self, text: bytes, spans: Sequence[Sequence[int]], digits: str, count: int) -> None:
        """The spans are in order. ValueError for digits that aren't as many as the spans have places."""
        starts, stops = [start for start, _ in spans], [stop for _, stop in spans]
        between = [text[start:stop] for start, stop in zip([0, *stops], [*starts, len(text)])]
        ends = list(itertools.accumulate(map(operator.sub, stops, starts)))  # of the spans, among the digits of a text
        self.front, self.pieces = between[0], list(zip([0, *ends], ends, between[1:]))
        self.width = ends[-1] if ends else 0
        self.digits = unpacked_digits(digits)
        if len(self.digits) != count * self.width + count * self.width % 2:
            raise ValueError

    def of(self, place: int) -> bytes:
        """The text of a result, by its place in the line."""
        digits = self.digits[place * self.width : (place + 1) * self.width]
        return self.front + b"".join([digits[start:stop] + piece for start, stop, piece in self.pieces])


def packed_digits(digits: bytes) -> str:
    """Hexadecimal digits in base64, two in a byte; a 0 follows an odd number of them."""
    return base64.b64encode(binascii.unhexlify(digits + b"0" * (len(digits) % 2))).decode()


def unpacked_digits(text: str) -> bytes:
    """Digits of base64, with the 0 that may follow them; ValueError for a text that is none."""
    return binascii.hexlify(base64.b64decode(text.encode("ascii"), validate=True))


# ---- sources

def source_line(name: str, numbers: Sequence[int], executed: Sequence[int]) -> bytes:
    """The line of a source: the number of each line with an instruction, and 1 if a run executed it, else 0."""
    return line_of(dict(zip(OF_SOURCE, (name, [list(pair) for pair in zip(numbers, executed)]))))


# ---- classes

def kinds_lines(digests: Sequence[int], runs: Sequence[int]) -> Iterator[bytes]:
    """The lines of the classes of runs: each line has up to MOST_KINDS, their digests of 64 bits, and how many runs are of each."""
    for start in range(0, len(digests), MOST_KINDS):
        stop = start + MOST_KINDS
        yield line_of({KINDS: packed(digests[start:stop]), "runs": list(runs[start:stop])})


def packed(digests: Sequence[int]) -> str:
    """Digests in base64, each eight bytes, the most significant first."""
    words = array.array("Q", digests)
    if sys.byteorder == "little":
        words.byteswap()
    return base64.b64encode(words.tobytes()).decode()


def unpacked(text: str) -> List[int]:
    """Digests of base64; ValueError for a text that is none."""
    words = array.array("Q")
    words.frombytes(base64.b64decode(text.encode("ascii"), validate=True))
    if sys.byteorder == "little":
        words.byteswap()
    return words.tolist()


# ---- the last line, and parts of a line

def last_line(lines: int, checksum: str) -> bytes:
    return line_of({LAST: lines, "sha256": checksum})


def parts_in(line: str) -> Tuple[str, ...]:
    """The parts of a race or an ending: of each step, or of each processor."""
    return tuple(line.split(" | ")[1:])
