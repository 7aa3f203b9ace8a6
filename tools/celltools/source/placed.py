"""Where the lines of a source stand in the local store, and what bytes they have there.

The places and the labels are those that the proved assembler lists (`run_trace lines`), the bytes those of the image that it makes (`cell asm`).
"""
import functools
import re
import subprocess
import tempfile
from typing import Dict, List, NamedTuple, Tuple

from celltools.common.texts import MOST_BYTES, bytes_of, decoded
from celltools.run.runs import command_of

LABELS = re.compile(r"\s*((?:[A-Za-z_.][\w.]*\s*:\s*)*)([\w.]*)(.*)", re.S | re.A)
BLANKS = " \t\r"
COMMENT = re.compile(r'("[^"\\]*(?:\\.[^"\\]*)*")|/\*.*?\*/|#.*')  # or a string, which hides one
MOST_KEPT = 10_000
LABEL = "label"  # which begins the lines of labels

Place = Tuple[int, int]  # an address, and how many bytes stand there


class Line(NamedTuple):
    """A line of a source: its number from 1, its labels, whether it stands in the text, its address, its bytes, and how it is written."""
    number: int
    labels: List[str]
    in_text: bool
    address: int
    data: bytes
    text: str
    word: str  # its mnemonic or directive


class Image(NamedTuple):
    """The bytes of a source's text and of its data, and the address of these."""
    text: bytes
    start: int
    data: bytes


class Listed(NamedTuple):
    """Where a line stands: whether in the text, its address, and the address behind it."""
    in_text: bool
    address: int
    behind: int


class Listing(NamedTuple):
    """Where the lines of a source stand, in their order, and the labels of each line that has some, by its number."""
    lines: List[Listed]
    labels: Dict[int, List[str]]


def printed(program: str, *words: str) -> List[List[str]]:
    """The words of each line that a program prints; ValueError with what it says where it refuses."""
    run = subprocess.run([*command_of(program), *words], capture_output=True)
    if run.returncode:
        raise ValueError(run.stderr.decode(errors="backslashreplace").strip())
    return [line.split() for line in run.stdout.decode().splitlines()]


def image(name: str) -> Image:
    """The image of a source."""
    lines = printed("cell_cli", "asm", name)
    text, data = (bytes.fromhex("".join(words[2] for words in lines if words[0] == kind)) for kind in ("code", "bytes"))
    return Image(text, next((int(words[1], 16) for words in lines if words[0] == "bytes"), 0), data)


def listing_of(name: str) -> Listing:
    """The listing of a source."""
    found = Listing([], {})
    for words in printed("run_trace", "lines", name):
        if words[0] == LABEL:
            found.labels.setdefault(int(words[1]), []).append(words[2])
        else:
            found.lines.append(Listed(words[1] == "text", int(words[2]), int(words[3])))
    return found


def placed_lines(name: str) -> List[Line]:
    """The lines of a source. OSError where it can't be read, ValueError where `cell` refuses it."""
    source = bytes_of(name)
    if not source.endswith(b"\n") and len(source) < MOST_BYTES:
        source += b"\n"  # so that what ends the source is a line, also where it is a comment alone
    with tempfile.NamedTemporaryFile("wb", suffix=".s") as file:
        file.write(source)
        file.flush()
        whole, listing = image(file.name), listing_of(file.name)
    lines = zip(source.split(b"\n"), listing.lines)
    return [placed_line(whole, number, line, listing.labels.get(number, []), place) for number, (line, place) in enumerate(lines, 1)]


def placed_line(whole: Image, number: int, line: bytes, labels: List[str], place: Listed) -> Line:
    """A line with its bytes."""
    data = whole.text[place.address : place.behind] if place.in_text else whole.data[place.address - whole.start : place.behind - whole.start]
    return Line(number, labels, place.in_text, place.address, data, decoded(line), word_of(line))


@functools.lru_cache(maxsize=MOST_KEPT)  # most lines of a long source are blank, or others again
def word_of(line: bytes) -> str:
    """The mnemonic or directive of a line of a source that isn't refused; nothing where it has none."""
    found = LABELS.fullmatch(COMMENT.sub(lambda found: found[1] or " ", line.decode("latin1")).strip(BLANKS))
    return found[2] if found else ""
