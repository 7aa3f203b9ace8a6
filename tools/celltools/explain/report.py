"""What the parts of tools/explain share: they ask `cell` which line is faulty, and print what was found."""
import re
import subprocess
import tempfile
from typing import Iterable, Tuple

from celltools.common.texts import decoded, shown
from celltools.run.runs import command_of

MOST = 100  # faulty lines that are told of one file
MOST_SHOWN = 120  # characters of a faulty line
MOST_QUOTED = 40  # characters of a word, or of a short line


class Report:
    """Prints what was found, and counts what is refused."""

    def __init__(self) -> None:
        self.refusals = 0

    def fault(self, place: object, words: str, line: str = "") -> None:
        self.refusals += 1
        print(f"{shown(place)}: {printable(words)}" + (f"\n    {printable(line)[:MOST_SHOWN]}" if line else ""))

    def warning(self, place: object, words: str) -> None:
        print(f"{shown(place)}: warning: {words}")


def cell(*words: str) -> Tuple[int, str, str]:
    """What the program answers: its exit status, its output, and what it says of a fault."""
    run = subprocess.run([*command_of("cell_cli"), *words], capture_output=True)
    said = re.search(rb"^cell: (?!running)(.*)", run.stderr, re.M)
    return run.returncode, run.stdout.decode("latin1"), said[1].decode("latin1") if said else ""


def cell_of(form: str, lines: Iterable[bytes], suffix: str) -> Tuple[int, str, str]:
    """The program's answer about lines, put into a file of their own."""
    with tempfile.NamedTemporaryFile("wb", suffix=suffix) as file:
        file.write(b"\n".join(lines))
        file.flush()
        return cell(form, file.name)


def in_latin(line: bytes) -> str:
    return line.decode("latin1")


def short(word: str) -> str:
    """A word of a file, or its beginning."""
    return word if len(word) <= MOST_QUOTED else f"{word[:MOST_QUOTED]}.."


def printable(text: str) -> str:
    """Text of a file as it is printed."""
    return shown(decoded(text.encode("latin1")))
