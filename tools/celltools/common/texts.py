"""The texts that users write, machine files, sources, records and their names: how the tools read them, cut them into lines, and show them.

Lines are those of `cell`: they end at a line feed, and at nothing else. A text is UTF-8; bytes that aren't stay as surrogates, as in Python's names of files.
"""
import os
import re
import sys
from typing import List, Optional, TextIO, Union

MOST_BYTES = 4_194_304  # of a machine file, a source or a script
MOST_RECORD_BYTES = 33_554_432
MOST_NUMBER = 0xFFFF_FFFF
PLAIN_NAME = re.compile(r"[\w@%+=:,./-]+", re.A)  # that a shell takes as it is
NUMBER = re.compile(r"0|[1-9][0-9]{0,19}|0[xX][0-9A-Fa-f]{1,8}")
ODD_BYTES = range(0xDC80, 0xDD00)  # the surrogates that stand for bytes
LAST_OF_LATIN, LAST_OF_PLANE = 0xFF, 0xFFFF

Name = Union[str, "os.PathLike[str]"]


def bytes_of(name: Name, most: int = MOST_BYTES) -> bytes:
    """The bytes of a file; of one that is longer than `cell` takes one byte too many, so that `cell` refuses it. OSError where it can't be read."""
    with open(name, "rb") as file:
        return file.read(most + 1)


def why_unread(why: OSError) -> str:
    """Returns why a file can't be read, and what to do."""
    if isinstance(why, (FileNotFoundError, NotADirectoryError)):
        return f"{why.strerror}: names are relative to the current folder"
    return "it is a folder: name a file" if isinstance(why, IsADirectoryError) else str(why.strerror)


def input_bytes(most: int = MOST_RECORD_BYTES) -> bytes:
    """The bytes of standard input, or of a longer one so many and one more."""
    return sys.stdin.buffer.read(most + 1)


def decoded(data: bytes) -> str:
    """Bytes as a text."""
    return data.decode("utf-8", "surrogateescape")


def lines_in(data: bytes) -> List[str]:
    """The lines of a text; the last may lack its line feed."""
    lines = decoded(data).split("\n")
    return lines if lines[-1] else lines[:-1]


def lines_of(name: Name, most: int = MOST_BYTES) -> List[str]:
    """The lines of a file. OSError where it can't be read."""
    return lines_in(bytes_of(name, most))


def number_of(word: str, most: int = MOST_NUMBER) -> Optional[int]:
    """The number that a word spells as machine files do, decimal without a leading zero or 0x and 1 to 8 digits; None for any other word, and above `most`."""
    number = int(word, 0) if NUMBER.fullmatch(word) else most + 1
    return number if number <= most else None


def shown(text: object) -> str:
    """A text as it is printed: what a terminal would obey or can't show is written as an escape, but for tabs."""
    text = str(text)
    if text.isprintable():
        return text
    return "".join(character if character.isprintable() or character == "\t" else escape(character) for character in text)


def escape(character: str) -> str:
    code = ord(character)
    if code in ODD_BYTES:
        code -= 0xDC00
    if code <= LAST_OF_LATIN:
        return f"\\x{code:02x}"
    return f"\\u{code:04x}" if code <= LAST_OF_PLANE else f"\\U{code:08x}"


def quoted(name: object) -> str:
    """A name as a shell takes it, as `shlex.quote` writes it, a module that the page hasn't."""
    text = str(name)
    return text if PLAIN_NAME.fullmatch(text) else "'" + text.replace("'", "'\"'\"'") + "'"


def say(*lines: object, to: Optional[TextIO] = None) -> None:
    """Prints lines, each as it is shown; a line feed within one begins another."""
    print(*(f"{shown(part)}\n" for line in lines for part in str(line).split("\n")), sep="", end="", file=to or sys.stdout)
