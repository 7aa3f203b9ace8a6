"""The files of a call of ./cell or ./hunt, by the names that the proved programs have for them, and their bytes."""
import difflib
import os
import re
import stat
from typing import Dict, List, NamedTuple, Optional, Sequence, Tuple

from celltools.common.texts import MOST_RECORD_BYTES
from celltools.explain.machine import words_of
from celltools.explain.report import MOST_SHOWN, in_latin, printable

CELL, HUNT = "cell", "hunt"
FORMS = {
    "run": ("MACHINE",), "check": ("MACHINE", "RECORD"), "asm": ("SOURCE",), "gen": ("N",), "debug": ("MACHINE", "SCRIPT"), "permute": ("MACHINE", "RECORD", "N"),
}  # fmt: skip
MACHINE, RECORD, SCRIPT, SOURCE, EXPECT, PASS = "machine file", "record file", "script file", "source 0", "expectation file", "pass file"
FILES = {"MACHINE": MACHINE, "RECORD": RECORD, "SCRIPT": SCRIPT, "SOURCE": SOURCE}
HUNT_FILES = {"--expect": EXPECT, "--pass": PASS}
VALUED = ("--runs", "--time", "--seed", "--from", "--jobs", "--expect", "--pass", "--warn", "--until", "--tools")  # options of ./hunt that have a value
NEAR, NEAR_FILE, NEAR_FORM = 0.7, 0.8, 0.6  # how alike a word, a file's name, or the name of a form has to be that is proposed
NO_FILE = "it is a pipe or a device, which can't be read twice"


class Hint(NamedTuple):
    """What is printed after a refusal."""
    advice: str
    place: str = ""  # a file, or a file and a line, as compilers name it; nothing if no file is meant
    text: str = ""  # the text of that line, or what is wrong with the file

    def lines(self) -> List[str]:
        """Returns the lines that are printed."""
        advice = f"hint: {self.advice}"
        return [f"{self.place}: {self.text}", advice] if self.place else [advice]


class Unread(Exception):
    """Why a file isn't read here."""


class Call(NamedTuple):
    """A call of ./cell or ./hunt: its words, and the files that they name."""
    program: str
    words: Sequence[str]
    files: Dict[str, str]

    def name_of(self, file: str) -> str:
        """Returns the name of a file of the call, as the user typed it or as the machine file has it; of a source that the words name, that."""
        found = re.fullmatch(r"source (\d+)", file)
        return self.source(int(found[1]))[1] if found and file not in self.files else self.files[file]

    def source(self, number: int) -> Tuple[int, str]:
        """Returns the line of the machine file that names a source, by its number from 0, and the source's name."""
        lines = enumerate(data_of(self.files[MACHINE]).split(b"\n"), 1)
        named = [(at, words[1]) for at, words in ((at, words_of(line)) for at, line in lines) if words[:1] == ["source"] and len(words) == 2]
        if number >= len(named):
            raise Unread("the machine file has changed")
        return named[number]


def call_of(program: str, words: Sequence[str]) -> Call:
    """Returns the call of these words. Those of ./hunt have each option and its value as two words."""
    if program == CELL:
        names = FORMS.get(words[0], ()) if words else ()
        return Call(program, words, {FILES[name]: word for name, word in zip(names, words[1:]) if name in FILES})
    places, options = hunt_words(words)
    files = {HUNT_FILES[option]: value for option, value in options if option in HUNT_FILES}
    return Call(program, words, {**files, MACHINE: places[0]} if places else files)


def hunt_words(words: Sequence[str]) -> Tuple[List[str], List[Tuple[str, str]]]:
    """Returns the words of ./hunt that are no options, and the options with their values."""
    places: List[str] = []
    options: List[Tuple[str, str]] = []
    left = iter(words)
    for word in left:
        if word in VALUED:
            options.append((word, next(left, "")))
        elif not word.startswith("-"):
            places.append(word)
    return places, options


def data_of(name: str) -> bytes:
    """Returns the bytes of a file. What isn't a regular file may have been read up: it isn't read again."""
    try:
        descriptor = os.open(name, os.O_RDONLY | os.O_NONBLOCK | os.O_NOCTTY)
    except OSError as why:
        raise Unread(why.strerror) from None
    try:
        mode = os.fstat(descriptor).st_mode
        if not stat.S_ISREG(mode):
            raise Unread("it is a folder" if stat.S_ISDIR(mode) else NO_FILE)
        with open(descriptor, "rb", closefd=False) as file:
            return file.read(MOST_RECORD_BYTES + 1)
    finally:
        os.close(descriptor)


def line_of(data: bytes, number: int) -> str:
    """Returns the text of a line, by its number from 1, as it is printed; of a long one its beginning."""
    lines = data.split(b"\n")
    text = printable(in_latin(lines[number - 1])) if number <= len(lines) else ""
    if not text and number >= len(lines):
        return "(the end of the file)"
    return text if len(text) <= MOST_SHOWN else f"{text[:MOST_SHOWN]}.."


def in_quotes(words: str) -> str:
    """Returns words of explain, which quotes between backquotes, as hints quote."""
    return words.replace("`", "'")


def joined(*parts: str) -> str:
    """Returns parts of an advice as one line; empty ones are left out."""
    return "; ".join(filter(None, parts)).replace("?; ", "? ")


def near(word: str, known: Sequence[str], least: float = NEAR) -> str:
    """Returns a question for the known word that is most like another; nothing if none is like it."""
    found = difflib.get_close_matches(word, known, 1, least) or difflib.get_close_matches(word.lower(), known, 1, least)
    return f"did you mean '{found[0]}'?" if found else ""


def near_file(name: str, others: Sequence[str] = ()) -> str:
    """The same, of a file that isn't there; `others` are tried first."""
    there = next(filter(os.path.isfile, others), None)
    if there:
        return f"did you mean '{there}'?"
    if os.path.exists(name):
        return ""
    folder, last = os.path.split(name)
    try:
        entries = os.listdir(folder or ".")
    except OSError:
        return f"there is no folder '{folder}'" if folder and not os.path.isdir(folder) else ""
    found: Optional[str] = next(iter(difflib.get_close_matches(last, entries, 1, NEAR_FILE)), None)
    return f"did you mean '{os.path.join(folder, found)}'?" if found else ""
