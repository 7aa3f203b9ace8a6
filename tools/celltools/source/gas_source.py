"""The statements of a source of GNU as, with where each comes from, and the names that the source defines, gives to others, or sets to a value."""
import bisect
import collections
import itertools
import re
from typing import Dict, Iterator, List, NamedTuple, Sequence, Set, Tuple

from celltools.common.texts import decoded
from celltools.source.gas_expressions import ATOM
from celltools.source.gas_words import CONDITIONAL, LAZY, OF_CONDITIONALS, OPENING, SETS, by_its_case
from celltools.source.language import DATA, cut, hiding, without_comments

BLANKS = " \t\n\r\f\v"
STATEMENT = re.compile(r"((?:[\w.$]+\s*:\s*)*)(?:([\w.$]+)\s*(==?)?\s*(.*))?", re.S | re.A)
WORD = re.compile(r"\S+", re.A)
LINE_MARK = re.compile(r'#[ \t]+(\d{1,9})[ \t]+"((?:[^"\\]|\\.)*)"[ \t\d\r]*', re.A)  # of a C preprocessor


class Statement(NamedTuple):
    """A statement: its labels, its instruction or directive, and what stands behind it."""
    labels: List[str]
    word: str
    rest: str


Entry = Tuple[int, int, Statement]  # a statement with its line and its column


def statements(text: str) -> Iterator[Entry]:
    """Each statement of a source with the number of its line and its column there, which is 0 where it has the line for itself."""
    lines = zip(without_comments(text).split("\n"), blanked(text).split("\n"))
    for number, (line, same) in enumerate(lines, 1):
        parts = cut(line, ";")
        for part, column in zip(parts, columns(same) if len(parts) > 1 else [0]):
            part = part.strip(BLANKS)
            found = STATEMENT.fullmatch(part)
            heads, word, equal, rest = found.groups() if found else ("", WORD.findall(part)[0], None, "")
            labels = [label.strip() for label in heads.split(":")[:-1]]
            if equal:
                word, rest = LAZY if equal == "==" else ".set", f"{word},{rest}"
            word = by_its_case(word or "")
            for rest in operands_apart(word, rest or ""):
                yield number, column, Statement(labels, word, rest)
                labels = []


def blanked(text: str) -> str:
    """The text with blanks in place of comments, each as long as it is."""
    kept: List[str] = []
    at = 0
    for start, end in hiding(text):
        if text[start] in "#/":
            kept += [text[at:start], re.sub(r"[^\n]", " ", text[start:end])]
            at = end
    return "".join([*kept, text[at:]])


def columns(line: str) -> List[int]:
    """The column of each statement of a line, from 1."""
    found: List[int] = []
    at = 1
    for part in cut(line, ";"):
        found.append(at + len(part) - len(part.lstrip(BLANKS)))
        at += len(part) + 1
    return found


def marks(text: str) -> Dict[int, Tuple[str, int]]:
    """The line marks of a C preprocessor by the numbers of their lines: each the file and the line from which the next line comes."""
    found = ((number, LINE_MARK.fullmatch(line)) for number, line in enumerate(text.split("\n"), 1) if line.startswith("#"))
    return {number: (decoded(re.sub(r"\\(.)", r"\1", mark[2]).encode("latin1")), int(mark[1])) for number, mark in found if mark}


def comments(text: str) -> Dict[int, str]:
    """What the comments of each line say, by the line's number."""
    said: Dict[int, List[str]] = collections.defaultdict(list)
    number, at = 1, 0
    for start, end in hiding(text):
        number += text.count("\n", at, start)
        at = start
        if text[start] in "#/":
            bare = text[start + 2 : end - 2] if text[start] == "/" else text[start + 1 : end]
            for k, line in enumerate(bare.split("\n")):
                said[number + k].append(line.strip(" \t\r*"))
    return {number: " ".join(filter(None, words)) for number, words in said.items()}


def operands_apart(word: str, rest: str) -> List[str]:
    """The operands, each by itself where a directive has several and `.` among them: it is the address of its own."""
    parts = cut(rest, ",") if word in DATA else []
    return parts if len(parts) > 1 and any("." in ATOM.findall(part) for part in parts) else [rest]


def ends_of(entries: Sequence[Entry]) -> Dict[int, int]:
    """Of each macro, repetition and condition that something ends, the index of its first statement and that of its last."""
    found: Dict[int, int] = {}
    opened: Dict[str, List[int]] = collections.defaultdict(list)  # by the word that ends it
    for at, (_, _, statement) in enumerate(entries):
        end = ".endif" if CONDITIONAL.fullmatch(statement.word) else OPENING.get(statement.word)
        if end:
            opened[end].append(at)
        elif opened.get(statement.word):
            found[opened[statement.word].pop()] = at
    return found


def without_bodies(entries: Sequence[Entry]) -> Iterator[Entry]:
    """The statements but for those of macros and repetitions, of which the first one alone is refused, and the ends of conditions, of which that is said too."""
    ends, at, depth = ends_of(entries), 0, 0
    while at < len(entries):
        word = entries[at][2].word
        depth += at in ends and word not in OPENING
        if not depth or word not in OF_CONDITIONALS:
            yield entries[at]
        depth -= depth > 0 and word == ".endif"
        at = ends[at] + 1 if at in ends and word in OPENING else at + 1


class Source:
    """One source: its statements, and which names it defines, gives to others, or sets to a value."""

    def __init__(self, name: str, text: str) -> None:
        self.name, self.marks = name, marks(text)
        self.marked = sorted(self.marks)
        self.statements: List[Entry] = []
        self.comments = {number: said for number, said in comments(text).items() if number not in self.marks}
        self.labels: Set[str] = set()
        self.shared: Set[str] = set()
        self.kept_local: Set[str] = set()
        self.sets: Dict[str, str] = {}
        self.macros: Dict[str, int] = {}  # the lines at which they begin, by their names in small letters
        kept = itertools.takewhile(lambda entry: entry[2].word != ".end", statements(text))
        for number, column, statement in without_bodies(list(kept)):
            self.statements.append((number, column, statement))
            self.labels.update(label for label in statement.labels if not label.isdecimal())
            self.take_names(number, statement.word, statement.rest)

    def take_names(self, number: int, word: str, rest: str) -> None:
        """Takes in what a directive says of names."""
        names = [part.strip() for part in cut(rest, ",")]
        if word in (".global", ".globl", ".weak"):
            self.shared.update(names)
        elif word == ".local":
            self.kept_local.update(names)
        elif word in SETS and word != LAZY and names[1:] == ["."]:
            self.labels.add(names[0])
        elif word in SETS and len(names) == 2:
            self.sets[names[0]] = names[1]
        elif word in (".comm", ".lcomm"):
            (self.kept_local if word == ".lcomm" else self.shared).add(names[0])
        elif word == ".macro":
            self.macros.update((name.lower(), number) for name in WORD.findall(names[0])[:1])

    def origin(self, number: int) -> Tuple[str, int]:
        """The file and the line that a line of the text comes from."""
        last = bisect.bisect_right(self.marked, number) - 1
        if last < 0:
            return self.name, number
        name, line = self.marks[self.marked[last]]
        return name, line + number - self.marked[last] - 1

    def has_marks_before(self, number: int) -> bool:
        return bool(self.marked) and self.marked[0] < number

    def own(self) -> Set[str]:
        """The names that mean something in this file alone."""
        return (self.labels | self.kept_local) - (self.shared - self.kept_local)
