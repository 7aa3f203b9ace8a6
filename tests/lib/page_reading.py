"""Reads a page of the documentation: its sections, and in these the paragraphs and the indented blocks, with the commands that they show.

A command begins with the path of a program of this repository, or with a word of OTHERS, and stands in a block of its own kind, or in a paragraph between
backquotes, there of others those alone of WITH_WORDS. One that has words in capitals (`tools/race MACHINE RECORD`) is a form of commands, and none itself.
"""
import dataclasses
import pathlib
import re
from typing import Iterator, List, Tuple, Union

INDENT = "    "
OWN = r"(?:CELL_TRY=1 )?(?:\./cell|\./hunt|\./lockstep|~/cell/hunt|tools/(?:dev/)?\w+|tests/all|\.ci/run)"
OTHERS = r"(?:diff|grep|chromium|for|seq|parallel|sbatch|touch|cpp|spu-gcc|cc|python3|PYTHONPATH=\w+ python3)"
WITH_WORDS = r"(?:touch|cpp|spu-gcc|cc|python3)"  # others that are commands in a paragraph too, if a word follows
IN_BLOCK = re.compile(rf"(?:{OWN}|{OTHERS})(?: |$)")
IN_TEXT = re.compile(rf"`((?:{OWN}|{WITH_WORDS}) [^`]+|\./example)`")
FORM = re.compile(r"(?<![\w$.-])[A-Z]+(?![\w.=])|\.\.(?!/)")
PROMPT = re.compile(r"\d+> ")
NAMED = re.compile(r"(?:[Ss]ource|machine file|script|C file), `([^`]+)`")
ITEM = re.compile(r"- |\d+\. |\|")


@dataclasses.dataclass(frozen=True)
class Paragraph:
    line: int
    text: str

    def commands(self) -> List[str]:
        """The commands that the paragraph shows, in their order."""
        return [command for command in IN_TEXT.findall(self.text) if not is_form(command)]


@dataclasses.dataclass(frozen=True)
class Block:
    """Indented lines, without their indent."""

    line: int
    lines: List[str]
    before: str  # the paragraph before it

    def is_session(self) -> bool:
        """Whether it is a session of tools/debug, or a part of one, whose first line may say where it begins."""
        return any(map(PROMPT.match, self.lines[:2]))

    def is_commands(self) -> bool:
        return bool(IN_BLOCK.match(self.lines[0]))

    def is_text(self) -> bool:
        """Whether it is what a command prints, or a file. Such a text goes on in the next block if that is one too."""
        return not self.is_commands() and not self.is_session()

    def file(self) -> str:
        """The name of the file that it shows, where the paragraph before it names one."""
        named = NAMED.findall(self.before)
        return str(named[-1]) if named else ""

    def commands(self) -> List[str]:
        """The commands, those without forms. A line that is deeper, or within quotes, goes on with the command before it."""
        commands: List[str] = []
        for line in self.lines:
            if line.startswith(" ") or commands and commands[-1].count("'") % 2:
                commands[-1] += f"\n{line}"
            else:
                commands.append(line)
        return [command for command in commands if not is_form(command)]


@dataclasses.dataclass
class Section:
    page: str
    title: str
    parts: List[Union[Paragraph, Block]] = dataclasses.field(default_factory=list)

    def add(self, line: int, lines: List[str]) -> None:
        """Takes in lines that stand together."""
        if not lines[0].startswith(INDENT):
            self.parts.append(Paragraph(line, " ".join(lines)))
            return
        last = self.parts[-1] if self.parts else Paragraph(line, "")
        block = Block(line, [text.removeprefix(INDENT) for text in lines], last.text if isinstance(last, Paragraph) else "")
        if isinstance(last, Block) and last.is_text() and block.is_text():
            last.lines.extend(["", *block.lines])
        else:
            self.parts.append(block)

    def commands(self) -> List[str]:
        """All commands that it shows."""
        return [command for part in self.parts if isinstance(part, Paragraph) or part.is_commands() for command in part.commands()]

    def shows(self) -> bool:
        """Whether it has a block or a command."""
        return any(isinstance(part, Block) for part in self.parts) or bool(self.commands())


def is_form(command: str) -> bool:
    return bool(FORM.search(command))


def begins(line: str, lines: List[str]) -> bool:
    """Whether a line begins a paragraph or a block of its own, behind these lines."""
    is_code = line.startswith(INDENT)
    return not lines or is_code != lines[0].startswith(INDENT) or not is_code and bool(ITEM.match(line.lstrip()))


def parts_of(lines: List[str]) -> Iterator[Tuple[int, List[str]]]:
    """Lines that stand together, with the number of the first from 1; an empty line ends them."""
    start = 0
    together: List[str] = []
    for number, line in enumerate([*lines, ""], 1):
        if together and (not line.strip() or begins(line, together)):
            yield start, together
            together = []
        if line.strip():
            start = start if together else number
            together.append(line)


def sections_of(path: pathlib.Path) -> List[Section]:
    """The sections of a page, each from a heading to the next one."""
    sections = [Section(path.name, "")]
    for number, lines in parts_of(path.read_text().splitlines()):
        if lines[0].startswith("#"):
            sections.append(Section(path.name, lines[0].lstrip("# ")))
            lines, number = lines[1:], number + 1
        if lines:
            sections[-1].add(number, lines)
    return sections
