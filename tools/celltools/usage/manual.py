"""Pages for `man`, of the usage texts."""
from typing import Iterable, Iterator, List, Sequence, Tuple, Union

from celltools.common.repository import version
from celltools.usage.reading import Section, Text
from celltools.usage.table import PROGRAMS, Program

Part = Union[str, Section]
OPTIONS, STATUS, OF_EACH = "Options", "Exit status", "Options of every program of this repository"


def escaped(text: str) -> str:
    """A text as roff has it: a line of a page may not begin with a dot or an apostrophe."""
    text = text.replace("\\", "\\e").replace("-", "\\-")
    return f"\\&{text}" if text.startswith((".", "'")) else text


def page_of(program: Program, text: Text) -> str:
    return "\n".join(lines_of(program, text)) + "\n"


def lines_of(program: Program, text: Text) -> Iterator[str]:
    yield ".\\\" tools/dev/completions --write made this page of the usage text: edit that text and tools/celltools/usage."
    yield f".TH {program.name.upper()} 1 \"\" \"cell {version()}\" \"cell: an SPU emulator that finds DMA races\""
    yield from (".SH NAME", f"{program.name} \\- {escaped(program.summary)}", ".SH SYNOPSIS", ".nf")
    yield from (f"\\fB{escaped(program.path)}\\fR {escaped(form)}".rstrip() for form, _ in text.usage)
    yield from (".fi", ".SH DESCRIPTION")
    if any(meaning for _, meaning in text.usage):
        yield from items_of(text.usage)
    for part in in_order(text.parts):
        yield from paragraph(part) if isinstance(part, str) else section(part)
    others = ", ".join(f"\\fB{escaped(other.name)}\\fR(1)" for other in PROGRAMS if other != program)
    yield from (".SH SEE ALSO", others)


def in_order(parts: Sequence[Part]) -> List[Part]:
    """The parts with the options of every program after the program's own, or before the exit statuses."""
    of_each = [part for part in parts if isinstance(part, Section) and part.title == OF_EACH]
    others = [part for part in parts if part not in of_each]
    titles = [part.title if isinstance(part, Section) else "" for part in others]
    own = next((place + 1 for place, title in enumerate(titles) if title.startswith(OPTIONS)), None)
    place = own if own is not None else next((place for place, title in enumerate(titles) if title.startswith(STATUS)), len(others))
    return [*others[:place], *of_each, *others[place:]]


def paragraph(text: str) -> Iterator[str]:
    yield ".PP"
    for line in text.split("\n"):
        if line.startswith("- "):
            yield ".IP \\(bu 2"
            line = line[2:]
        yield escaped(line.strip())


def section(part: Section) -> Iterator[str]:
    if part.title == OF_EACH:
        yield ".SH OPTIONS OF EVERY PROGRAM"
    elif part.title:
        head, _, rest = part.title.partition(", ")
        yield f".SH {escaped(head.upper())}"
        if rest:
            yield escaped(rest[0].upper() + rest[1:] + ":")
    yield from (escaped(line.strip()) for line in part.lines)
    yield from items_of(part.items)


def items_of(items: Iterable[Tuple[str, str]]) -> Iterator[str]:
    for item, meaning in items:
        yield from (".TP", f"\\fB{escaped(item)}\\fR", escaped(meaning))
