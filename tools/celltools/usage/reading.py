"""Reads the usage text of a program, as --help prints it: its usage lines, paragraphs, and sections of items with their meanings."""
import dataclasses
import re
import subprocess
from typing import Dict, List, Tuple, Union

from celltools.common.repository import ROOT

USAGE = "Usage:"
ITEM = re.compile(r"  (\S(?:.*?\S)?) {2,}(\S.*)")
OPTION = re.compile(r"-\w|--[\w-]*")


@dataclasses.dataclass(frozen=True)
class Section:
    """Items under a title, each with its meaning; before them the lines that are none."""
    title: str
    lines: Tuple[str, ...]
    items: Tuple[Tuple[str, str], ...]


@dataclasses.dataclass(frozen=True)
class Text:
    """A usage text: its usage lines after the program's path, with the meanings that some have; and the paragraphs and sections after them, in their order."""
    usage: Tuple[Tuple[str, str], ...]
    parts: Tuple[Union[str, Section], ...]

    def meanings(self) -> Dict[str, str]:
        """The options with their values, and their meanings."""
        items = [*self.usage, *(item for part in self.parts if isinstance(part, Section) for item in part.items)]
        return {item: meaning for item, meaning in items if meaning and OPTION.match(item)}


def text_of(path: str) -> Text:
    """The usage text of a program, which is named from the root."""
    done = subprocess.run([str(ROOT / path), "--help"], stdin=subprocess.DEVNULL, stdout=subprocess.PIPE, check=True, cwd=ROOT)
    return read(done.stdout.decode(), path)


def read(text: str, path: str) -> Text:
    usage, *blocks = [block.splitlines() for block in text.strip("\n").split("\n\n")]
    forms = [line.replace(USAGE, "", 1).strip()[len(path):].strip().partition("  ") for line in usage]
    parts: List[Union[str, Section]] = []
    for block in blocks:
        parts.append(section_of(block) if is_section(block) else "\n".join(block))
    return Text(tuple((form, meaning.strip()) for form, _, meaning in forms), tuple(parts))


def is_section(block: List[str]) -> bool:
    """Whether a block has items, with or without a title."""
    return any(ITEM.fullmatch(line) for line in block[:2]) and (block[0].startswith("  ") or block[0].endswith(":"))


def section_of(block: List[str]) -> Section:
    title = "" if block[0].startswith("  ") else block[0].rstrip(":")
    lines: List[str] = []
    items: List[Tuple[str, str]] = []
    for line in block[1 if title else 0:]:
        item = ITEM.fullmatch(line)
        if item:
            items.append((item[1], item[2]))
        elif items and line.startswith("   "):
            items[-1] = (items[-1][0], f"{items[-1][1]} {line.strip()}")
        else:
            lines.append(line)
    return Section(title, tuple(lines), tuple(items))
