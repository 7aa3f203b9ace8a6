"""What every page has to keep: no paragraph and no cell of a table that is too long to be read at once, and links that lead somewhere."""
import pathlib
import re
from typing import Iterator, List, Set

from lib.page_reading import INDENT, parts_of

PARAGRAPH, CELL = 120, 60  # words at most
CELLS = re.compile(r"(?<!\\)\|")
LINK = re.compile(r"!?\[[^\]]*\]\(([^)\s]+)\)")
CODE = re.compile(r"`[^`]*`")
HEADING = re.compile(r"#{1,6} +(.+)")


def pages_of(root: pathlib.Path) -> List[pathlib.Path]:
    """All pages: those at the root, and all of docs/."""
    return sorted([*root.glob("*.md"), *(root / "docs").rglob("*.md")])


def anchor_of(heading: str) -> str:
    """What a heading is called in a link."""
    plain = re.sub(r"[^\w\- ]", "", LINK.sub(lambda link: link[0][1:].split("](")[0], heading).lower())
    return plain.strip().replace(" ", "-")


def anchors_of(page: pathlib.Path) -> Set[str]:
    """The anchors of a page: those of its headings."""
    headings = map(HEADING.fullmatch, page.read_text().splitlines())
    return {anchor_of(heading[1]) for heading in headings if heading}


def length_faults(text: str) -> Iterator[str]:
    """Whether a paragraph, or a cell of a row, is too long."""
    parts, most, kind = (CELLS.split(text), CELL, "a cell") if text.startswith("|") else ([text], PARAGRAPH, "a paragraph")
    for part in parts:
        words = len(part.split())
        if words > most:
            yield f"{kind} of {words} words, where {most} are the most: {' '.join(part.split()[:6])} .."


def link_faults(page: pathlib.Path, text: str) -> Iterator[str]:
    """The links of a paragraph that lead nowhere."""
    for target in LINK.findall(CODE.sub("", text)):
        name, _, anchor = target.partition("#")
        there = (page.parent / name).resolve() if name else page
        if "://" in target:
            continue
        if not there.exists():
            yield f"a link to {target}: there is no such file"
        elif anchor and (there.suffix != ".md" or anchor not in anchors_of(there)):
            yield f"a link to {target}: there is no such heading"


def faults_of(page: pathlib.Path, root: pathlib.Path) -> Iterator[str]:
    """What is wrong on a page, each with its file and line."""
    for number, lines in parts_of(page.read_text().splitlines()):
        text = " ".join(line for line in lines if not HEADING.fullmatch(line))
        if not text.startswith(INDENT):
            for fault in (*length_faults(text), *link_faults(page, text)):
                yield f"{page.relative_to(root)}:{number}: {fault}"
