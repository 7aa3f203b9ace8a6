"""The tables of docs/reference/json.md, by which lines of JSON are judged: of each line its members, in their order, with their types."""
import base64
import binascii
import pathlib
import re
from typing import Any, Callable, Dict, Iterator, List, NamedTuple, Optional, Sequence

HEADING = re.compile(r"### (library: )?`(\w+)`")
ROW = re.compile(r"\| `([\w-]+)` \| ([^|]+?) \|.*")
KINDS = "## Kinds of findings and warnings"
DIGEST = re.compile(r"[0-9a-f]{64}")
PLACE = re.compile(r".+:\d+", re.S)
LIBRARY = "library: "


class Member(NamedTuple):
    name: str
    kind: str


class Page(NamedTuple):
    """The members of each line, by the name of its first one; of those of the library alone it has `library: ` before it. And the line of each kind of findings."""
    lines: Dict[str, List[Member]]
    kinds: Dict[str, str]


def page_of(file: pathlib.Path) -> Page:
    page = Page({}, {})
    members: Optional[List[Member]] = None
    in_kinds = False
    for text in file.read_text().splitlines():
        heading, row = HEADING.fullmatch(text), ROW.fullmatch(text)
        if text.startswith("#"):
            in_kinds = text == KINDS
            members = page.lines.setdefault(f"{heading[1] or ''}{heading[2]}", []) if heading else None
        elif row and in_kinds:
            page.kinds[row[1]] = row[2].strip("`")
        elif row and members is not None:
            members.append(Member(row[1], row[2]))
    return page


# ---- types

def is_number(value: object) -> bool:
    return type(value) is int and value >= 0


def is_base64(value: object) -> bool:
    try:
        return isinstance(value, str) and base64.b64decode(value.encode("ascii"), validate=True) is not None
    except (binascii.Error, UnicodeEncodeError):
        return False


def is_count(value: object) -> bool:
    return isinstance(value, dict) and list(value) == ["runs", "first"] and is_number(value["runs"]) and (is_number(value["first"]) if value["runs"] else value["first"] is None)


def is_classes(value: object) -> bool:
    return isinstance(value, dict) and all(re.fullmatch(r"\d+", name) and is_number(runs) for name, runs in value.items())


TYPES: Dict[str, Callable[[Any], bool]] = {
    "number": is_number,
    "flag": lambda value: isinstance(value, bool),
    "text": lambda value: isinstance(value, str),
    "bytes": lambda value: isinstance(value, str) and all(ord(letter) < 256 for letter in value),
    "digest": lambda value: isinstance(value, str) and bool(DIGEST.fullmatch(value)),
    "base64": is_base64,
    "place": lambda value: value is None or isinstance(value, str) and bool(PLACE.fullmatch(value)),
    "count": is_count,
    "pairs": lambda value: isinstance(value, list) and all(isinstance(pair, list) and len(pair) == 2 and all(map(is_number, pair)) for pair in value),
    "classes": is_classes,
}
LIST_OF = "list of "
IN_PLACE_OF = {"end": "number", "result": "text"}  # lines of the library, and those of a part


def is_of(kind: str, value: object) -> bool:
    """Whether a value is of a type."""
    if kind.startswith(LIST_OF):
        return isinstance(value, list) and all(is_of(kind[len(LIST_OF):], element) for element in value)
    return TYPES[kind](value)


# ---- lines

def line_faults(page: Page, members: Dict[str, Any], where: str) -> Iterator[str]:
    """What is wrong with a line, by its table; `where` is `library: ` for one that the library returns."""
    name = next(iter(members), "")
    table = page.lines.get(where + name) or page.lines.get(name)
    if table is None:
        yield f"a line `{name}` has no table"
        return
    if list(members) != [member.name for member in table]:
        yield f"a line `{name}` has the members {', '.join(members)}, and the page {', '.join(member.name for member in table)}"
        return
    for member in table:
        if not is_of(member.kind, members[member.name]):
            yield f"`{member.name}` of a line `{name}` isn't of the type {member.kind}: {members[member.name]!r:.100}"
    kind = str(members[name])
    if name in page.kinds.values() and page.kinds.get(kind) != name:
        yield f"a line `{name}` has the kind {kind}, which the page hasn't"


def order_faults(page: Page, names: Sequence[str]) -> Iterator[str]:
    """Whether lines have another order than the tables. A line that only the library has comes in the place of one of a part."""
    order = [name for name in page.lines if not name.startswith(LIBRARY)]
    if list(names) != sorted(names, key=lambda name: order.index(IN_PLACE_OF.get(name, name))):
        yield f"the lines are in the order {', '.join(dict.fromkeys(names))}"
