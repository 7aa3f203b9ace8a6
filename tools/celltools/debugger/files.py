"""Where a debugger writes what it is asked to keep: nothing that is there is written over unasked, and never the record that the session is from."""
import dataclasses
import os
import pathlib
from typing import Callable, Optional, Sequence

from celltools.common.texts import MOST_RECORD_BYTES, bytes_of
from celltools.common.writing import write_whole
from celltools.debugger.places import Wrong
from celltools.run.runs import Path

OVER = "over"  # the word that lets a file be written over
PAGE_HEAD, PAGE_FACTS = b"<!doctype html>", b'<script id="facts" '


@dataclasses.dataclass(frozen=True)
class Kind:
    """What is written by a command of that name."""
    name: str
    what: str
    is_one: Callable[[bytes], bool]


RECORD = Kind("record", "record", lambda data: data.startswith(b"cell-record "))
PICTURE = Kind("picture", "page of a record", lambda data: data.startswith(PAGE_HEAD) and PAGE_FACTS in data)


def target_of(words: Sequence[str], kind: Kind, origin: Optional[Path]) -> str:
    """The file that words name, where it may be written; Wrong where it may not. `origin` is the record that the session is from, as the user calls it."""
    if len(words) != 1 and words[1:] != [OVER]:
        raise Wrong(f"usage: {kind.name} FILE, or {kind.name} FILE {OVER} to overwrite it")
    name = words[0]
    try:
        if origin and os.path.exists(name) and os.path.exists(str(origin)) and os.path.samefile(name, str(origin)):
            raise Wrong(f"{name}: this is the record of the session, which is not overwritten: use another name")
        if os.path.isfile(name) or pathlib.Path(name).is_block_device():
            refuse_what_is_there(name, kind, OVER in words[1:])
    except (OSError, ValueError) as why:
        raise unwritten(name, why) from None
    return name


def refuse_what_is_there(name: str, kind: Kind, is_over: bool) -> None:
    """Wrong where a file, or a disk, is of another kind, or where nobody said that it is to be written over."""
    data = bytes_of(name, MOST_RECORD_BYTES)
    if data and not kind.is_one(data):
        raise Wrong(f"{name}: the file exists and is not a {kind.what}, so nothing is written: use another name")
    if not is_over:
        raise Wrong(f"{name}: the file exists, so nothing is written: type `{kind.name} {name} {OVER}` to overwrite it, or use another name")


def write_file(name: str, text: str) -> None:
    """Writes a file; Wrong where it can't."""
    try:
        write_whole(name, text.encode())
    except (OSError, ValueError) as why:
        raise unwritten(name, why) from None


def unwritten(name: str, why: Exception) -> Wrong:
    return Wrong(f"{name}: {getattr(why, 'strerror', why)}: use another name")
