"""Checks arguments, and says which one is wrong."""
import operator
import os
from typing import Dict, Mapping, SupportsIndex, Union

from .errors import MISUSED, Misused

Bytes = Union[str, bytes, bytearray, memoryview]
Path = Union[str, bytes, "os.PathLike[str]"]


def kind_of(value: object) -> str:
    return type(value).__name__


def number_of(value: SupportsIndex, argument: str, least: int, most: int) -> int:
    """A whole number. TypeError if it is none, Misused if it is out of its range."""
    if isinstance(value, bool) or not hasattr(value, "__index__"):
        raise TypeError(f"{argument} is {value!r}, of type {kind_of(value)}: give a whole number")
    number = operator.index(value)
    if not least <= number <= most:
        raise Misused(MISUSED, f"{argument} is {number}: give a number from {least} to {most}")
    return number


def name_of(value: Path, argument: str) -> str:
    """The name of a file. TypeError if it is no path."""
    try:
        return os.fsdecode(value)
    except TypeError:
        raise TypeError(f"{argument} is {value!r}, of type {kind_of(value)}: give the name of a file, as a str or a path") from None


def bytes_of(text: Bytes, argument: str) -> bytes:
    """The bytes of a text. TypeError if it is none, Misused if it isn't UTF-8."""
    if isinstance(text, (bytes, bytearray, memoryview)):
        return bytes(text)
    if not isinstance(text, str):
        raise TypeError(f"{argument} is of type {kind_of(text)}: give its text as str or bytes")
    try:
        return text.encode("utf-8", "surrogateescape")
    except UnicodeEncodeError as why:
        raise Misused(MISUSED, f"{argument} has a character that UTF-8 can't have, {text[why.start]!r}, at {why.start}") from None


def files_of_names(files: Mapping[str, Bytes]) -> Dict[str, bytes]:
    """The bytes of files by their names. TypeError if there is no mapping, or something in it is no name or no text."""
    if not isinstance(files, Mapping):
        raise TypeError(f"files is of type {kind_of(files)}: give a mapping of names to texts, as files_of returns it")
    return {name_of(name, "a name in files"): bytes_of(text, f"files[{name!r}]") for name, text in files.items()}
