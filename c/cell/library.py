"""Finds the shared library, and asks it."""
import ctypes
import functools
import os
import pathlib
import re
from typing import Dict, Mapping, NamedTuple, Sequence

from .arguments import Bytes, bytes_of, files_of_names, kind_of
from .errors import MISUSED, NO_MEMORY, LibraryMissing, Misused

FILE = "libcell.so"
NAMED_BY = "CELL_LIBRARY"  # the variable of the environment that names another library
OUT_OF_MEMORY = b"cell: out of memory\n"
MANY = 64  # files, of which the library compares each with each
SOURCE = re.compile(rb"source[ \t]+([^\s#]+)")
PART = 1 << 30  # bytes: ctypes copies fewer than 2^31 at once


class Answer(NamedTuple):
    """The answer of a program: its exit status, and its output, or its error line if the status is above 1."""
    status: int
    text: bytes


@functools.lru_cache(maxsize=None)
def loaded(name: str) -> ctypes.CDLL:
    try:
        library = ctypes.CDLL(name)
        ask, forget = library.cell_ask, library.cell_forget
    except (OSError, AttributeError) as why:
        raise LibraryMissing(f"{name} can't be loaded: tools/dev/library makes it of c/libcell.a, for x86-64 Linux ({why})") from None
    ask.restype = ctypes.c_uint32
    ask.argtypes = [ctypes.c_char_p, ctypes.c_size_t] * 2 + [ctypes.POINTER(ctypes.c_void_p), ctypes.POINTER(ctypes.c_size_t)]
    forget.restype = None
    forget.argtypes = [ctypes.c_void_p, ctypes.c_size_t]
    return library


def library() -> ctypes.CDLL:
    """The shared library beside this module, or the one that the environment names."""
    return loaded(os.environ.get(NAMED_BY) or str(pathlib.Path(__file__).resolve().with_name(FILE)))


def line_of(text: str, argument: str) -> bytes:
    """A word, or the name of a file, as the library takes it: on a line of its own."""
    if not isinstance(text, str):
        raise TypeError(f"{argument} is {text!r}, of type {kind_of(text)}: give a str")
    if "\n" in text:
        raise Misused(MISUSED, f"{argument} has a line feed: {text!r}")
    return bytes_of(f"{text}\n", argument)


def bundle_of(files: Mapping[str, bytes]) -> bytes:
    """The files as the library takes them."""
    parts, names = [], set()
    for name, text in files.items():
        line = line_of(name, "the name of a file")
        if line in names:
            raise Misused(MISUSED, f"files has two names with the same bytes: {name!r}")
        names.add(line)
        parts += [line, b"%d\n" % len(text), text]
    return b"".join(parts)


def needed(words: Sequence[str], files: Dict[str, bytes]) -> Dict[str, bytes]:
    """The files that the words may name, and the sources that these name: of many, since the library compares the name of each with all others."""
    if len(files) <= MANY:
        return files
    named = [word for word in words if word in files]
    sources = {found.decode("utf-8", "surrogateescape") for name in named for found in SOURCE.findall(files[name])}
    return {name: files[name] for name in dict.fromkeys([*named, *sorted(sources)]) if name in files}


def copied(place: int, count: int) -> bytes:
    """The bytes at a place of the memory."""
    return b"".join(ctypes.string_at(place + at, min(PART, count - at)) for at in range(0, count, PART))


def ask(words: Sequence[str], files: Mapping[str, Bytes]) -> Answer:
    """Asks what a program is asked by these words. A refusal is an answer, too, and no exception.

    Arguments:
        words: the words of a command line, as the guide to embedding lists them
        files: the texts of the files that the words and the machine file name, by their names

    Example:
        >>> cell.ask(["check", "m", "r"], {})
        Answer(status=3, text=b'cell: cannot read machine file\\n')

    Returns: the exit status and the output. If the status is above 1, the text is the error line.

    Raises:
        Misused: a word or a name has a line feed, or two names are the same
        LibraryMissing: there is no shared library for this machine
        TypeError: an argument has another type
    """
    asked = b"".join(line_of(word, "a word") for word in words)
    given = bundle_of(needed(words, files_of_names(files)))
    text, count = ctypes.c_void_p(), ctypes.c_size_t()
    status = library().cell_ask(asked, len(asked), given, len(given), ctypes.byref(text), ctypes.byref(count))
    if text.value is None:
        return Answer(NO_MEMORY, OUT_OF_MEMORY)
    try:
        return Answer(status, copied(text.value, count.value))
    finally:
        library().cell_forget(text, count)
