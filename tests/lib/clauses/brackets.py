"""Texts without comments and strings, and where their brackets close."""
import re
from typing import Dict, Iterator, List

SKIPPED = re.compile(r"//[^\n]*|/\*.*?\*/|b?\"(?:\\.|[^\"\\])*\"|b?'(?:\\[^']+|[^'\\])'(?!\w)", re.S)
BRACKET = re.compile(r"[(){}\[\]]")


def blank(found: "re.Match[str]") -> str:
    """A comment as blanks; a string or character as its quotes with blanks between them. The line feeds stay."""
    text = found[0]
    quote = "" if text.startswith("/") else text[-1]
    inner = re.sub(r"[^\n]", " ", text)
    return quote + inner[1:-1] + quote if quote else inner


def plain(text: str) -> str:
    """The text with the same places, without what stands in comments and strings."""
    return SKIPPED.sub(blank, text)


class Brackets:
    """Where the brackets of a text close."""

    def __init__(self, text: str) -> None:
        self.closes: Dict[int, int] = {}
        opened: List[int] = []
        for found in BRACKET.finditer(text):
            if found[0] in "({[":
                opened.append(found.start())
            elif opened:
                self.closes[opened.pop()] = found.start()
        self.size = len(text)

    def end(self, at: int) -> int:
        """Where the bracket at this place closes."""
        return self.closes.get(at, self.size)


def after_angle(text: str, at: int) -> int:
    """The place after the `>` that closes the `<` at this place."""
    depth = 0
    for place in range(at, len(text)):
        depth += (text[place] == "<") - (text[place] == ">" and text[place - 1] not in "-=")
        if depth == 0:
            return place + 1
    return len(text)


def outside(text: str, sign: str = ",") -> Iterator[str]:
    """The parts between the commas, or another sign, that stand in no brackets."""
    depth, begin = 0, 0
    for place, here in enumerate(text):
        arrow = here == ">" and text[place - 1:place] in ("-", "=")
        depth += (here in "({[<") - (here in ")}]>" and not arrow)
        if here == sign and depth == 0:
            yield text[begin:place].strip()
            begin = place + 1
    if text[begin:].strip():
        yield text[begin:].strip()
