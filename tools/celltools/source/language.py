"""What the tools know of the language of docs/reference/assembler.md: its mnemonics, directives, numbers and statements."""
import re
from typing import Dict, Iterator, List, Optional, Tuple

from celltools.common.repository import ROOT

TABLE = ROOT / "crates" / "spu_decode" / "specs" / "Table.antt"
ROW = re.compile(r'^entry_of \w+ = row \(codes "(\w+)"\) \w+ 0x[0-9A-F]+ (\w+)$', re.M)

# How the operands of each form of the instruction table are written, and the range of the value among them.
FORMS = {
    "RtDisplacementRa": ("rt,disp(ra)", "-8192 to 8176"),
    "RtSevenRa": ("rt,imm(ra)", "-64 to 127"),
    "RtRaRb": ("rt,ra,rb", None),
    "RtRaRbRc": ("rt,ra,rb,rc", None),
    "RtRa": ("rt,ra", None),
    "RaRb": ("ra,rb", None),
    "Ra": ("ra", None),
    "RtAbsolute": ("rt,addr", "0 to 262143"),
    "RtRelative": ("rt,addr", "0 to 262143"),
    "Absolute": ("addr", "0 to 262143"),
    "Relative": ("addr", "0 to 262143"),
    "RtSignedHalf": ("rt,imm", "-32768 to 32767"),
    "RtHalf": ("rt,imm", "-32768 to 65535"),
    "RtUnsigned": ("rt,imm", "0 to 262143"),
    "RtRaTen": ("rt,ra,imm", "-512 to 511"),
    "RtRaByte": ("rt,ra,imm", "-128 to 255"),
    "RtRaSeven": ("rt,ra,imm", "-64 to 127"),
    "RaTen": ("ra,imm", "-512 to 511"),
    "Code": ("code", "0 to 16383"),
    "RtChannel": ("rt,channel", None),
    "ChannelRt": ("channel,rt", None),
    "OptionalRegister": ("a register or nothing", None),
    "HintRa": ("addr,ra", None),
    "HintAddresses": ("addr,addr", None),
    "Bare": ("nothing", None),
}
# The forms whose address is counted from the instruction, so that GNU as reads a bare number as a distance.
RELATIVE_FORMS = {"RtRelative", "Relative"}

# Bytes of each number of a data directive, and the range of the number.
DATA = {
    **dict.fromkeys((".byte",), (1, "-128 to 255")),
    **dict.fromkeys((".short", ".hword", ".2byte"), (2, "-32768 to 65535")),
    **dict.fromkeys((".long", ".word", ".int", ".4byte"), (4, "-2^31 to 2^32-1")),
    **dict.fromkeys((".quad", ".8byte"), (8, "-2^63 to 2^64-1")),
}
STRINGS = {".ascii", ".asciz", ".string"}
SECTIONS = {".text", ".data", ".bss", ".rodata", ".section"}
SKIPPED = {".file", ".global", ".globl", ".type", ".size", ".ident", ".local", ".extern", ".weak", ".loc"}

SMALL = r"(?:0|[1-9]\d?|1[01]\d|12[0-7])"  # a number up to 127
REGISTER = re.compile(rf"\$(?:{SMALL}|lr|sp)", re.A)
CHANNEL = re.compile(rf"(?:\$ch)?{SMALL}", re.A)
NUMBER = re.compile(r"0|[1-9]\d*|0x[0-9A-Fa-f]+")
NAME = re.compile(r"[A-Za-z_.][\w.]*", re.A)
NAME_OF_SECTION = re.compile(r"[\s\"]*([\w.]*)", re.A)
STRING = r'"[^"\\{0}]*(?:\\.[^"\\{0}]*)*"?'  # also one that nothing ends, so that its quote isn't looked at again
# A string or a character, each of which hides what it holds, and where a comment begins.
HIDING = re.compile(STRING.format(r"\n") + r"|'(?:\\.|[^\\\n])'?|/\*|#[^\n]*", re.S)
PIECE = re.compile(STRING.format("") + r"|'(?:\\.|[^\\])'?|[(),;]", re.S)
BITS = 64  # of a number
STORE = 262_144  # bytes of a local store


def operand_forms() -> Dict[str, str]:
    """For each mnemonic the form of its operands, a key of FORMS."""
    rows = dict(ROW.findall(TABLE.read_text(encoding="utf-8")))
    return {**rows, "lr": "RtRa"}


def value_of(digits: str, base: int) -> Optional[int]:
    """The value of digits; None above 64 bits, however many digits they are: Python reads no decimal of some thousands."""
    digits = digits.lstrip("0")
    value = int(digits or "0", base) if len(digits) <= BITS else 1 << BITS
    return value if value < 1 << BITS else None


def number_in(word: str) -> Optional[int]:
    """The number of the language that a word spells; None where it spells none."""
    if not NUMBER.fullmatch(word):
        return None
    return value_of(word[2:], 16) if word.startswith("0x") else value_of(word, 10)


def hiding(text: str) -> Iterator[Tuple[int, int]]:
    """Where each string, character and comment of a text begins and ends. Where nothing ends a comment, none begins."""
    at, has_end = 0, True
    while found := HIDING.search(text, at):
        start, at = found.span()
        if found[0] == "/*":
            end = text.find("*/", at) if has_end else -1
            has_end = end >= 0
            if not has_end:
                continue
            at = end + 2
        yield start, at


def without_comments(text: str) -> str:
    """The text with a blank for each comment; a comment of several lines keeps its line feeds."""
    kept, at = [], 0
    for start, end in hiding(text):
        if text[start] in "#/":
            kept += [text[at:start], " " + "\n" * text.count("\n", start, end) if text[start] == "/" else ""]
            at = end
    return "".join([*kept, text[at:]])


def cut(text: str, mark: str) -> List[str]:
    """The parts of a text between marks that stand outside strings and parentheses."""
    parts, depth, at = [], 0, 0
    for found in PIECE.finditer(text):
        piece = found[0]
        depth += (piece == "(") - (piece == ")")
        if piece == mark and depth <= 0:
            parts.append(text[at:found.start()])
            at = found.end()
    return [*parts, text[at:]]


def is_text_section(word: str, rest: str) -> bool:
    """Whether a section directive goes on in the text."""
    found = NAME_OF_SECTION.match(rest)
    name = found[1] if found else ""
    return word == ".text" or word == ".section" and (name == ".text" or name.startswith(".text."))
