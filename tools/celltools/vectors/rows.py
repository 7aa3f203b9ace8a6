"""The rows of the instruction table: how their words are made of fields, and which cases may follow one another in one program."""
import dataclasses
import re
from typing import Dict, Mapping, Tuple

from celltools.source.language import TABLE

ROW = re.compile(r'^entry_of \w+ = row \(codes "(\w+)"\) (\w+) 0x([0-9A-F]+) (\w+)$', re.M)
OPCODE_BITS = {"Rr": 11, "Indirect": 11, "Rrr": 4, "Ri7": 11, "Ri10": 8, "Ri16": 9, "Ri18": 7, "Stop": 11}
WORD = 32
# The fields of a word by their names: the bits to the right of each, and its width.
FIELDS = {"rt": (0, 7), "ra": (7, 7), "rb": (14, 7), "i7": (14, 7), "i10": (14, 10), "i16": (7, 16), "i18": (7, 18), "code": (0, 14), "channel": (7, 7)}
FIELDS_OF_FOUR = {"rc": (0, 7), "ra": (7, 7), "rb": (14, 7), "rt": (21, 7)}
REGISTERS = ("rt", "ra", "rb", "rc")
# The fields that each form of operands uses. Hints and `nop` use none that changes a state.
USED: Mapping[str, Tuple[str, ...]] = {
    "RtDisplacementRa": ("rt", "ra", "i10"), "RtRaRb": ("rt", "ra", "rb"), "RtAbsolute": ("rt", "i16"), "RtRelative": ("rt", "i16"), "RtSevenRa": ("rt", "ra", "i7"),
    "RtSignedHalf": ("rt", "i16"), "RtHalf": ("rt", "i16"), "RtUnsigned": ("rt", "i18"), "RtRaTen": ("rt", "ra", "i10"), "RtRaRbRc": ("rt", "ra", "rb", "rc"),
    "RtRa": ("rt", "ra"), "RtRaByte": ("rt", "ra", "i10"), "RtRaSeven": ("rt", "ra", "i7"), "RaRb": ("ra", "rb"), "RaTen": ("ra", "i10"), "Relative": ("i16",),
    "Absolute": ("i16",), "Ra": ("ra",), "Code": ("code",), "Bare": (), "OptionalRegister": ("rt",), "RtChannel": ("rt", "channel"), "ChannelRt": ("rt", "channel"),
    "HintRa": ("ra", "i7"), "HintAddresses": ("i16",),
}  # fmt: skip
MEMORY = {"lqd", "lqx", "lqa", "lqr", "stqd", "stqx", "stqa", "stqr"}
CHANNELS = {"rdch", "rchcnt", "wrch"}
CONTROL = {"br", "bra", "brsl", "brasl", "bi", "bisl", "brnz", "brz", "brhnz", "brhz", "binz", "biz", "bihnz", "bihz", "stop", "heq", "heqi", "hgt", "hgti", "hlgt", "hlgti"}


@dataclasses.dataclass(frozen=True)
class Row:
    """A row: its mnemonic, its format and opcode, and the fields that its operands use."""
    name: str
    format: str
    opcode: int
    used: Tuple[str, ...]

    @property
    def is_straight(self) -> bool:
        """Whether a program goes on after it, and it neither reads nor writes the store, so that cases follow one another."""
        return self.name not in MEMORY | CHANNELS | CONTROL

    def word(self, values: Mapping[str, int]) -> int:
        """The word with these fields; a field that isn't used is 0."""
        places = FIELDS_OF_FOUR if self.format == "Rrr" else FIELDS
        word = self.opcode << (WORD - OPCODE_BITS[self.format])
        for name in self.used:
            shift, width = places[name]
            word |= (values[name] & ((1 << width) - 1)) << shift
        return word

    def width(self, field: str) -> int:
        return (FIELDS_OF_FOUR if self.format == "Rrr" else FIELDS)[field][1]


def rows() -> Dict[str, Row]:
    """All rows by their names, in the order of the table."""
    found = ROW.findall(TABLE.read_text(encoding="utf-8"))
    return {name: Row(name, form, int(opcode, 16), USED[operands]) for name, form, opcode, operands in found}
