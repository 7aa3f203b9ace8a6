#!/bin/sh
"trap" "" "INT"  # sh reads these two lines, and Python the others: tools/celltools/common/starting.py says why
"exec" "python3" "$0" "$@"
__doc__ = """Usage: tools/dev/table.py

Writes src/row.rt, src/table.rt and src/readings.rt of crates/spu_decode from the instruction table in its specs/Table.antt. Afterwards `rt check` in
crates/spu_decode proves that they have what the table has.
"""
import os
import sys

sys.excepthook = lambda kind, why, trace: os._exit(print(f"{sys.argv[0]}: {why}", file=sys.stderr) or 2)  # where its own folder can't be told
sys.path.insert(0, os.path.dirname(os.path.dirname(os.path.realpath(__file__))))
import celltools.common.starting  # noqa: E402, F401  (before all others)

import re
from typing import Dict, List, Sequence, Tuple

from celltools.common.ending import end
from celltools.common.repository import ROOT
from celltools.common.words import Words

CRATE = ROOT / "crates" / "spu_decode"
Row = Tuple[str, str, str, str, str]  # its name, mnemonic, form, opcode and operands
ENTRY = re.compile(r'^entry_of (\w+) = row \(codes "(\w+)"\) (\w+) 0x([0-9A-F]+) (\w+)$', re.M)
MADE = "// Made by tools/dev/table.py from specs/Table.antt: change the table, not this, and call it again.\n\n"
OPCODE_BITS = {"Rr": 11, "Indirect": 11, "Rrr": 4, "Ri7": 11, "Ri10": 8, "Ri16": 9, "Ri18": 7, "Stop": 11}
IMMEDIATES = {"Ri7": (14, 7), "Ri10": (14, 10), "Ri16": (7, 16), "Ri18": (7, 18), "Stop": (0, 14)}  # how far from the right, and how many bits
INTERRUPT_BITS = 0xC0000
NAMED = {  # the fields that operands name
    "RtDisplacementRa": "rt ra imm", "RtSevenRa": "rt ra imm", "RtRaRb": "rt ra rb", "RtRaRbRc": "rt ra rb rc", "RtRa": "rt ra", "RaRb": "ra rb",
    "Ra": "ra", "RtAbsolute": "rt imm", "RtRelative": "rt imm", "Absolute": "imm", "Relative": "imm", "RtSignedHalf": "rt imm", "RtHalf": "rt imm",
    "RtUnsigned": "rt imm", "RtRaTen": "rt ra imm", "RtRaByte": "rt ra imm", "RtRaSeven": "rt ra imm", "RaTen": "ra imm", "Code": "imm",
    "RtChannel": "rt ra", "ChannelRt": "rt ra", "OptionalRegister": "", "HintRa": "", "HintAddresses": "", "Bare": "",
}


def read_rows() -> List[Row]:
    return ENTRY.findall((CRATE / "specs" / "Table.antt").read_text())


def row_numbers(rows: Sequence[Row]) -> List[int]:
    """For each first eleven bits of a word, one more than the number of its row, or 0."""
    numbers = [0] * 2048
    for number, (_, _, form, opcode, _) in enumerate(rows):
        span = 2 ** (11 - OPCODE_BITS[form])
        for top in range(int(opcode, 16) * span, (int(opcode, 16) + 1) * span):
            if numbers[top]:
                raise SystemExit(f"rows {numbers[top] - 1} and {number} both begin with {top:#x}")
            numbers[top] = number + 1
    return numbers


def row_file(rows: Sequence[Row]) -> str:
    names = "".join(f"    {name},\n" for name, *_ in rows)
    return (
        "/// The rows of the instruction table, one for each mnemonic.\n"
        f"#[derive(Clone, Copy, Debug, PartialEq, Eq)]\npub enum Row {{\n{names}}}\n"
    )


def table_file(rows: Sequence[Row]) -> str:
    numbers = row_numbers(rows)
    lines = "".join("    " + ", ".join(map(str, numbers[k : k + 16])) + ",\n" for k in range(0, 2048, 16))
    names = "".join(f"    Row::{name},\n" for name, *_ in rows)
    shapes = "".join(
        f"    Shape {{ format: Format::{form}, opcode: 0x{int(opcode, 16):X}, operands: Operands::{operands} }},\n"
        for _, _, form, opcode, operands in rows
    )
    mnemonics = "".join(f'    "{mnemonic}",\n' for _, mnemonic, *_ in rows)
    count = len(rows)
    return (
        "use crate::row::Row;\nuse crate::shape::{Format, Operands, Shape};\n\n"
        "/// For the first eleven bits of a word, one more than the number of its row, or 0 where no row begins so.\n"
        f"#[rattlefmt::skip]\npub(crate) static ROW_NUMBERS: [u8; 2048] = [\n{lines}];\n\n"
        "/// The rows in the order of their numbers.\n"
        f"#[rattlefmt::skip]\npub(crate) static ROWS: [Row; {count}] = [\n{names}];\n\n"
        "/// What each row's words look like.\n"
        f"#[rattlefmt::skip]\npub(crate) static SHAPES: [Shape; {count}] = [\n{shapes}];\n\n"
        "/// What each row is called.\n"
        f"#[rattlefmt::skip]\npub(crate) static MNEMONICS: [&str; {count}] = [\n{mnemonics}];\n"
    )


def reading(name: str, form: str, operands: str) -> str:
    """How the words of a row are read."""
    shift, bits = IMMEDIATES.get(form, (0, 0))
    named = NAMED[operands].split()
    ones: Dict[str, int] = {field: 127 if field in named else 0 for field in ("rt", "ra", "rb", "rc")}
    fields = ", ".join(f"{field}: {mask}" for field, mask in ones.items())
    imm = 2**bits - 1 if "imm" in named else 0
    clear = INTERRUPT_BITS if form == "Indirect" else 0
    rt_shift = 21 if form == "Rrr" else 0
    return f"Reading {{ ones: Instr {{ row: Row::{name}, {fields}, imm: 0x{imm:X} }}, clear: 0x{clear:X}, rt_shift: {rt_shift}, imm_shift: {shift} }}"


def readings_file(rows: Sequence[Row]) -> str:
    readings = "".join(f"    {reading(name, form, operands)},\n" for name, _, form, _, operands in rows)
    return (
        "use crate::Instr;\nuse crate::fields::Reading;\nuse crate::row::Row;\n\n"
        "/// How each row's words are read.\n"
        f"#[rattlefmt::skip]\npub(crate) static READINGS: [Reading; {len(rows)}] = [\n{readings}];\n"
    )


def main(words: List[str]) -> int:
    Words(__doc__).read(words, 0)
    rows = read_rows()
    for name, text in (("row", row_file(rows)), ("table", table_file(rows)), ("readings", readings_file(rows))):
        (CRATE / "src" / f"{name}.rt").write_text(MADE + text)
    return 0


if __name__ == "__main__":
    end(main)
