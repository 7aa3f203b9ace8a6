"""The texts of vectors: JSON, one case a line."""
import itertools
import json
from typing import Dict, List, Sequence

from celltools.vectors import sequences
from celltools.vectors.cases import Case, Chooser
from celltools.vectors.machines import After, run_cases
from celltools.vectors.rows import Row

FORMAT = 1


def pairs(values: Dict[int, bytes]) -> List[List[object]]:
    return [[number, value.hex()] for number, value in values.items()]


def case_of(case: Case, after: After) -> Dict[str, object]:
    before: Dict[str, object] = {"pc": case.pc, "regs": pairs(case.registers), "ls": pairs(case.store)}
    if case.mailbox:
        before["mailbox"] = case.mailbox
    return {"word": f"{case.word:08x}", "before": before, "after": {"status": after.status, "pc": after.pc, "regs": pairs(after.registers), "ls": pairs(after.store)}}


def text_of_row(row: Row, count: int, seed: int) -> str:
    """The vectors of a row."""
    cases = list(itertools.islice(Chooser(row, seed).cases(count), count))
    found = run_cases(cases, row.is_straight)
    return text_of({"row": row.name}, seed, [case_of(case, after) for case, after in zip(cases, found)])


def text_of(head: Dict[str, object], seed: int, cases: Sequence[Dict[str, object]]) -> str:
    front = json.dumps({"vectors": FORMAT, **head, "seed": seed, "count": len(cases)})
    lines = ",\n".join(json.dumps(case, separators=(",", ":")) for case in cases)
    return f'{front[:-1]}, "cases": [\n{lines}\n]}}\n'


def text_of_sequences(kind: str, count: int, seed: int) -> str:
    """The vectors of a kind of channel sequences."""
    found = sequences.sequences(kind, count, seed)
    ended = sequences.run_sequences(found)
    return text_of({"sequences": kind}, seed, [sequences.case_of(place, *both) for place, both in enumerate(zip(found, ended))])
