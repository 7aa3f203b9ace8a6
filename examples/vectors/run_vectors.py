"""Runs the vectors of instructions on an emulator, whose `step` you put in place of the one here: python3 run_vectors.py FOLDER/rows/a.json .."""
import json
import sys
from typing import Any, Dict, List

State = Dict[str, Any]  # status, pc, regs and ls, the last two by number and address
MASK = 0xFFFFFFFF


def words(quadword: str) -> List[int]:
    return [int(quadword[at:at + 8], 16) for at in range(0, 32, 8)]


def step(state: State, word: int) -> None:
    """A stand-in for an emulator: it knows `a`, `ai` and `il`."""
    rt, ra, rb = word & 127, word >> 7 & 127, word >> 14 & 127
    ten, half = word >> 14 & 1023, word >> 7 & 0xFFFF
    if word >> 21 == 0x0C0:
        lanes = [one + other for one, other in zip(words(state["regs"][ra]), words(state["regs"][rb]))]
    elif word >> 24 == 0x1C:
        lanes = [one + (ten ^ 512) - 512 for one in words(state["regs"][ra])]
    elif word >> 23 == 0x081:
        lanes = [(half ^ 0x8000) - 0x8000] * 4
    else:
        raise NotImplementedError(f"{word:08x}")
    state["regs"][rt] = "".join(f"{lane & MASK:08x}" for lane in lanes)
    state["pc"] = (state["pc"] + 4) % 0x40000


def passes(case: Dict[str, Any]) -> bool:
    """Whether the emulator does what the vector says."""
    before, after = case["before"], case["after"]
    state = {"status": "running", "pc": before["pc"], "regs": dict(before["regs"]), "ls": dict(before["ls"]), "mailbox": before.get("mailbox", [])}
    step(state, int(case["word"], 16))
    return all(state[name] == after[name] for name in ("status", "pc")) and all(state[name] == dict(after[name]) for name in ("regs", "ls"))


def main(names: List[str]) -> int:
    failed = 0
    for name in names:
        with open(name, encoding="ascii") as file:
            vectors = json.load(file)
        wrong = [case["word"] for case in vectors["cases"] if not passes(case)]
        failed += len(wrong)
        print(f"{vectors['row']}: {len(vectors['cases'])} cases, {len(wrong)} failed", *wrong[:3])
    return 1 if failed else 0


if __name__ == "__main__":
    sys.exit(main(sys.argv[1:]))
