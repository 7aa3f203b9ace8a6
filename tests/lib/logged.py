"""The states that a commit log leads to, as `run_trace log` prints it, and how they differ from the states that `cell` prints."""
import re
from typing import Dict, Iterator, List, Sequence, Tuple

SPE = re.compile(r"spe (\d+) (.+) pc (0x\w+) queued \d+")
REGISTER = re.compile(r"r(\d+) (\w+)")
SHOWN = re.compile(r"(mem|ls \d+) 0x(\w+) (\w+)")
ZERO = "0" * 32
NOT_EFFECTS = ("fetch", "read", "write")  # fields of `effects` that the log has in another form
CHANGES = ("pc", "reg", "ls", "mem", "spe")


class Logged:
    """What the lines of a log that were taken so far lead to."""

    def __init__(self) -> None:
        self.registers: Dict[Tuple[str, str], str] = {}
        self.counters: Dict[str, str] = {}
        self.statuses: Dict[str, str] = {}
        self.bytes: Dict[Tuple[str, int], str] = {}

    def take(self, line: str) -> None:
        for name, *words in map(str.split, line.split(" | ")[1:]):
            if name == "pc":
                self.counters[words[0]] = words[1]
            elif name == "reg":
                self.registers[words[0], words[1]] = words[2]
            elif name == "spe":
                self.statuses[words[0]] = " ".join(words[1:])
            elif name in ("ls", "mem"):
                self.put(" ".join([name, *words[:-2]]), int(words[-2], 16), words[-1])

    def put(self, place: str, at: int, digits: str) -> None:
        for k in range(0, len(digits), 2):
            self.bytes[place, at + k // 2] = digits[k:k + 2]

    def differences(self, states: Sequence[str]) -> Iterator[str]:
        """How these states differ from what the log leads to. The log doesn't have the bytes and program counters of the start."""
        shown: Dict[Tuple[str, str], str] = {}
        spe = ""
        for line in states:
            of_spe, of_register, of_bytes = SPE.fullmatch(line), REGISTER.fullmatch(line), SHOWN.fullmatch(line)
            if of_spe:
                spe, status, counter = of_spe.groups()
                if (status, counter) != (self.statuses.get(spe, "running"), self.counters.get(spe, counter)):
                    yield f"{line}, and by the log {self.statuses.get(spe)} at {self.counters.get(spe)}"
            elif of_register:
                shown[spe, of_register[1]] = of_register[2]
            elif of_bytes:
                yield from self.byte_differences(line, of_bytes[1], int(of_bytes[2], 16), of_bytes[3])
        logged = {key: digits for key, digits in self.registers.items() if digits != ZERO}
        if shown != logged:
            yield f"the registers are {shown}, and by the log {logged}"

    def byte_differences(self, line: str, place: str, at: int, digits: str) -> Iterator[str]:
        for k in range(0, len(digits), 2):
            if self.bytes.get((place, at + k // 2), digits[k:k + 2]) != digits[k:k + 2]:
                yield f"{line}, and by the log {self.bytes[place, at + k // 2]} at 0x{at + k // 2:x}"


def line_differences(log: Sequence[str], effects: Sequence[str]) -> List[str]:
    """How the lines of a log differ from those of `effects` in the fields that both have."""
    if len(log) != len(effects):
        return [f"the log has {len(log)} lines, and effects {len(effects)}"]
    return [f"{mine}, and in effects {other}" for mine, other in zip(log, effects) if without(mine, CHANGES) != without(other, NOT_EFFECTS)]


def without(line: str, names: Sequence[str]) -> List[str]:
    """The step of a line, and its fields but those of these names."""
    step, *fields = line.split(" | ")
    return [step, *(field for field in fields if field.split()[0] not in names)]
