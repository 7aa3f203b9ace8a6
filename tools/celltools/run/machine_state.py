"""How a machine stands behind some steps of a run, as run_trace prints it, and which steps are allowed then."""
import re
from typing import Dict, Iterable, List, Optional, Tuple

Actor = Tuple[str, Optional[int]]  # a kind, as in the scripts of `cell debug`, and a processor
SPE = re.compile(r"spe (\d+) (.+) pc 0x([0-9a-f]{5}) queued (\d+)")


class Spe:
    """How a processor stands."""

    def __init__(self, number: int, status: str, pc: int, queued: int) -> None:
        self.number, self.status, self.pc, self.queued = number, status, pc, queued
        self.registers: Dict[int, str] = {}
        self.word: Optional[int] = None

    @property
    def runs(self) -> bool:
        return self.status == "running"

    def register(self, number: int) -> str:
        """The hexadecimal digits of a register."""
        return self.registers.get(number, "0" * 32)


def spe_of(line: str) -> Spe:
    """How a processor stands, from its line."""
    found = SPE.fullmatch(line)
    if not found:
        raise ValueError(f"run_trace prints `{line}` of a processor")
    return Spe(int(found[1]), found[2], int(found[3], 16), int(found[4]))


class State:
    """How a machine stands, from the lines that run_trace prints of it."""

    def __init__(self, lines: Iterable[str]) -> None:
        self.end, self.host = "", (0, 0)
        self.spes: List[Spe] = []
        self.took: List[str] = []
        self.shown: List[bytes] = []
        self.flows: List[Tuple[int, str]] = []
        self.may: List[str] = []
        for line in lines:
            self.read(line)

    def read(self, line: str) -> None:
        word, _, rest = line.partition(" ")
        words = rest.split()
        if word == "end":
            self.end = rest
        elif word == "spe":
            self.spes.append(spe_of(line))
        elif word == "host":
            self.host = int(words[0]), int(words[2])
        elif word == "took":
            self.took.append(line)
        elif word in ("ls", "mem"):
            self.shown.append(bytes.fromhex(words[-1]))
        elif word in ("flow", "command"):
            self.flows.append((int(words[0]), line))
        elif word == "at":
            self.spes[int(words[0])].word = int(words[1])
        elif word == "may":
            self.may.append(rest)
        elif re.fullmatch(r"r\d+", word):
            self.spes[-1].registers[int(word[1:])] = rest

    def actors(self) -> List[Actor]:
        """The actors by their numbers for choices, each as the beginning of its steps' lines."""
        return [*(("x", spe.number) for spe in self.spes), *(("m", spe.number) for spe in self.spes), ("h", None)]

    def allowed(self, actor: Actor) -> List[str]:
        """The steps that an actor may make, in the order of their numbers for choices."""
        return [step for step in self.may if actor_of(step) == actor]

    def choice(self, step: str) -> Optional[int]:
        """The number that chooses a step; None where it isn't allowed."""
        if step not in self.may:
            return None
        actors, actor = self.actors(), actor_of(step)
        return actors.index(actor) + len(actors) * self.allowed(actor).index(step)


def actor_of(step: str) -> Actor:
    """Who makes a step: a kind, as in the scripts of `cell debug`, and a processor."""
    letter, *numbers = step.split()
    if letter == "h":
        return "h", None
    return "x" if letter == "x" else "m", int(numbers[0])
