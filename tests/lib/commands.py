"""The commands that the report on a hunt has for its findings: each is run as a user would copy it."""
import re
import shlex
from typing import Iterator, List, NamedTuple

from lib.hunting import tool

COMMAND = re.compile(r"  (why, and how to fix it|why|backwards from its end|step through this run|the states of this run|who wrote it): (.+?)(?:, then `run` and `(last .+)`)?")
PLACE = re.compile(r"  (.+?:\d+): .*  \((?!SPU \d+ loops).*\)")  # but for the line of a loop: a command has the place where the SPU is
ENDED = (0, 1)  # the statuses of a tool that has an answer
# What the output has, by the words before the command.
HELP = {
    "why, and how to fix it": r"^why the first does not happen before the second:$(?s:.*)^how to fix it", "why": r"^(waiting SPUs|running SPUs|faults and halts):$",
    "backwards from its end": r"^\d+ steps; starting (at the end: |after step \d+, )", "step through this run": r"^\d+ steps; starting ",
    "the states of this run": r"\Aend \w+$", "who wrote it": r"> last .*\nstep \d+, ",
}  # fmt: skip
PLACED = ("why, and how to fix it", "why")  # whose output has the place of the finding, too


class Command(NamedTuple):
    """A command: the words before it, the words of the call, what is typed into the debugger, and the place of its finding or ''."""
    label: str
    words: List[str]
    typed: str
    place: str


def commands_in(text: str) -> Iterator[Command]:
    place = ""
    for line in text.splitlines():
        found, placed = COMMAND.fullmatch(line), PLACE.fullmatch(line)
        if found:
            yield Command(found[1], shlex.split(found[2]), f"run\n{found[3]}\n" if found[3] else "", place)
        elif placed and not place:
            place = placed[1]
        elif not line.startswith(" "):
            place = ""


def command_faults(text: str) -> Iterator[str]:
    """Where a command of a report fails, or doesn't print what the report promises."""
    for label, words, typed, place in commands_in(text):
        status, printed, said = tool(words, typed.encode())
        output = printed.decode(errors="backslashreplace")
        if status not in ENDED or said or not re.search(HELP[label], output, re.M) or label in PLACED and place not in output:
            yield f"{label}: {' '.join(words)} has status {status}, and prints {output}{said.decode(errors='backslashreplace')}"
