"""Hints for the refusals of the proved programs, by their texts: which line of which file it is, and what to do next."""
import os
import re
from typing import Callable, List, Match, Optional, Sequence, Tuple

from celltools.common.texts import MOST_BYTES, MOST_RECORD_BYTES, quoted
from celltools.explain.machine import HEADS, LINES, MachineFile, Placing, placed_at, source_places, words_of
from celltools.explain.record import STRETCH, RecordFile
from celltools.explain.report import in_latin
from celltools.explain.source import OPERANDS, first_word, labels_and_statement, labels_before, text_lines, why_source_line, without_hints
from celltools.hint.calls import MACHINE, PASS, RECORD, SCRIPT, SOURCE, Call, Hint, Unread, call_of, data_of, in_quotes, joined, line_of, near, near_file
from celltools.hint.misused import misused
from celltools.run.plans import plan_of
from celltools.run.runs import MACHINE as MACHINE_HEAD
from celltools.run.runs import MISPLACED, Refused, what_is
from celltools.run.runs import RECORD as RECORD_HEAD
from celltools.source.gas import refused_lines
from celltools.telling.stale import newer_files

Hinting = Callable[[Call, "Match[str]"], Hint]
KEYS = sorted({"host", "show", *HEADS, *(name for name in LINES if " " not in name)})
SCRIPT_LINES = {
    "step x": "P C N", "step m": "P C N", "step h": "C N", "until": "P A N", "reg": "P R", "ls": "P A N", "mem": "A N", "dis": "P A N", "spe": "P", "end": "",
}  # fmt: skip
OF_MACHINE, OF_SCRIPT = "docs/reference/files.md lists the keys", "docs/reference/files.md has the lines of scripts, and their ranges"
ALL = "tools/explain {} explains all faulty lines"
HERE = "names are relative to the current folder"


# ---- files that can't be read

def unreadable(call: Call, found: "Match[str]") -> Hint:
    """A file that isn't there, or that may not be read."""
    file, name = found[1], call.name_of(found[1])
    if found[2] and found[2].endswith("UTF-8"):
        return Hint("give it a name in UTF-8, or a link that has one: ln -s FILE NAME", name, "the name isn't UTF-8")
    why = why_unread(name)
    if file.startswith("source") and SOURCE not in call.files:
        line, _ = call.source(int(file.split()[1]))
        folder = os.path.dirname(call.files[MACHINE])
        start = start_folder(folder, name)
        remedy = f"run the command in '{start}', which has this file" if start else near_file(name, [os.path.join(folder, name)])
        return Hint(joined(f"'{name}': {why}", HERE, remedy), f"{call.files[MACHINE]}:{line}", line_of(data_of(call.files[MACHINE]), line))
    made = f"the output of a run is a record: {again(call)}" if file == RECORD else ""
    option = "a form has no options, so this is read as a file's name" if name.startswith("-") else ""
    return Hint(joined(HERE, near_file(name) or made or option), name, why)


def start_folder(folder: str, name: str) -> str:
    """Returns the folder, above that of a machine file, in which a source has its name, as in a clone that isn't the current folder; nothing if there is none."""
    above = os.path.dirname(folder)
    while above and not os.path.isfile(os.path.join(above, name)):
        above = os.path.dirname(above) if os.path.dirname(above) != above else ""
    return above


def why_unread(name: str) -> str:
    """Returns why a file can't be read."""
    try:
        data_of(name)
    except Unread as why:
        return str(why)
    return "it has changed"


def too_long(call: Call, found: "Match[str]") -> Hint:
    most = MOST_RECORD_BYTES if found[1] == RECORD else MOST_BYTES
    return Hint(f"at most {most:,} bytes of this file are read", call.name_of(found[1]), "the file is too long")


def again(call: Call) -> str:
    """Returns the command that makes a record."""
    return f"./cell run {quoted(call.files[MACHINE])} >{quoted(call.files[RECORD])}"


# ---- machine files and sources

def misplaced(call: Call, head: str, file: str) -> str:
    """Returns what to do if a file is of another kind than it has to be; nothing if it is of the right one."""
    machine, record = call.files[MACHINE], call.files.get(RECORD, "")
    if not record and what_is(machine) == RECORD_HEAD:
        return f"'{machine}' is a record: name the machine file that it was made with"
    return in_quotes(MISPLACED.get((head, what_is(call.files[file])), "")).format(machine=quoted(machine), record=quoted(record))


def faulty_machine(call: Call, found: "Match[str]") -> Hint:
    """A line of a machine file that is outside the form."""
    name, number = call.files[MACHINE], int(found[1])
    data = data_of(name)
    file = MachineFile(data)
    place, text = f"{name}:{number}", line_of(data, number)
    if advice := misplaced(call, MACHINE_HEAD, MACHINE):
        return Hint(advice, place, text)
    file.take(number - 1)
    if number > len(file.lines):
        return Hint("the file ends too early: 'cell-machine 1', 'lines N', 'budget N' and one 'spe' are required", place, text)
    words = words_of(file.lines[number - 1])
    if words and " ".join(words[:2]) not in LINES and words[0] not in KEYS:
        return Hint(joined(f"'{words[0]}' is not a key here", near(words[0], KEYS), OF_MACHINE), place, text)
    return Hint(joined(in_quotes(file.mended(number - 1)), ALL.format(quoted(name))), place, text)


def faulty_source(call: Call, found: "Match[str]") -> Hint:
    """A line of a source that can't be assembled."""
    name, at, kind = call.name_of(found[1]), int(found[2]) - 1, found[3]
    data = data_of(name)
    lines = data.split(b"\n")
    why = why_source_line(lines, at, kind, text_lines(lines), labels_before(lines))
    if at + 1 in refused_lines(name, in_latin(data)):
        why = without_hints(why)
    word = first_word(labels_and_statement(lines[at])[1]) if kind == "UnknownName" else ""
    return Hint(joined(in_quotes(why), near(word, list(OPERANDS)) if word else "", ALL.format(quoted(name))), f"{name}:{at + 1}", line_of(data, at + 1))


def no_instruction(call: Call, found: "Match[str]") -> Hint:
    """A word of the text that is no instruction."""
    name = call.files[MACHINE]
    data = data_of(name)
    advice = f"0x{found[3]} is no instruction: docs/reference/instructions.md lists them; data that isn't executed belongs into a 'bytes' line"
    placing = Placing(plan_of(data))
    line = placed_at(found[0], source_places(placing, {source: os.path.isfile(source) for _, _, source in placing.sources}))
    if line is None:
        return Hint(advice, name, f"processor {found[1]}, 0x{found[2]}")
    return Hint(advice, f"{name}:{line}", line_of(data, line))


# ---- records

def faulty_record(call: Call, found: "Match[str]") -> Hint:
    """A line of a record that is outside the form."""
    name, number = call.files[RECORD], int(found[1])
    data = data_of(name)
    why = misplaced(call, RECORD_HEAD, RECORD) or joined(in_quotes(RecordFile(data).mend(number - 1)[0]), ALL.format(quoted(name)))
    return Hint(why, f"{name}:{number}", line_of(data, number))


def line_of_step(lines: Sequence[bytes], step: int) -> int:
    """Returns the number of the line of a record that has a step, by its place from 0."""
    before = 0
    for number, line in enumerate(lines[1:], 2):
        stretch = STRETCH.fullmatch(line)
        before += int(stretch[2]) if stretch else 1
        if before > step:
            return number
    return len(lines)


def made_with(call: Call) -> str:
    """Returns with what a record was made that is no run of the machine file, and how to make it again."""
    newer = list(newer_files(call.files[MACHINE], call.files[RECORD])) if os.path.isfile(call.files[MACHINE]) else []
    why = f"{' and '.join(newer)} changed after the record was made" if newer else "the record was made with another machine file, or was edited"
    return f"{why}; {again(call)} makes it again"


def not_allowed(call: Call, found: "Match[str]") -> Hint:
    """A step that the machine can't make."""
    name, step = call.files[RECORD], int(found[1])
    data = data_of(name)
    number = line_of_step(data.split(b"\n"), step)
    files = f"{quoted(call.files[MACHINE])} {quoted(name)}"
    return Hint(joined(f"step {step} can't happen here", f"{made_with(call)}, and tools/states {files} {step} prints the states before the step"),
                f"{name}:{number}", line_of(data, number))


def other_states(call: Call, found: "Match[str]") -> Hint:
    """States that aren't those of the run."""
    name, byte = call.files[RECORD], int(found[1])
    data = data_of(name)
    number, column = data.count(b"\n", 0, byte) + 1, byte - data.rfind(b"\n", 0, byte)
    files = f"{quoted(call.files[MACHINE])} {quoted(name)}"
    return Hint(f"{made_with(call)}, and tools/states {files} prints the right states", f"{name}:{number}:{column}", line_of(data, number))


# ---- scripts, suppressions, and the rest

def faulty_script(call: Call, found: "Match[str]") -> Hint:
    """A line of a script that is outside the form."""
    name, number = call.files[SCRIPT], int(found[1])
    data = data_of(name)
    words = words_of(data.split(b"\n")[number - 1])
    key = " ".join(words[:2]) if words[:1] == ["step"] else "".join(words[:1])
    place, text, form = f"{name}:{number}", line_of(data, number), SCRIPT_LINES.get(key)
    if form is None:
        known = [other.split()[0] for other in SCRIPT_LINES]
        return Hint(joined(f"'{key}' is not a line of a script", near(key, known), OF_SCRIPT), place, text)
    if len(words) != len(f"{key} {form}".split()):
        return Hint(joined(f"the form is '{f'{key} {form}'.strip()}'", OF_SCRIPT), place, text)
    return Hint(joined(f"a number of '{key} {form}' is outside its range, or is no number", OF_SCRIPT), place, text)


def faulty_suppression(call: Call, found: "Match[str]") -> Hint:
    """A line of a file of suppressions."""
    name, number = call.files[PASS], int(found[1])
    advice = "a line is a suppression as ./hunt prints it now: run ./hunt again without --pass, and copy what follows 'suppression: '; docs/guide/hunting.md has the form"
    return Hint(advice, f"{name}:{number}", line_of(data_of(name), number))


def not_settled(call: Call, _: "Match[str]") -> Hint:
    machine = quoted(call.files[MACHINE])
    return Hint(f"permute requires a run that doesn't depend on timing: ./hunt {machine} each finds settled runs, docs/guide/races.md#settled-runs has the conditions")


def too_large(_: Call, found: "Match[str]") -> Hint:
    return Hint(f"N of gen is 0 to 64, and not {found[1]}")


def usage(call: Call, _: "Match[str]") -> Hint:
    return misused(call)


REFUSALS: Sequence[Tuple[str, Hinting]] = (
    (r"usage: .*", usage),
    (r"cannot read (\w+ file|source \d+)(: .*)?", unreadable),
    (r"(\w+ file|source \d+) is too long.*", too_long),
    (r"machine file, line (\d+).*", faulty_machine),
    (r"(source \d+), line (\d+): (\w+).*", faulty_source),
    (r"processor (\d+), 0x(\w+): 0x(\w+) is not in the table", no_instruction),
    (r"record file, line (\d+)", faulty_record),
    (r"step (\d+) is not allowed", not_allowed),
    (r"states differ at byte (\d+)", other_states),
    (r"script file, line (\d+)", faulty_script),
    (r"pass file, line (\d+).*", faulty_suppression),
    (r"the run is not settled", not_settled),
    (r"(\d+) is above 64", too_large),
)


def race(words: Sequence[str]) -> Hint:
    """The hint for a record that has a data race."""
    files = " ".join(map(quoted, words[1:3]))
    return Hint(f"tools/race {files} explains this race; tools/witness {files} writes both orders as records")


def hint_of(program: str, said: str, words: Sequence[str]) -> Optional[Hint]:
    """Returns the hint for what a program printed about a call, None if there is nothing to add. A file that can't be read again has its name alone."""
    call = call_of(program, words)
    for pattern, hinting in REFUSALS:
        found = re.fullmatch(pattern, said)
        if found is None:
            continue
        try:
            return hinting(call, found)
        except (Unread, Refused, OSError, KeyError, IndexError):
            return unread_again(call, found)
    return None


def unread_again(call: Call, found: "Match[str]") -> Optional[Hint]:
    """Returns a hint without the line: of a pipe, or of a file that has changed since."""
    name = next((name for file, name in call.files.items() if found[0].startswith(file)), None)
    if name is None:
        return None
    return Hint(f"its line isn't shown: {why_unread(name)}; keep the text in a file", name, found[0])


def lines_of(program: str, printed: str, words: List[str]) -> List[str]:
    """Returns the lines that follow what a program printed on standard error; if that is nothing, it has found a race."""
    if not printed:
        return race(words).lines()
    said = next((line.partition(": ")[2] for line in printed.split("\n") if line.startswith(f"{program}: ")), "")
    found = hint_of(program, said, words)
    return found.lines() if found else []
