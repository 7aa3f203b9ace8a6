"""Questions that the library and the WebAssembly module are asked, about all examples, and what the programs answer to them."""
import concurrent.futures
import dataclasses
import hashlib
import os
import pathlib
import re
import subprocess
from typing import Dict, Iterator, List, Sequence, Tuple

from celltools.common.repository import PROGRAMS, ROOT, built

EXAMPLES = ROOT / "examples"
KEPT = ROOT / "tests" / "out" / "answers"
SECONDS = 60
FOUND = 1  # the greatest status of an answer that is no refusal
RUNS, FEW, RUN, SEED = "12", "4", "5", "2"
# In the place of the files that users have: a place and numbers that choose the steps of a run, and lines that runs are to end with.
CHOICES, EXPECTED = ("choices", b"0 0\n1 7\n2 3\n0 1\n" * 20), ("expected", b"host 0 of 0\n")
OWN_FORM = ", time M RECORD\n"  # which run_trace alone has
FAULTY_SOURCE = "faulty.s", b"_start: il $3\n"
FAULTY_MACHINE = "faulty.cell", b"cell-machine 1\nlines 1\nspe\n"


@dataclasses.dataclass(frozen=True)
class Question:
    words: Tuple[str, ...]
    files: Dict[str, bytes]


@dataclasses.dataclass(frozen=True)
class Answer:
    status: int
    text: bytes


def bytes_of(name: str) -> bytes:
    return (ROOT / name).read_bytes()


def files_of(*names: str) -> Dict[str, bytes]:
    """Files by their names, with the sources that a machine file among them has."""
    files: Dict[str, bytes] = {}
    for name in names:
        files[name] = bytes_of(name)
        if name.endswith(".cell"):
            files.update((source, bytes_of(source)) for source in re.findall(r"(?m)^source (\S+)", files[name].decode()))
    return files


def names_of(kind: str) -> List[str]:
    return [str(path.relative_to(ROOT)) for path in sorted(EXAMPLES.rglob(f"*.{kind}"))]


def of_machine(machine: str) -> Iterator[Question]:
    """Questions about a machine file alone."""
    files = files_of(machine)
    for words in (["run", machine], ["hunt", machine, RUNS, "3"], ["hunt", machine, "--runs", FEW, "--from", RUN, "--json"],
                  ["hunt", machine, "record", RUN, SEED], ["hunt", machine, "each", FEW], ["trace", "plan", machine]):
        yield Question(tuple(words), files)
    name, text = EXPECTED
    yield Question(("hunt", machine, FEW, "--expect", name), {**files, name: text})


def of_record(machine: str, record: str) -> Iterator[Question]:
    """Questions about a machine file with a record."""
    files = files_of(machine, record)
    for words in (["check", machine, record], ["permute", machine, record, "7"], ["trace", "effects", machine, record], ["trace", "log", machine, record],
                  ["trace", "states", machine, record, "3"], ["trace", "before", machine, record, "2"]):
        yield Question(tuple(words), files)
    name, text = CHOICES
    yield Question(("trace", "go", machine, record, "1", name), {**files, name: text})


def of_source(source: str) -> Iterator[Question]:
    files = files_of(source)
    for words in (["asm", source], ["check", source, source], ["trace", "lines", source]):
        yield Question(tuple(words), files)


def of_nothing() -> Iterator[Question]:
    """Questions without their files, and words that ask for nothing."""
    for words in (["asm", "none.s"], ["check", "none.cell", "none.out"], ["hunt", "none.cell", FEW], ["trace", "effects", "none.cell", "none.out"], ["frob"],
                  ["hunt"], ["trace", "frob"], ["check", "none.cell"], ["hunt", "none.cell", "0"]):
        yield Question(tuple(words), {})
    for front, (name, text) in ((("asm",), FAULTY_SOURCE), (("trace", "lines"), FAULTY_SOURCE), (("trace", "plan"), FAULTY_MACHINE)):
        yield Question((*front, name), {name: text})


def questions() -> List[Question]:
    """All questions."""
    asked: List[Question] = [*of_nothing()]
    for machine in names_of("cell"):
        asked += of_machine(machine)
        record = machine[:-len("cell")] + "out"
        if (ROOT / record).exists():
            asked += of_record(machine, record)
    for source in names_of("s"):
        asked += of_source(source)
    return asked


# ---- what the programs answer

def command_of(words: Sequence[str]) -> List[str]:
    """The program of a question, with its words."""
    first, *rest = words
    if first == "hunt":
        return [str(built("hunt")), *rest]
    if first == "trace":
        return [str(built("run_trace")), *rest]
    if first == "run":
        return [str(built("run_trace")), "alone", *rest]
    return [str(built("cell_cli")), *words]


def answer_of(question: Question, folder: pathlib.Path) -> Answer:
    """What the program answers in a folder that has the examples, and the files that these haven't."""
    done = subprocess.run(command_of(question.words), cwd=folder, capture_output=True, timeout=SECONDS)
    if done.returncode <= FOUND:
        return Answer(done.returncode, done.stdout)
    return Answer(done.returncode, as_library(done.stderr, question.words))


def as_library(line: bytes, words: Sequence[str]) -> bytes:
    """The error line as the library tells it: without the name of a file that `hunt` puts behind it, or the form that run_trace does."""
    said = line.decode(errors="surrogateescape")
    endings = [f": {word}\n" for word in words] if said.startswith("hunt: ") else [OWN_FORM] if said.startswith("run_trace: words: ") else []
    ending = next(filter(said.endswith, endings), "")
    return (said[:-len(ending)] + "\n" if ending else said).encode(errors="surrogateescape")


def answers_of(asked: Sequence[Question], folder: pathlib.Path) -> List[Answer]:
    """What the programs answer to all questions. It is kept, since three programs of tests/ ask for it, as long as the programs and the questions are the same."""
    data = b"".join([*(built(program).read_bytes() for program in PROGRAMS), packed(asked)])
    head = hashlib.sha256(data).hexdigest().encode()
    kept, _, answers = KEPT.read_bytes().partition(b"\n") if KEPT.exists() else (b"", b"", b"")
    if kept == head:
        return [*unpacked(answers)]
    found = asked_now(asked, folder)
    beside = KEPT.with_name(f"{KEPT.name}.{os.getpid()}")
    KEPT.parent.mkdir(exist_ok=True)
    beside.write_bytes(b"".join([head, b"\n", *(b"%d %d\n%s" % (answer.status, len(answer.text), answer.text) for answer in found)]))
    beside.replace(KEPT)
    return found


def asked_now(asked: Sequence[Question], folder: pathlib.Path) -> List[Answer]:
    """What they answer, asked side by side."""
    os.symlink(EXAMPLES, folder / "examples")
    for name, text in (CHOICES, EXPECTED, FAULTY_SOURCE, FAULTY_MACHINE):
        (folder / name).write_bytes(text)
    with concurrent.futures.ThreadPoolExecutor(os.cpu_count()) as pool:
        return list(pool.map(lambda question: answer_of(question, folder), asked))


# ---- how they are sent

def bundle_of(files: Dict[str, bytes]) -> bytes:
    """The files as the call takes them."""
    return b"".join(b"%s\n%d\n%s" % (name.encode(), len(text), text) for name, text in files.items())


def packed(asked: Sequence[Question]) -> bytes:
    """The questions as one text: of each, in a line, how many bytes its words and its files have, and then both."""
    parts: List[bytes] = []
    for question in asked:
        words, files = "\n".join(question.words).encode(), bundle_of(question.files)
        parts.append(b"%d %d\n%s%s" % (len(words), len(files), words, files))
    return b"".join(parts)


def unpacked(data: bytes) -> Iterator[Answer]:
    """The answers of a text that has of each, in a line, the status and the number of bytes, and then these."""
    while data:
        line, rest = data.split(b"\n", 1)
        status, count = map(int, line.split())
        yield Answer(status, rest[:count])
        data = rest[count:]


def differences(asked: Sequence[Question], wanted: Sequence[Answer], found: Sequence[Answer]) -> Iterator[str]:
    """What differs from what the programs answer."""
    if len(found) != len(wanted):
        yield f"{len(wanted)} questions, and {len(found)} answers"
    for question, want, got in zip(asked, wanted, found):
        if want != got:
            yield f"{' '.join(question.words)}: wanted status {want.status}, {shown(want.text)}; found status {got.status}, {shown(got.text)}"


def shown(text: bytes) -> str:
    """The start of a text, for a message."""
    return repr(text.decode(errors="backslashreplace")[:200])
