"""The calls: each asks the library as the program is asked, and makes an object of its answer."""
import os
import time
from typing import Dict, Iterable, List, Mapping, Optional, Sequence, SupportsIndex, Union

from .answers import Hunt, Image, Run, Trace, Verdict, hunt_of, image_of, run_of, verdict_of
from .arguments import Bytes, Path, bytes_of, files_of_names, name_of, number_of
from .errors import MISUSED, Misused, Racy, error_of
from .library import ask
from .parts import Sum

# The names of texts that have none of their own. No machine file can name a source so, since they have a blank.
MACHINE, SOURCE, RECORD, EXPECTED, LEFT_OUT = "the machine file", "the source", "the record", "the expected lines", "the races that are left out"
SCRIPT = "the script"
FOUND = 1  # the greatest status of an answer that is no refusal
MOST, MOST_SEED = 2**32 - 1, 2**64 - 1
FIRST_PART = 1  # runs
STORE = 262_144  # bytes of a local store
MOST_WORDS = 256  # that a line of a script disassembles
SHORT, LONG = 0.1, 0.4  # seconds of a part, outside of which the next one has twice or half as many runs

Files = Mapping[str, Bytes]
Record = Union[Run, Bytes]


def sources_of(machine: Bytes) -> List[str]:
    """The names of the sources that a machine file has, in their order, as the library reads it: none where it is faulty, since each call says so of it."""
    status, text = ask(["trace", "plan", MACHINE], {MACHINE: machine})
    lines = (line.split(" ") for line in text.decode("utf-8", "surrogateescape").splitlines()) if status <= FOUND else ()
    return [words[1] for _, _, *words in lines if words[0] == "source"]


def files_of(machine: Path, folder: Path = ".") -> Dict[str, bytes]:
    """Reads a machine file and its sources from the disk.

    Arguments:
        machine: the name of the machine file
        folder: the folder in which this name and those of the sources are looked up

    Example:
        >>> list(cell.files_of("examples/sum.cell"))
        ['examples/sum.cell', 'examples/sum.s']

    Returns: the bytes of each file by its name. If the machine file is faulty, it has only the machine file: the call that uses it reports the fault.

    Raises:
        OSError: a file can't be read
        TypeError: an argument is no path
    """
    machine, folder = name_of(machine, "machine"), name_of(folder, "folder")
    files = {machine: bytes_in(folder, machine)}
    for name in sources_of(files[machine]):
        if name not in files:
            files[name] = bytes_in(folder, name)
    return files


def bytes_in(folder: str, name: str) -> bytes:
    with open(os.path.join(folder, name), "rb") as file:
        return file.read()


def bytes_for(words: Sequence[str], files: Files, names: Mapping[str, str]) -> bytes:
    """The output for these words. `names` maps what the program calls the files to their names. CellError if it refuses them."""
    status, text = ask(words, files)
    if status > FOUND:
        sources = [SOURCE] if SOURCE in files else sources_of(files.get(names.get("machine file", ""), b""))
        raise error_of(status, text, names, sources)
    return text


def text_for(words: Sequence[str], files: Files, names: Mapping[str, str]) -> str:
    return bytes_for(words, files, names).decode()


def with_record(files: Files, record: Record) -> Files:
    return {**files_of_names(files), RECORD: bytes_of(record.text if isinstance(record, Run) else record, "record")}


def assemble(source: Bytes) -> Image:
    """Assembles a source.

    Arguments:
        source: its text, of at most 4,194,304 bytes

    Example:
        >>> cell.assemble("_start: il $3,5").segments[0].data.hex()
        '40800283'

    Returns: the image: its segments with their addresses, and the entry.

    Raises:
        Faulty: a line has a fault; `line` is its number, and `kind` the assembler's name of the fault
        TypeError: the source is no text
        Misused: the source has a character that UTF-8 can't have
    """
    return image_of(text_for(["asm", SOURCE], {SOURCE: bytes_of(source, "source")}, {}))


def run(machine: Path, files: Files, number: Optional[int] = None, seed: int = 1) -> Run:
    """Runs a machine file.

    Arguments:
        machine: the name of the machine file in `files`
        files: the texts of the machine file and of its sources, by their names, as `files_of` returns them
        number: None for the run in which the actors (SPUs, MFCs and host) take turns; or the number of a run of a hunt, 0 to 4,294,967,295
        seed: the seed of that hunt, 0 to 18,446,744,073,709,551,615

    Example:
        >>> run = cell.run("examples/sum.cell", cell.files_of("examples/sum.cell"))
        >>> run.end, run.steps, run.states.processors[0].status
        ('AllStopped', 28, 'stopped 0x0001')

    Returns: the run: its text, its number of steps, and the final states.

    Raises:
        Faulty: the machine file or a source has a fault
        NotRead: a file isn't in `files`
        Misused: a number is out of its range, or two names are the same
        TypeError: an argument has another type
    """
    machine = name_of(machine, "machine")
    seed = number_of(seed, "seed", 0, MOST_SEED)
    words = ["run", machine] if number is None else ["hunt", machine, "record", str(number_of(number, "number", 0, MOST)), str(seed)]
    return run_of(text_for(words, files, {"machine file": machine}))


def check(machine: Path, record: Record, files: Files) -> Verdict:
    """Checks that a record is a run of a machine file, and looks for its first data race.

    Arguments:
        machine: the name of the machine file in `files`
        record: a `Run`, or the text of a record
        files: the texts of the machine file and of its sources, by their names

    Example:
        >>> files = cell.files_of("examples/races/mail_race.cell")
        >>> run = cell.run("examples/races/mail_race.cell", files)
        >>> cell.check("examples/races/mail_race.cell", run, files).places
        (12, 28)

    Returns: the verdict: accepted, or the places of the two steps that race.

    Raises:
        NoRun: the record is no run of the machine file
        Faulty: the record, the machine file or a source has a faulty line
        NotRead: a file isn't in `files`
        Misused: two names are the same
        TypeError: an argument has another type
    """
    machine = name_of(machine, "machine")
    return verdict_of(text_for(["check", machine, RECORD], with_record(files, record), {"machine file": machine, "record file": RECORD}))


def hunt(machine: Path, files: Files, runs: int = 200, seed: int = 1, start: int = 0, expect: Optional[Bytes] = None,
         leave_out: Optional[Bytes] = None) -> Hunt:
    """Makes many runs of a machine file under random schedules, and reports what went wrong.

    The runs are made in parts that take some tenths of a second. Between two parts Python handles signals, so Ctrl-C ends the hunt.

    Arguments:
        machine: the name of the machine file in `files`
        files: the texts of the machine file and of its sources, by their names
        runs: the number of runs, 1 to 4,294,967,295
        seed: the seed of the schedules, 0 to 18,446,744,073,709,551,615
        start: the number of the first run; the number of the last one is below 4,294,967,295
        expect: None, or a text whose lines have to be among the final states of every run
        leave_out: None, or suppressions: a text with the data races that aren't reported

    Example:
        >>> files = cell.files_of("examples/races/mail_race.cell")
        >>> hunt = cell.hunt("examples/races/mail_race.cell", files, runs=20)
        >>> [(finding.kind, finding.runs) for finding in hunt.findings]
        [('race', 20)]

    Returns: the report.

    Raises:
        Faulty: the machine file, a source, `expect` or `leave_out` has a faulty line
        NotRead: a file isn't in `files`
        Misused: a number is out of its range, or two names are the same
        TypeError: an argument has another type
        KeyboardInterrupt: Ctrl-C
    """
    machine = name_of(machine, "machine")
    runs = number_of(runs, "runs", 1, MOST)
    seed, start = number_of(seed, "seed", 0, MOST_SEED), number_of(start, "start", 0, MOST - runs)
    words, given, names = ["hunt", machine, "--seed", str(seed), "--json"], dict(files_of_names(files)), {"machine file": machine}
    for option, argument, name, called, text in (("--expect", "expect", EXPECTED, "expectation file", expect),
                                                 ("--pass", "leave_out", LEFT_OUT, "pass file", leave_out)):
        if text is not None:
            words += [option, name]
            given[name], names[called] = bytes_of(text, argument), name
    return hunt_of(hunted(words, given, names, runs, start))


def hunted(words: Sequence[str], files: Files, names: Mapping[str, str], runs: int, start: int) -> str:
    """What a hunt of all these runs prints, made of parts."""
    whole, part, end = Sum(), FIRST_PART, start + runs
    while True:
        begun = time.monotonic()
        count = min(part, end - start)
        text = text_for([*words, "--from", str(start), "--runs", str(count)], files, names)
        if count == runs:
            return text
        whole.add(text)
        start += count
        if start == end:
            return whole.text()
        took = time.monotonic() - begun
        part = part * 2 if took < SHORT else max(1, part // 2) if took > LONG else part


def trace(machine: Path, record: Record, files: Files) -> Trace:
    """Lists the steps of a record with their effects.

    Arguments:
        machine: the name of the machine file in `files`
        record: a `Run`, or the text of a record
        files: the texts of the machine file and of its sources, by their names

    Example:
        >>> files = cell.files_of("examples/sum.cell")
        >>> steps = cell.trace("examples/sum.cell", cell.run("examples/sum.cell", files), files)
        >>> steps[0].line, steps[0].fields["fetch"]
        ('x 0', ('0', '0', '4'))

    Returns: a sequence of steps, each of which is made when it is accessed.

    Raises:
        NoRun: the record is no run of the machine file
        Faulty: the record, the machine file or a source has a faulty line
        NotRead: a file isn't in `files`
        Misused: two names are the same
        TypeError: an argument has another type
    """
    machine = name_of(machine, "machine")
    return Trace(bytes_for(["trace", "effects", machine, RECORD], with_record(files, record), {"machine file": machine, "record file": RECORD}))


def permute(machine: Path, record: Record, files: Files, number: int) -> Run:
    """Repeats a settled run in another order of its steps that respects happens-before.

    Arguments:
        machine: the name of the machine file in `files`
        record: a `Run`, or the text of a record
        files: the texts of the machine file and of its sources, by their names
        number: names the order, 0 to 4,294,967,295; 0 is the order of the record

    Example:
        >>> files = cell.files_of("examples/dma.cell")
        >>> run = cell.run("examples/dma.cell", files)
        >>> cell.permute("examples/dma.cell", run, files, 3).states == run.states
        True

    Returns: the run in this order, which ends in the same states.

    Raises:
        Racy: two steps of the record race
        NoRun: the record is no run of the machine file, or the run isn't settled (independent of timing)
        Faulty: the record, the machine file or a source has a faulty line
        NotRead: a file isn't in `files`
        Misused: the number is out of its range, or two names are the same
        TypeError: an argument has another type
    """
    machine = name_of(machine, "machine")
    words = ["permute", machine, RECORD, str(number_of(number, "number", 0, MOST))]
    text = text_for(words, with_record(files, record), {"machine file": machine, "record file": RECORD})
    if text.startswith("race "):
        raise Racy(FOUND, text.strip())
    return run_of(text)


def debug(machine: Path, script: Bytes, files: Files) -> str:
    """Runs a machine file as a script says, and prints between the steps what the script asks for.

    Arguments:
        machine: the name of the machine file in `files`
        script: lines of the script language, at most 10,000 with words
        files: the texts of the machine file and of its sources, by their names

    Example:
        >>> cell.debug("examples/sum.cell", "dis 0 0 1", cell.files_of("examples/sum.cell"))
        '0x00000 0x33000100 brsl $0,0x00008\\n'

    Returns: the output of the script.

    Raises:
        Faulty: the script, the machine file or a source has a faulty line
        NotRead: a file isn't in `files`
        Misused: two names are the same
        TypeError: an argument has another type
    """
    machine = name_of(machine, "machine")
    given = {**files_of_names(files), SCRIPT: bytes_of(script, "script")}
    return text_for(["debug", machine, SCRIPT], given, {"machine file": machine, "script file": SCRIPT})


def disassemble(words: Iterable[SupportsIndex], address: int = 0) -> List[str]:
    """Disassembles instruction words.

    Arguments:
        words: the words, each 0 to 4,294,967,295
        address: that of the first word in the local store, a multiple of 4; the last word has to be below 262,144

    Example:
        >>> cell.disassemble([0x40800283, 0x1CFE8183])
        ['il $3,5', 'ai $3,$3,-6']

    Returns: for each word the instruction in the assembler's syntax; a word that is no instruction is a `.long`.

    Raises:
        Misused: a word or the address is out of its range
        TypeError: an argument has another type
    """
    numbers = [number_of(word, f"words[{place}]", 0, MOST) for place, word in enumerate(words)]
    end = STORE - 4 * len(numbers)
    if end < 0:
        raise Misused(MISUSED, f"words has {len(numbers)} words: the local store has {STORE // 4}")
    if number_of(address, "address", 0, end) % 4:
        raise Misused(MISUSED, f"address is {address}: give a multiple of 4")
    placed = "".join(f"bytes {address + 4 * place} {number:08x}\n" for place, number in enumerate(numbers))
    script = "".join(f"dis 0 {address + 4 * place} {min(MOST_WORDS, len(numbers) - place)}\n" for place in range(0, len(numbers), MOST_WORDS))
    text = debug(MACHINE, script, {MACHINE: f"cell-machine 1\nlines 1\nbudget 1\nspe\n{placed}"})
    return [line.split(" ", 2)[2] for line in text.splitlines()]
