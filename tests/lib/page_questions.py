"""What the page is asked in node and in a browser: the tools' words, and of the browser what the engine answers, as tests/module asks it in node."""
import dataclasses
import pathlib
from typing import Any, Dict, Iterator, List, Sequence, Tuple

from celltools.common.repository import ROOT
from lib import forking
from lib.questions import Answer, Question, files_of

Told = Dict[str, Any]  # questions or an answer, as they are sent

SECONDS, MEGABYTES = 120, 4096
EXAMPLES = ("examples/races/mail_race", "examples/races/list_race", "examples/races/slowpath_race", "examples/fault", "examples/stuck", "examples/counter",
            "tests/debugger_words/halting")
WITNESS = "tests/out/witness"  # how the names of the records begin that tools/witness writes
FAULTY = 12  # sources of tests/cases that are explained
# Examples that are hunted in parts, with several races, ends and results; and where the runs are cut, in the order in which the parts come.
IN_PARTS = ("races/mail_race", "races/list_race", "races/mutex_lost_race", "hangs/reader_stays", "hangs/lost_wakeup", "stuck", "fault")
PART_RUNS, CUTS = 60, (41, 7, 30)


@dataclasses.dataclass(frozen=True)
class OfTool:
    """A question for a tool: its words for the page, how a clone is asked the same, and the files."""
    tool: str
    words: Tuple[str, ...]
    command: Tuple[str, ...]
    files: Dict[str, bytes]


def of_tools() -> Iterator[OfTool]:
    """What tools tell of some examples, and of sources that are faulty."""
    for name in EXAMPLES:
        machine, record = f"{name}.cell", f"{name}.out"
        files = files_of(machine, record)
        yield OfTool("states", (machine, record, "4"), (machine, record, "4"), files)
        yield OfTool("explain", (machine, record), (machine, record), files)
        if name.endswith("_race"):
            yield OfTool("witness", (machine, record, WITNESS), ("--force", "-o", WITNESS, machine, record), files)
    cases = [str(path.relative_to(ROOT)) for path in sorted((ROOT / "tests" / "cases").rglob("*.s")) if path.read_bytes().isascii()]
    for case in cases[::len(cases) // FAULTY]:
        yield OfTool("explain", (case,), (case,), files_of(case))


def told(question: OfTool) -> str:
    """What the tool of this clone tells."""
    (ROOT / WITNESS).parent.mkdir(exist_ok=True)
    found = forking.ended([f"tools/{question.tool}", *question.command], ROOT, SECONDS, MEGABYTES)
    return found[1].decode() if found else f"no end within {SECONDS} seconds"


def hunts_in_parts() -> List[Told]:
    """As page_sums.js has them."""
    machines = [f"examples/{name}.cell" for name in IN_PARTS]
    texts = [{name: data.decode() for name, data in files_of(machine).items()} for machine in machines]
    return [{"machine": machine, "files": files, "runs": PART_RUNS, "cuts": CUTS} for machine, files in zip(machines, texts)]


# ---- how they are sent

def sent_of_tools(questions: Sequence[OfTool]) -> Told:
    """As page_asking.js has them."""
    return sent([(question.tool, question.words, question.files) for question in questions])


def sent_of_engine(questions: Sequence[Question]) -> Told:
    """As page_asking_here.js has them."""
    return sent([("ask", question.words, question.files) for question in questions])


def sent(questions: Sequence[Tuple[str, Sequence[str], Dict[str, bytes]]]) -> Told:
    files = {name: data.decode() for _, _, given in questions for name, data in given.items()}
    return {"files": files, "questions": [{"asked": asked, "words": list(words), "names": list(given)} for asked, words, given in questions]}


def answers_in(found: Sequence[Told]) -> List[Answer]:
    """The engine's answers; one that was refused is none of a program."""
    return [Answer(answer.get("status", -1), answer.get("text", answer.get("refused", "")).encode(errors="surrogateescape")) for answer in found]


def differences_of_tools(questions: Sequence[OfTool], found: Sequence[Told]) -> Iterator[str]:
    """Where the page tells something else than the tools."""
    for question, answer in zip(questions, found):
        wanted, got = told(question), answer.get("text", answer.get("refused", ""))
        if wanted != got:
            yield f"{question.tool} {' '.join(question.words)}: {got[:300]!r}, and not {wanted[:300]!r}"


def script_here() -> str:
    """The function that asks the engine in a browser."""
    text = (pathlib.Path(__file__).resolve().parent / "page_asking_here.js").read_text(encoding="utf-8")
    return text[text.index("async"):].rstrip()
