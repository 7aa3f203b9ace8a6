"""The text of a hunt, as `./hunt MACHINE` prints it, of the sum of its parts."""
import itertools
import operator
import re
from typing import Dict, Iterable, Iterator, List, Optional

from celltools.common.texts import decoded, lines_in, quoted
from celltools.hunt.endings import STOPPED, end_word
from celltools.hunt.findings import FINDING_KINDS, kind_of
from celltools.hunt.reading import Count
from celltools.hunt.sums import Hunt, SourceLines, Told

FEW_FINDINGS = 4  # that are printed unless all are asked for
MOST_ENDINGS = 8  # that begin with AllStopped, and are printed
MOST_RESULTS = 8  # of an ending, of which the counts are printed
MOST_SPANS = 8  # of lines of a source that no run executed
COMPARED = 2  # results of an ending: the first line in which they differ is printed
ONE_PERCENT = 100
NOTHING = "nothing more"
SHOWN = re.compile(r"(mem|ls (\d+)) 0x([0-9a-f]+) ([0-9a-f]+)", re.A)
GUIDE = "docs/guide/hunting.md"


# ---- words

def counted(number: int, what: str, several: str = "") -> str:
    return f"{number} {what}" if number == 1 else f"{number} {several or f'{what}s'}"


def in_runs(count: Count) -> str:
    return f"{counted(count.runs, 'run')} (first: run {count.first})"


class Commands:
    """The commands for runs of a hunt, with the folder of the tools as a user calls them."""

    def __init__(self, hunt: Hunt, tools: str) -> None:
        self.tools, self.machine, self.seed = tools, quoted(hunt.machine), hunt.head.seed

    def of(self, tool: str, run: Optional[int]) -> str:
        seed = "" if self.seed == 1 else f"--seed {self.seed} "
        return f"{quoted(f'{self.tools}/{tool}')} --run {run} {seed}{self.machine}"


# ---- the first line

def outcome(hunt: Hunt) -> str:
    """What was found, or what was looked for."""
    flaws = hunt.head.flaws
    found = [f"{kind.outcome} in {counted(flaws[kind.flaw].runs, 'run')}" for kind in FINDING_KINDS.values() if flaws[kind.flaw].runs]
    if found:
        return ", ".join(found)
    return "no data race, halt, fault, deadlock, livelock" + (", spent budget or missing line" if hunt.head.expects else " or spent budget")


def warnings_note(hunt: Hunt) -> str:
    """How many different warnings there are, if any."""
    warnings = len(hunt.warnings())
    return f"; {counted(warnings, 'warning')}" if warnings else ""


def unexecuted_note(hunt: Hunt) -> str:
    """How many lines no run executed, if there are any."""
    lines, executed = sum(len(source.numbers) for source in hunt.sources), sum(sum(source.executed) for source in hunt.sources)
    return f"; {lines - executed} of {lines} lines with instructions never executed" if executed < lines else ""


def first_line(hunt: Hunt) -> str:
    head = hunt.head
    start = f" from run {head.start}" if head.start else ""
    return f"{hunt.machine}: {counted(head.runs, 'run')}{start}, seed {head.seed}: {outcome(hunt)}{warnings_note(hunt)}{unexecuted_note(hunt)}"


# ---- findings

def finding_head(found: Told, runs: int) -> str:
    return f"{kind_of(found.members).name} in {found.count.runs} of {counted(runs, 'run')} (first: run {found.count.first})"


def finding_lines(found: Told, runs: int, commands: Commands) -> Iterator[str]:
    """The head of a finding, its lines and its commands."""
    yield ""
    yield finding_head(found, runs)
    yield from lines_in(found.members["shown"].encode("latin-1"))  # it has a character a byte
    for label, tool in kind_of(found.members).commands:
        yield f"  {label}: {commands.of(tool, found.count.first)}"


def findings_lines(hunt: Hunt, commands: Commands, are_all: bool) -> Iterator[str]:
    """The failures and then the warnings, by their kinds, or a few of them and how many more there are."""
    findings = hunt.findings() + hunt.warnings()
    shown = findings if are_all else findings[:FEW_FINDINGS]
    for found in shown:
        yield from finding_lines(found, hunt.head.runs, commands)
    if len(findings) > len(shown):
        yield from ("", f"and {counted(len(findings) - len(shown), 'more finding')}: --all prints them")


# ---- endings

def ends_line(hunt: Hunt) -> str:
    head = hunt.head
    ends = {STOPPED: head.all_stopped, "Stuck": head.flaws["stuck"].runs, "Budget": head.spent.runs}
    found = [f"{runs} {word}" for word, runs in ends.items() if runs]
    return f"ends: {'all ' if len(found) == 1 else ''}{', '.join(found)}"


def ending_lines(endings: List[Told]) -> Iterator[str]:
    """The endings of runs in which all SPUs stopped, if there are several."""
    stopped = [told for told in endings if end_word(told.members["end"]) == STOPPED]
    if len(stopped) < 2:
        return
    for told in stopped[:MOST_ENDINGS]:
        yield f"  {in_runs(told.count)}: {told.members['end']}"
    if len(stopped) > MOST_ENDINGS:
        yield f"  and {len(stopped) - MOST_ENDINGS} more"


# ---- results

def differing(first: bytes, second: bytes) -> List[str]:
    """The first line in which the second of two results differs from the first, of both."""
    ours, theirs = lines_in(first), lines_in(second)
    place = next((place for place, (one, other) in enumerate(zip(ours, theirs)) if one != other), min(len(ours), len(theirs)))
    return [lines[place] if place < len(lines) else NOTHING for lines in (ours, theirs)]


def differing_byte(first: str, second: str) -> Optional[str]:
    """The first byte in which two shown lines differ, as `last` of the debugger takes it; None if they don't show the same bytes."""
    ours, theirs = SHOWN.fullmatch(first), SHOWN.fullmatch(second)
    if not ours or not theirs or ours.group(1, 3) != theirs.group(1, 3):
        return None
    place = next((place for place, (one, other) in enumerate(zip(ours[4], theirs[4])) if one != other), 0) // 2
    return f"mem 0x{int(ours[3], 16) + place:08x} 1" if ours[2] is None else f"x{ours[2]} 0x{int(ours[3], 16) + place:05x} 1"


def compared_texts(hunt: Hunt, results: Iterable[List[int]]) -> Dict[int, bytes]:
    """The texts of which the report has the difference, by their places. They are read in the order in which they are in the files."""
    shown = [place for places in results if len(places) >= COMPARED for place in places[:COMPARED]]
    shown.sort(key=hunt.results.first.__getitem__)
    return dict(zip(shown, hunt.texts(shown)))


def result_lines(hunt: Hunt, ending: str, places: List[int], texts: Dict[int, bytes], commands: Commands) -> Iterator[str]:
    """The results that the runs of an ending in which all SPUs stopped left, if there are several."""
    if len(places) < COMPARED:
        return
    counts = [hunt.results.count(place) for place in places[:MOST_RESULTS]]
    more = [f"and {len(places) - MOST_RESULTS} more"] if len(places) > MOST_RESULTS else []
    first, second = differing(*map(texts.pop, places[:COMPARED]))
    byte = differing_byte(first, second)
    yield f"results: {len(places)} different ones in the runs that end {ending}"
    yield f"  {', '.join([*map(in_runs, counts), *more])}"
    yield f"  run {counts[0].first}: {first}"
    yield f"  run {counts[1].first}: {second}"
    yield f"  who wrote it: {commands.of('debug', counts[0].first)}" + (f", then `run` and `last {byte}`" if byte else "")


# ---- coverage

def coverage_line(hunt: Hunt) -> str:
    """How many classes of equivalent runs there are, and the estimate of how many further runs would be of new ones."""
    classes, runs = hunt.kinds(), hunt.head.runs
    once = sum(count == 1 for count in classes.values())
    known = f"coverage: {counted(len(classes), 'class', 'classes')} of equivalent runs"
    if not once:
        return f"{known}, each seen more than once"
    percent = (ONE_PERCENT * once + runs // 2) // runs
    some = "fewer than 1%" if 2 * ONE_PERCENT * once < runs else f"about {percent}%"
    return f"{known}, {once} seen only once; {some} of further runs would be new"


def spans_of(source: SourceLines) -> Iterator[str]:
    """The spans of lines of a source that no run executed. Lines without an instruction don't end a span."""
    name = decoded(source.name.encode("latin-1"))
    for is_executed, lines in itertools.groupby(zip(source.numbers, source.executed), operator.itemgetter(1)):
        numbers = [number for number, _ in lines]
        if not is_executed:
            yield f"{name}:{numbers[0]}" + (f"-{numbers[-1]}" if len(numbers) > 1 else "")


def unexecuted_lines(hunt: Hunt) -> Iterator[str]:
    """For each source the first spans of lines that no run executed, and how many more there are."""
    for source in hunt.sources:
        spans = list(spans_of(source))
        more = f" and {len(spans) - MOST_SPANS} more" if len(spans) > MOST_SPANS else ""
        if spans:
            yield f"never executed: {' '.join(spans[:MOST_SPANS])}{more}"


# ---- all

def lines_of_hunt(hunt: Hunt, tools: str, are_all: bool) -> Iterator[str]:
    """All lines of the text."""
    commands, endings = Commands(hunt, tools), hunt.endings()
    yield first_line(hunt)
    yield from findings_lines(hunt, commands, are_all)
    yield ""
    yield ends_line(hunt)
    yield from ending_lines(endings)
    results = {ending: places for ending, places in hunt.results.by_ending().items() if end_word(ending) == STOPPED}
    texts = compared_texts(hunt, results.values())
    for told in endings:
        yield from result_lines(hunt, told.members["end"], results.get(told.members["end"], []), texts, commands)
    yield coverage_line(hunt)
    yield from unexecuted_lines(hunt)
    if hunt.head.left_out:
        yield f"suppressed: {counted(hunt.head.left_out, 'run has', 'runs have')} a data race that --pass names"
    if not any(count.runs for count in hunt.head.flaws.values()):
        yield f"other runs may still fail: {GUIDE} says what such a hunt misses"
