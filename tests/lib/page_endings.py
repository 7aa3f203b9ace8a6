"""Uses the page for runs that end badly, for hunts that are stopped, for files with odd names and by the keyboard alone, and tells where it does something else
than it is asked for."""
import base64
import json
import zlib
from typing import Callable, Dict, NamedTuple, Tuple

from lib.page_use import LESSON, Student

MACHINE = "cell-machine 1\nlines 2\nbudget 100\nspe\nsource {source}\n"
START = "\t.text\n_start:\n"
STOP = "\tstop\t1\n"
RUNS = 20
MOST_DIGITS = 7
MOST_STOPS = 8  # of the Tab key up to the editor


# Adds 1 to a word of main memory, for ever.
COUNTING = """\tila\t$3,line
\twrch\t$ch16,$3
again:\til\t$5,0xd0
\twrch\t$ch21,$5
\trdch\t$6,$ch27
\tlqa\t$7,line
\tai\t$7,$7,1
\tstqa\t$7,line
\til\t$5,0xb4
\twrch\t$ch21,$5
\trdch\t$6,$ch27
\tbr\tagain
\t.data
\t.align\t7
line:\t.space\t128
"""


class Ending(NamedTuple):
    """A program, and what the page has to show of its end: its outcome, of which kind that is, what the Race tab says of it, and the outcome of a hunt, which is
    of the same kind if no other is given."""
    name: str
    source: str
    outcome: str
    kind: str
    told: str
    hunted: str
    hunted_kind: str = ""


ENDINGS = (
    Ending("a halt", "\til\t$3,1\n\thgt\t$3,$0\n" + STOP, "ended badly: SPU 0 halted at f.s:4", "bad", "Ended badly: SPU 0 halted at f.s:4",
           f"halt in {RUNS} of {RUNS} runs"),
    Ending("a DMA fault", "\til\t$3,3\n\twrch\t$ch19,$3\n\twrch\t$ch21,$3\n" + STOP, "ended badly: SPU 0 has a fault (dmafault opcode) at f.s:5", "bad",
           "Ended badly: SPU 0 has a fault (dmafault opcode) at f.s:5", f"fault in {RUNS} of {RUNS} runs"),
    Ending("a deadlock", "\trdch\t$3,$ch29\n" + STOP, "ended badly: deadlock", "bad", "Ended badly: deadlock", f"deadlock in {RUNS} of {RUNS} runs"),
    Ending("a spent budget", COUNTING, "ended badly: its budget of 100 steps is spent", "warned", "Ended badly: its budget of 100 steps is spent",
           f"spent budget in {RUNS} of {RUNS} runs"),
    Ending("a livelock", "\tbr\t_start\n", "ended badly: its budget of 100 steps is spent", "warned", "Ended badly: its budget of 100 steps is spent",
           f"livelock in {RUNS} of {RUNS} runs", "bad"),
    Ending("a stop through zeros", "\til\t$3,1\n", "SPU 0 ran into zeros", "warned", "Warning: SPU 0 ran into zeros: it stopped on the word 0 at 0x00004",
           f"an SPU ran into zeros in {RUNS} of {RUNS} runs"),
    Ending("a stop through data", "\til\t$3,1\n\t.long\t0\n", "SPU 0 ran into zeros", "warned", "it stopped on the word 0 at f.s:4",
           f"an SPU ran into zeros in {RUNS} of {RUNS} runs"),
    Ending("a stop of its own", "\tstop\t0\n", "ran to its end", "good", "", f"nothing found in {RUNS} runs"),
)  # fmt: skip
# What the Result tab also says of some of these, by their names.
LISTED = {
    "a halt": "(SPU 0: $3 = 0x00000001, $0 = 0x00000000): halted, since 1 is greater than 0 (signed)",
    "a stop through data": "(SPU 0: stopped 0x0000): it ran into zeros: the program has no",
}  # fmt: skip
# Names that a link may give to the machine file and to a source.
ODD_NAMES = (("__proto__", "f.s"), ("a.cell", "__proto__"), ("a.cell", "../x.s"), ("a.cell", "record.out"), ("record.out", "f.s"), ("a.s", "f.s"))


def link_of(machine: str, files: Dict[str, str]) -> str:
    """The part of an address that holds a program."""
    packed = zlib.compress(json.dumps({"m": machine, "f": files}).encode(), 9)
    return "#program=" + base64.urlsafe_b64encode(packed).decode().rstrip("=")


def outcome(student: Student) -> Tuple[str, str]:
    """The outcome that is shown, and its kind."""
    student.settle("!document.getElementById('verdict').hidden")
    return student.text("#verdict"), student.browser.answer("document.getElementById('verdict').className")


def set_runs(student: Student, runs: int) -> None:
    student.click("#runs")
    student.browser.key("End")
    for _ in range(MOST_DIGITS):
        student.browser.key("Backspace")
    student.type(str(runs))


def each_tab_shows_one_outcome(student: Student) -> None:
    """A run that ends badly isn't good under any tab, nor is its hunt."""
    for ending in ENDINGS:
        student.open(link_of("f.cell", {"f.cell": MACHINE.format(source="f.s"), "f.s": START + ending.source}))
        student.click("#run")
        student.settle("document.querySelector('#result pre')")
        wanted = (ending.outcome, ending.kind)
        student.expect(f"the outcome of {ending.name} is {outcome(student)}, not {wanted}", outcome(student) == wanted)
        for told in (ending.told, LISTED.get(ending.name, "")):
            student.expect_in(f"the result of {ending.name}", told, student.text("#result"))
        student.click("#check")
        student.settle("document.querySelector('#race p')")
        checked = ("no race" if ending.kind == "good" else f"no race; {ending.outcome}", ending.kind)
        student.expect_in(f"the race of {ending.name}", ending.told, student.text("#race"))
        for tab in ("race", "result", "steps", "picture"):
            student.click(f"#tab-{tab}")
            student.expect(f"under {tab} the outcome of {ending.name} is {outcome(student)}, not {checked}", outcome(student) == checked)
        set_runs(student, RUNS)
        student.hunt()
        wanted = (ending.hunted, ending.hunted_kind or ending.kind)
        student.expect(f"the outcome of hunting {ending.name} is {outcome(student)}, not {wanted}", outcome(student) == wanted)
        student.look()


def a_stopped_hunt_reports(student: Student) -> None:
    """A hunt shows its progress, leaves the open run open, and reports what it found when it is stopped and when its time is over."""
    student.open("")
    student.lesson(LESSON)
    student.click("#run")
    student.settle("document.querySelector('#result pre')")
    set_runs(student, 1_000_000)
    student.click("#hunt-runs")
    student.settle("document.getElementById('hunt').textContent.includes('race in')")
    student.look()
    student.click("#tab-steps")
    student.settle("document.querySelector('#step h3')")
    student.settle("!document.getElementById('stop').hidden")  # Stop is shown once the work takes a moment
    student.expect_in("the outcome of the open run", "ran to its end", student.text("#verdict"))
    student.click("#stop")
    student.settle("document.getElementById('stop').hidden")
    student.expect("the steps of the open run are closed", student.browser.answer("!document.getElementById('steps').hidden"))
    student.click("#tab-hunt")
    student.settle("document.querySelector('#hunt .race .show-run')")
    student.expect_in("a stopped hunt", "of 1,000,000 runs: stopped", student.text("#hunt"))
    student.expect_in("its outcome", "race in ", student.text("#verdict"))
    seconds = student.hunt_too_long()
    student.settle("document.querySelector('#hunt .race .show-run') && document.getElementById('stop').hidden")
    student.expect_in("a hunt whose time is over", f"of 1,000,000 runs: it took more than {seconds} seconds", student.text("#hunt"))
    student.click("#tab-result")
    student.expect_in("the open run", "AllStopped", student.text("#result"))


def marks_of_a_race_come_back(student: Student) -> None:
    """The lines of a race are marked again when its tab is shown again."""
    student.open("")
    student.lesson(LESSON)
    student.click("#check")
    student.settle("document.querySelectorAll('#race section').length")
    student.settle("document.querySelectorAll('#numbers .race').length")
    student.click("#tab-steps")
    student.settle("document.querySelector('#step h3') && !document.querySelectorAll('#numbers .race').length")
    student.click("#tab-race")
    student.expect("the marks of the race are gone", student.browser.answer("document.querySelectorAll('#numbers .race').length") > 0)


def the_editor_is_few_keys_away(student: Student) -> None:
    """The Tab key comes to the editor soon, a link leads there at once, and the arrow keys go through the list."""
    student.open("")
    for stops in range(1, MOST_STOPS + 2):
        student.browser.key("Tab")
        if student.browser.answer("document.activeElement.tagName") == "TEXTAREA":
            break
    student.expect(f"the editor is more than {MOST_STOPS} stops of the Tab key away", stops <= MOST_STOPS)
    student.open("")
    student.browser.key("Tab")
    student.browser.key("Enter")
    student.expect("the first link doesn't lead to the editor", student.browser.answer("document.activeElement.tagName") == "TEXTAREA")
    student.browser.answer("document.querySelector('#list [tabindex=\"0\"]').focus()")
    before = student.browser.answer("document.activeElement.getAttribute('href')")
    student.browser.key("ArrowDown")
    after = student.browser.answer("document.activeElement.getAttribute('href')")
    student.expect(f"the arrow key goes from {before} to {after}", bool(after) and before != after)
    student.browser.key("Enter")
    student.settle(f"location.hash === {json.dumps(after)}")


def any_name_is_a_name(student: Student) -> None:
    """Files whose names mean something to the page or to the tools are files as others."""
    for machine, source in ODD_NAMES:
        files = {machine: MACHINE.format(source=source), source: START + "\til\t$3,1\n" + STOP}
        student.open(link_of(machine, files))
        student.click("#check")
        student.settle("document.querySelector('#race p, #nothing .refused')")
        what = f"a machine file {machine} with the source {source}"
        student.expect_in(what, "no data race", student.text("#race"))
        student.expect(f"{what}: {student.text('#faults')}", not student.text("#faults"))
        student.click("#tab-steps")
        student.settle("document.querySelector('#step p, #step h3')")
        student.expect_in(f"the steps of {what}", "Possible next steps", student.text("#step"))
        student.expect_in(f"the hunt of {what}", "nothing found", student.hunt())


USES: Tuple[Callable[[Student], None], ...] = (each_tab_shows_one_outcome, a_stopped_hunt_reports, marks_of_a_race_come_back,
                                               the_editor_is_few_keys_away, any_name_is_a_name)
