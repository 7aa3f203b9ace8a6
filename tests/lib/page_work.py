"""What the page does with the user's work and with long files: nothing that was typed is lost, and a key costs the same in a long file as in a short one."""
import base64
import json
import pathlib
import statistics
import time
import zlib
from typing import Callable, Dict, List, NamedTuple, Tuple

from lib.browser import CONTROL, SHIFT, Browser
from lib.page_use import PANE, SECONDS, TEXT, Student

WIDTH = 1400
LESSON, SECOND_LESSON, LONG_LESSON = "mail_race", "reuse_race", "mutex_early_race"
MACHINE, RECEIVER, LONG_SOURCE = "mail_race.cell", "receiver.s", "mutex_early_race.s"
WORK = "# my work"
MOST_BYTES = 4_194_304  # of a file
SHORT, LONG = 200, 20_000  # lines of a file
KEYS = 12  # that are measured in a visit to a file
MOST_MILLISECONDS, MOST_RATIO, SCRIPT_SLACK = 16, 2, 1  # of a key: at most, compared with one in a short file, and milliseconds of scripts beyond that
STILL = 0.3  # seconds in which what doesn't change stays
LEAST_VISITS, MOST_VISITS = 2, 5  # to each file
FRAME, PAUSE, QUIET = 0.05, 0.3, 1.5  # seconds: in which a key is shown, after which the page begins what it does in a pause, and until that is done
NO_STORAGE = "Object.defineProperty(window, 'localStorage', { get() { throw new DOMException('none', 'SecurityError') } })"
AREA = f"document.querySelector({json.dumps(TEXT)})"  # of the file that is shown
SCROLLED = f"document.querySelector({json.dumps(PANE)}).scrollTop"  # of a long file
PLACE = f"(t => [t.selectionStart, t.selectionEnd, t.scrollTop])({AREA})"


class KeyTime(NamedTuple):
    """Milliseconds of processor time of the page's main thread: all its tasks, with layout and painting, and its scripts alone."""
    tasks: float
    scripts: float


def link_of(files: Dict[str, str]) -> str:
    """The part of the address for a program; its machine file is the first one."""
    data = json.dumps({"m": next(iter(files)), "f": files}).encode()
    return "#program=" + base64.urlsafe_b64encode(zlib.compress(data, 9)).decode().rstrip("=")


def program(name: str, lines: List[str]) -> Dict[str, str]:
    """A machine with one processor, and its source."""
    source = "\n".join(["\t.text", "_start:", *lines, "\tstop\t1", ""])
    return {f"{name}.cell": f"cell-machine 1\nlines 2\nbudget 100\nspe\nsource {name}.s\n", f"{name}.s": source}


def linked_files(student: Student) -> Dict[str, str]:
    """All files of the program that is open, as the button Link packs them."""
    student.browser.answer("document.getElementById('link').value = ''")
    student.click("#share")
    student.settle("document.getElementById('link').value")
    part = str(student.browser.answer("document.getElementById('link').value")).partition("#program=")[2]
    found: Dict[str, str] = json.loads(zlib.decompress(base64.urlsafe_b64decode(part + "=" * (-len(part) % 4))))["f"]
    return found


def text(student: Student) -> str:
    return str(student.browser.answer(f"{AREA}.value"))


def to_file(student: Student, name: str) -> None:
    student.click(f"#files [data-file$='{name}']")
    student.settle(f"document.querySelector('#files [aria-selected=true]').dataset.file.endsWith('{name}')")


def type_work(student: Student, words: str = WORK) -> None:
    """Types at the end of the first line of the file."""
    student.to_line(1)
    student.type(words)
    student.expect_in("the text after typing", words, text(student))


def reload(student: Student) -> None:
    """Reloads the page, and waits for the new one."""
    student.browser.answer("document.body.dataset.ready = ''")
    student.browser.call("Page.reload")
    student.settle("document.body && document.body.dataset.ready")


# ---- what the page has to keep

def a_reload_keeps_the_text(student: Student) -> None:
    student.lesson(LESSON)
    type_work(student)
    reload(student)
    student.expect_in("the text after a reload", WORK, text(student))


def back_keeps_the_text(student: Student) -> None:
    """From another lesson, and from another page."""
    student.lesson(LESSON)
    type_work(student)
    student.lesson(SECOND_LESSON)
    student.browser.answer("history.back()")
    student.settle(f"location.hash === '#{LESSON}' && document.querySelector('#files [data-file$=\"{RECEIVER}\"]')")
    student.expect_in("the text after Back from a lesson", WORK, text(student))
    type_work(student, "# more")
    student.browser.open("about:blank", WIDTH, is_in_front=True)
    student.settle("location.href === 'about:blank'")
    student.browser.answer("history.back()")
    student.settle("document.body && document.body.dataset.ready")
    student.expect_in("the text after Back from another page", "# more", text(student))


def a_commented_source_line_keeps_the_text(student: Student) -> None:
    """The source's tab goes and comes, another lesson is opened between, and the page is loaded again."""
    student.lesson(LESSON)
    to_file(student, RECEIVER)
    type_work(student)
    to_file(student, MACHINE)
    number = text(student).split("\n").index(f"source examples/races/{RECEIVER}") + 1
    student.to_line(number)
    student.browser.key("Home")
    student.type("#")
    student.settle(f"!document.querySelector('#files [data-file$=\"{RECEIVER}\"]')")
    student.lesson(SECOND_LESSON)
    reload(student)
    student.lesson(LESSON)
    to_file(student, MACHINE)
    student.to_line(number)
    student.browser.key("Home")
    for _ in range(2):  # End and Home stand at the line's ends
        student.browser.key("ArrowRight")
    student.browser.key("Home")
    student.browser.key("ArrowRight")
    student.browser.key("Backspace")
    to_file(student, RECEIVER)
    student.expect_in("the text of the source", WORK, text(student))


def a_second_link_keeps_the_first(student: Student) -> None:
    first, second = (link_of(program(name, [f"\til\t$3,{number}"])) for number, name in enumerate(("first", "second")))
    student.open(first)
    type_work(student)
    student.browser.open(student.page.as_uri() + second, WIDTH, is_in_front=True)  # the same page, with another part behind #
    student.settle("document.querySelector('#files [data-file=\"second.s\"]')")
    type_work(student, "# other work")
    student.browser.answer("history.back()")
    student.settle("document.querySelector('#files [data-file=\"first.s\"]')")
    student.expect_in("the first link's text", WORK, text(student))
    reload(student)
    student.expect_in("the first link's text after a reload", WORK, text(student))
    student.click("#list section:first-child li:nth-child(2) a")
    student.settle("document.querySelector('#files [data-file=\"second.s\"]')")
    student.expect_in("the second link's text", "# other work", text(student))


def as_it_was_is_undone(student: Student) -> None:
    """By its button, also after a reload, and by Ctrl+Z."""
    student.lesson(LESSON)
    type_work(student)
    student.click("#restore")
    student.settle("document.getElementById('restore').hidden")
    student.expect("As it was changes nothing", WORK not in text(student))
    student.expect("the keyboard is lost", student.browser.answer("document.activeElement.id") == "bring-back")
    reload(student)
    student.expect("As it was lasts until a reload only", WORK not in text(student))
    type_work(student, "# later work")
    student.click("#bring-back")
    student.expect_in("the text that was brought back", WORK, text(student))
    student.click("#bring-back")
    student.expect_in("the text that was typed since", "# later work", text(student))
    student.click("#restore")
    student.expect("As it was changes nothing", "# later work" not in text(student))
    student.click(TEXT, (30, 30))
    student.browser.key("z", CONTROL)
    student.expect_in("the text after Ctrl+Z", "# later work", text(student))


def place(student: Student) -> List[float]:
    """The cursor and the scroll position, once they stay: a browser goes on scrolling after a key."""
    end, before = time.monotonic() + SECONDS, None
    while time.monotonic() < end:
        found: List[float] = student.browser.answer(PLACE)
        if found == before:
            break
        before = found
        time.sleep(STILL)
    return found


def as_it_was_reaches_hidden_files(student: Student) -> None:
    """A file that isn't shown is put back, too, and its own Ctrl+Z undoes that."""
    student.lesson(LESSON)
    to_file(student, RECEIVER)
    type_work(student)
    given = text(student).replace(WORK, "")
    to_file(student, MACHINE)
    type_work(student)
    student.click("#restore")
    student.expect("As it was leaves the file that is shown", WORK not in text(student))
    to_file(student, RECEIVER)
    student.expect("As it was leaves a file that isn't shown", text(student) == given)
    student.click(TEXT, (30, 30))
    student.browser.key("z", CONTROL)
    student.expect_in("the text after Ctrl+Z", WORK, text(student))
    to_file(student, MACHINE)
    student.expect("Ctrl+Z in one file changes another", WORK not in text(student))


def two_tabs_show_the_same_text(student: Student) -> None:
    """Of a file that both show, and of one that the second one shows later."""
    browser = student.browser
    browser.open(student.page.as_uri() + f"#{LESSON}", WIDTH)
    student.settle("document.body && document.body.dataset.ready")
    behind, front = browser.session, browser.sessions[True]
    to_file_behind = f"document.querySelector('#files [data-file$=\"{RECEIVER}\"]').click()"
    browser.answer(to_file_behind)
    browser.session = front
    student.lesson(LESSON)
    type_work(student)
    to_file(student, RECEIVER)
    type_work(student)
    to_file(student, MACHINE)
    student.to_line(text(student).split("\n").index(f"source examples/races/{RECEIVER}") + 1)
    student.type("2")
    browser.session = behind
    student.settle("document.querySelector('#files [aria-selected=true]').dataset.file === document.querySelector('#files [role=tab]').dataset.file")
    student.expect_in("the file that the other tab changed", f"{RECEIVER}2", text(student))
    browser.answer("document.querySelectorAll('#files [role=tab]')[1].click()")
    student.settle("document.querySelector('#files [aria-selected=true]').dataset.file.endsWith('sender_race.s')")
    student.expect_in("a file that the other tab changed before", WORK, text(student))
    browser.open("about:blank", WIDTH)
    browser.session = front


LINE = 20  # pixels: Firefox brings the whole line of the cursor into view


def a_tab_keeps_undo_cursor_and_scroll(student: Student) -> None:
    student.lesson(LONG_LESSON)
    to_file(student, LONG_SOURCE)
    type_work(student)
    for _ in range(40):
        student.browser.key("ArrowDown")
    before = place(student)
    student.expect("the file isn't scrolled", before[2] > 0)
    to_file(student, ".cell")
    type_work(student, "# of the machine")
    to_file(student, LONG_SOURCE)
    after = place(student)
    is_kept = after[:2] == before[:2] and abs(after[2] - before[2]) <= LINE
    student.expect(f"cursor and scroll are {after} after another tab, and {before} before", is_kept)
    student.browser.answer(f"{AREA}.focus()")
    student.browser.key("z", CONTROL)
    student.expect("Ctrl+Z doesn't undo what was typed", WORK not in text(student))
    student.browser.key("z", CONTROL | SHIFT)
    student.expect_in("the text after Ctrl+Shift+Z", WORK, text(student))
    to_file(student, ".cell")
    student.expect_in("the other file after Ctrl+Z", "# of the machine", text(student))


def areas(student: Student) -> List[str]:
    """The names of the files that have a textarea, with a star after the one that is shown."""
    found: List[str] = student.browser.answer("""[...document.querySelectorAll('#code textarea')]
        .map(node => node.getAttribute('aria-label').split(/[ /]/).pop() + (node.checkVisibility() ? '*' : ''))""")
    return found


def selected(student: Student) -> List[object]:
    """The selection of the textarea that is shown, and the number that `number_area` gave to it."""
    found: List[object] = student.browser.answer(f"(t => [t.selectionStart, t.selectionEnd, t.selectionDirection, t.number])({AREA})")
    return found


def number_area(student: Student, number: int) -> None:
    """Marks the textarea that is shown, as an element."""
    student.browser.answer(f"{AREA}.number = {number}")


def select_lines(student: Student, line: int, count: int) -> List[object]:
    """Selects lines by keys, downwards."""
    student.to_line(line)
    student.browser.key("Home")
    for _ in range(count):
        student.browser.key("ArrowDown", SHIFT)
    return selected(student)


def each_file_has_a_textarea(student: Student) -> None:
    """It comes when the file is shown first, keeps its selection while another one is shown, and goes with the file."""
    student.lesson(LESSON)
    to_file(student, MACHINE)
    to_file(student, RECEIVER)
    files = ["sender_race.s", MACHINE, f"{RECEIVER}*"]
    student.expect(f"the textareas are {areas(student)}, not {files}", areas(student) == files)
    number_area(student, 1)
    receiver = select_lines(student, 3, 4)
    student.expect(f"nothing is selected: {receiver}", receiver[0] != receiver[1])
    to_file(student, MACHINE)
    number_area(student, 2)
    machine = select_lines(student, 1, 1)
    to_file(student, RECEIVER)
    student.expect(f"the selection is {selected(student)} after another tab, and {receiver} before", selected(student) == receiver)
    to_file(student, MACHINE)
    student.expect(f"the selection is {selected(student)} after another tab, and {machine} before", selected(student) == machine)
    student.to_line(text(student).split("\n").index(f"source examples/races/{RECEIVER}") + 1)
    student.type("2")  # another name
    student.settle(f"document.querySelector('#files [data-file$=\"{RECEIVER}2\"]')")
    student.expect(f"the textareas are {areas(student)} without {RECEIVER}", areas(student) == ["sender_race.s", f"{MACHINE}*"])
    to_file(student, f"{RECEIVER}2")
    student.expect("a new file isn't empty", text(student) == "" and areas(student)[-1] == f"{RECEIVER}2*")
    student.lesson(SECOND_LESSON)
    student.expect(f"the textareas of another lesson are {areas(student)}", areas(student) == ["reuse_race.s*"])


def leaving_is_asked_without_storage(student: Student) -> None:
    """Only after a change, and the page says that nothing is stored."""
    script = student.browser.call("Page.addScriptToEvaluateOnNewDocument", source=NO_STORAGE)["identifier"]
    student.open(f"#{LESSON}")
    student.browser.hear_dialogs()
    student.browser.open("about:blank", WIDTH, is_in_front=True)
    student.settle("location.href === 'about:blank'")
    student.expect("leaving the page is asked although nothing was typed", not student.browser.dialogs)
    student.open(f"#{LESSON}")
    type_work(student)
    student.settle("!document.getElementById('unkept').hidden")
    student.browser.open("about:blank", WIDTH, is_in_front=True)
    student.settle("location.href === 'about:blank'")
    student.expect(f"dialogs on leaving: {student.browser.dialogs}", student.browser.dialogs == ["beforeunload"])
    student.browser.call("Page.disable")
    student.browser.call("Page.removeScriptToEvaluateOnNewDocument", identifier=script)


def leaving_is_not_asked_with_storage(student: Student) -> None:
    student.open(f"#{LESSON}")
    student.browser.hear_dialogs()
    type_work(student)
    student.browser.open("about:blank", WIDTH, is_in_front=True)
    student.settle("location.href === 'about:blank'")
    student.expect("leaving the page is asked although its work is stored", not student.browser.dialogs)
    student.browser.call("Page.disable")


def a_click_on_a_tab_outlives_the_faults(student: Student) -> None:
    """The faults come in between the press and the release of the mouse button."""
    student.lesson(LESSON)
    type_work(student, "\nfrob")
    box = f"document.querySelector('#files [data-file$=\"{RECEIVER}\"]').getBoundingClientRect()"
    x, y = student.browser.answer(f"(b => [b.x + b.width / 2, b.y + b.height / 2])({box})")
    student.browser.call("Input.dispatchMouseEvent", type="mousePressed", x=x, y=y, button="left", clickCount=1)
    student.settle("document.querySelector('#faults .fault')")
    student.browser.call("Input.dispatchMouseEvent", type="mouseReleased", x=x, y=y, button="left", clickCount=1)
    student.settle(f"document.querySelector('#files [aria-selected=true]').dataset.file.endsWith('{RECEIVER}')")


# ---- what doesn't freeze it

def a_large_link_is_refused(student: Student) -> None:
    """Small links that unpack to much."""
    student.open(link_of(program("a", ["x" * (MOST_BYTES + 1)])))
    student.expect_in("a link with a large file", "a.s: this file has 4,194,3", student.text("#nothing"))
    student.open(link_of(program("a", ["x" * 100_000_000])))
    student.expect_in("a link that unpacks to 100 MB", "it unpacks to more than 33,554,432 bytes", student.text("#nothing"))
    student.open(link_of(program("a", ["\til\t$3,1"]))[:-9])
    student.expect_in("a link that was cut", "this link holds no program", student.text("#nothing"))
    student.open(link_of(program("a", ["x" * 1_000_000, *[""] * 600_000])))
    student.expect_in("what the editor shows", "the first 500,000 of 600,005 lines", student.text("#left"))
    student.click("#code")
    student.type("ab")
    student.expect_in("the text after typing", "ab", text(student))


def median_of(times: List[KeyTime]) -> KeyTime:
    """The medians of both times."""
    return KeyTime(statistics.median(took.tasks for took in times), statistics.median(took.scripts for took in times))


class TypedFile:
    """A program whose source has a number of lines, and the times that keys take in it."""

    def __init__(self, student: Student, lines: int) -> None:
        self.student, self.lines, self.name = student, lines, f"lines_{lines}"
        self.link = link_of(program(self.name, ["\tai\t$3,$3,1\t# a line of the program"] * lines))
        self.visits: List[KeyTime] = []

    def visit(self, is_at_end: bool) -> None:
        """Opens the program in the page that has both, and types at a line near the start or at the end of the source."""
        student, begun = self.student, f"# visit {len(self.visits)} "
        student.browser.open(student.page.as_uri() + self.link, WIDTH, is_in_front=True)
        student.settle(f"document.querySelector('#files [data-file=\"{self.name}.s\"]')")
        to_file(student, f"{self.name}.s")
        pane = f"document.querySelector({json.dumps(PANE)})"
        student.browser.answer(f"for (const node of [{pane}, {AREA}]) node.scrollTop = 0")
        student.settle(f"{AREA}.getBoundingClientRect().top <= {pane}.getBoundingClientRect().top + 1")
        student.click("#code", (200, 100))
        student.browser.key("End", CONTROL if is_at_end and self.lines == LONG else 0)
        student.type(begun)
        time.sleep(QUIET)
        self.visits.append(self.key_time())
        student.expect_in(f"the text of {self.lines} lines", begun + "x" * KEYS, text(student))

    def key_time(self) -> KeyTime:
        """The medians of KEYS keys. A key doesn't count if it took so long that what the page does in a pause, such as storing the text, may have come in between."""
        found = []
        for _ in range(KEYS):
            began, before = time.monotonic(), self.spent()
            self.student.browser.key("x")
            time.sleep(FRAME)
            after = self.spent()
            took = KeyTime(after.tasks - before.tasks, after.scripts - before.scripts)
            found.append((took, time.monotonic() - began < PAUSE))
        calm = [took for took, is_calm in found if is_calm]
        return median_of(calm if len(calm) > KEYS // 2 else [took for took, _ in found])

    def spent(self) -> KeyTime:
        """The time that the page's main thread has taken so far."""
        found = {metric["name"]: metric["value"] * 1000 for metric in self.student.browser.call("Performance.getMetrics")["metrics"]}
        return KeyTime(found["TaskDuration"], found["ScriptDuration"])

    def least(self) -> KeyTime:
        """The least times of the visits."""
        return KeyTime(min(took.tasks for took in self.visits), min(took.scripts for took in self.visits))


def excess(short: KeyTime, long: KeyTime) -> List[str]:
    """What a key takes too long for in the long file."""
    said = [f"a key takes {long.tasks:.1f} ms at {LONG} lines"] * (long.tasks > MOST_MILLISECONDS)
    said += [f"a key takes {long.tasks:.1f} ms at {LONG} lines, {short.tasks:.1f} ms at {SHORT}"] * (long.tasks > MOST_RATIO * short.tasks)
    is_slow = long.scripts > MOST_RATIO * short.scripts + SCRIPT_SLACK
    return said + [f"the scripts of a key take {long.scripts:.1f} ms at {LONG} lines, {short.scripts:.1f} ms at {SHORT}"] * is_slow


def a_key_costs_the_same_in_a_long_file(student: Student) -> None:
    """Visits to a short and a long file by turns, and the least times of each. More visits follow if that is too much: what else the machine does comes and goes."""
    student.browser.call("Performance.enable", timeDomain="threadTicks")
    short, long = (TypedFile(student, lines) for lines in (SHORT, LONG))
    for number in range(MOST_VISITS):
        for file in (short, long):
            file.visit(is_at_end=bool(number % 2))
        said = excess(short.least(), long.least())
        if number + 1 >= LEAST_VISITS and not said or student.said:
            break
    student.browser.call("Performance.disable")
    for line in said:
        student.expect(line, False)


class LongFile:
    """A program with a long source, and what its text has to be."""

    def __init__(self, student: Student) -> None:
        self.student, files = student, program("a", [f"\tai\t$3,$3,{number % 500}" for number in range(2000)])
        self.given = files["a.s"].split("\n")
        student.open(link_of(files))
        student.click("#code", (300, 30))

    def lines(self) -> List[str]:
        """The lines of the whole source; the textarea keeps the keyboard."""
        found = linked_files(self.student).get("a.s", "").split("\n")
        self.student.browser.answer(f"{AREA}.focus({{ preventScroll: true }})")
        return found

    def expect(self, what: str, wanted: List[str]) -> None:
        found = self.lines()
        at = next((at for at, pair in enumerate(zip(found, wanted)) if pair[0] != pair[1]), min(len(found), len(wanted)))
        self.student.expect(f"{what}: line {at + 1} of {len(found)} is {found[at:at + 1]}, not {wanted[at:at + 1]} of {len(wanted)}", found == wanted)

    def press(self, key: str, modifiers: int = 0, times: int = 1) -> None:
        for _ in range(times):
            self.student.browser.key(key, modifiers)


def a_long_file_is_edited(student: Student) -> None:
    """Keys that go beyond the lines that the textarea holds: the whole text has what they do."""
    file = LongFile(student)
    given = file.given
    file.press("End", CONTROL)
    student.type("# end\n# more")
    file.expect("typing at the end", [*given[:-1], "# end", "# more"])
    file.press("Home", CONTROL)
    student.type("# start")
    file.expect("typing at the start", ["# start" + given[0], *given[1:-1], "# end", "# more"])
    file.press("PageDown", times=30)
    student.type("# middle")
    middle = [line for line in file.lines() if "# middle" in line]
    student.expect(f"lines with what was typed after PageDown: {middle}", len(middle) == 1)
    file.press("z", CONTROL, times=3)
    file.expect("three times Ctrl+Z", [*given[:-1], "# end"])
    file.press("z", CONTROL)
    file.expect("all undone", given)


def a_long_file_keeps_its_place(student: Student) -> None:
    """Another file is shown, and typing goes on where it was; a selection of more lines than the textarea holds is still that of all of them."""
    file = LongFile(student)
    file.press("PageDown", times=30)
    student.type("# here")
    before = [place(student), student.browser.answer(SCROLLED)]
    student.expect(f"the file isn't scrolled: {before}", before[1] > 0)
    to_file(student, "a.cell")
    to_file(student, "a.s")
    after = [place(student), student.browser.answer(SCROLLED)]
    student.expect(f"cursor and scroll are {after} after another file, and {before} before", after == before)
    file.lines()
    student.type(" too")
    middle = [line for line in file.lines() if "# here" in line]
    student.expect(f"typing goes on in {middle}", len(middle) == 1 and "# here too" in middle[0])
    file.press("a", CONTROL)
    to_file(student, "a.cell")
    to_file(student, "a.s")
    file.lines()
    student.type("#")
    file.expect("typing over all after another file", ["#"])


def a_long_selection_is_replaced(student: Student) -> None:
    """Selections that begin or end outside of the lines that the textarea holds."""
    file = LongFile(student)
    given = file.given
    file.press("a", CONTROL)
    student.type("#")
    file.expect("typing over all", ["#"])
    file.press("z", CONTROL)
    file.expect("undone", given)
    file.press("a", CONTROL)
    student.browser.edit("copy")
    file.press("End", CONTROL)
    student.browser.edit("paste")
    file.expect("all pasted at the end", [*given[:-1], *given])
    file.press("z", CONTROL)
    file.press("Home", CONTROL)
    file.press("PageDown", SHIFT, times=20)
    file.press("Home", SHIFT)
    file.press("Backspace")
    found = file.lines()
    student.expect(f"of {len(given)} lines {len(found)} are left after a long selection is erased", 300 < len(given) - len(found) and found == given[-len(found):])


USES: Tuple[Callable[[Student], None], ...] = (
    a_reload_keeps_the_text, back_keeps_the_text, a_commented_source_line_keeps_the_text, a_second_link_keeps_the_first, as_it_was_is_undone,
    as_it_was_reaches_hidden_files, two_tabs_show_the_same_text, a_tab_keeps_undo_cursor_and_scroll, each_file_has_a_textarea,
    leaving_is_asked_without_storage, leaving_is_not_asked_with_storage, a_click_on_a_tab_outlives_the_faults,
    a_large_link_is_refused, a_key_costs_the_same_in_a_long_file, a_long_file_is_edited,
    a_long_file_keeps_its_place, a_long_selection_is_replaced)


def used(browser: Browser, page: pathlib.Path) -> List[str]:
    """What is wrong with the user's work."""
    said = []
    for use in USES:
        student = Student(browser, page, WIDTH)
        use(student)
        said += student.said
    return said
