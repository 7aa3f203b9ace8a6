"""Uses the page as a student does, by keys and clicks in a browser, and tells where it does something else than it is asked for."""
import json
import pathlib
import time
from typing import Callable, List, Tuple

from lib.browser import Browser, Ended, Silent
from lib.page_questions import Told, script_here

WIDTHS = (1400, 900, 400)
SECONDS = 180  # that the page may take for what it was asked, on a machine that is full
LIMITS = (2, 8, 32)  # seconds of a hunt
MOST_TABS = 40
NARROW = 1150  # up to here the list stands behind a button
CONTROL = 2  # of a key, by the browser's protocol
LESSON, SOURCE, WAIT, BEHIND = "mail_race", "sender_race.s", "\trdch\t$9,$ch24", 16  # what mends the lesson, and the line behind which it is written
PANE = ".pane:not([hidden])"  # around the textarea of the file that is shown
TEXT = f"{PANE} textarea"
OWN = ("file:", "blob:", "data:", "about:")  # how addresses begin that are no host's
NAMELESS = """[...document.querySelectorAll('button, input, textarea, iframe, [tabindex="0"], a')].filter(node => node.checkVisibility()
    && !(node.getAttribute('aria-label') || node.labels && node.labels.length || node.title || node.textContent.trim() || node.getAttribute('aria-labelledby')))
    .map(node => node.outerHTML.slice(0, 80))"""


class Student:
    """Somebody who uses the page, and tells what is wrong."""

    def __init__(self, browser: Browser, page: pathlib.Path, width: int) -> None:
        self.browser, self.page, self.width = browser, page, width
        self.said: List[str] = []
        self.open("")
        self.browser.answer("localStorage.clear()")  # the work of an earlier use
        self.open("")

    def open(self, part: str) -> None:
        """Opens the page anew, with a part behind #."""
        self.browser.open("about:blank", self.width, is_in_front=True)
        self.browser.open(self.page.as_uri() + part, self.width, is_in_front=True)
        self.settle("document.body && document.body.dataset.ready")
        self.browser.answer(f"document.body.dataset.seconds = {SECONDS}")

    def settle(self, condition: str) -> None:
        """Waits until something holds in the page."""
        end = time.monotonic() + SECONDS
        while not self.holds(condition):
            if time.monotonic() > end:
                raise Silent(f"at {self.width} pixels the page doesn't come so far that {condition}")
            time.sleep(0.02)

    def holds(self, condition: str) -> bool:
        try:
            return bool(self.browser.answer(f"Boolean({condition})"))
        except Ended:
            raise
        except Silent:  # while a page gives way to another
            return False

    def text(self, selector: str) -> str:
        return str(self.browser.answer(f"(node => node ? node.textContent : '')(document.querySelector({json.dumps(selector)}))"))

    def click(self, selector: str, place: Tuple[float, float] = (0.5, 0.5)) -> None:
        """Clicks at a point of the first node of a kind, as parts of its width and height, or as pixels where they are above 1."""
        node = f"document.querySelector({json.dumps(selector)})"
        self.browser.answer(f"{node}.scrollIntoView({{ block: 'center' }})")
        left, top, width, height = self.browser.answer(f"(box => [box.left, box.top, box.width, box.height])({node}.getBoundingClientRect())")
        x, y = (part * size if part <= 1 else part for part, size in zip(place, (width, height)))
        self.browser.click(left + x, top + y)

    def type(self, text: str) -> None:
        for character in text:
            self.browser.key("Enter" if character == "\n" else character)

    def expect(self, what: str, is_right: bool) -> None:
        if not is_right:
            self.said.append(f"at {self.width} pixels: {what}")

    def expect_in(self, what: str, wanted: str, found: str) -> None:
        self.expect(f"{what}: {found[:200]!r} hasn't {wanted!r}", wanted in found)

    # ---- what is done often

    def lesson(self, name: str) -> None:
        """Opens a lesson by the list."""
        if self.width <= NARROW:
            self.click("#list-button")
        self.click(f"#list a[href='#{name}']")
        self.settle(f"location.hash === '#{name}'")

    def hunt(self) -> str:
        """Hunts, and answers the verdict."""
        self.browser.answer("document.getElementById('verdict').hidden = true")
        self.click("#hunt-runs")
        self.settle("!document.getElementById('verdict').hidden && !document.getElementById('hunt').hidden")
        return self.text("#verdict")

    def hunt_too_long(self) -> int:
        """Hunts for longer than the page may take, and returns how many seconds that was: the first of LIMITS in which this machine makes a run."""
        for seconds in LIMITS:
            late = f"took more than {seconds} seconds"
            self.browser.answer(f"document.body.dataset.seconds = {seconds}")
            self.settle("document.getElementById('stop').hidden")  # until then the hunt before looks for SPUs that ran into zeros, and clicks do nothing
            self.click("#hunt-runs")
            self.settle(f"['hunt', 'nothing'].some(id => document.getElementById(id).textContent.includes('{late}'))")
            if late in self.text("#hunt"):
                break
            self.expect_in("a hunt without a run", f"the hunt ended before a run did: it {late}", self.text("#nothing"))
        self.settle("document.getElementById('stop').hidden")
        self.expect(f"no hunt makes a run in {seconds} seconds", late in self.text("#hunt"))
        self.browser.answer(f"document.body.dataset.seconds = {SECONDS}")
        return seconds

    def to_line(self, number: int) -> None:
        """Puts the cursor at the end of a line of the editor."""
        self.browser.answer(f"document.querySelector({json.dumps(TEXT)}).scrollTop = 0")
        self.click(TEXT, (30, 8 + 19 * (number - 0.5)))
        self.browser.key("End")

    def look(self) -> None:
        """What has to hold of every state of the page."""
        width = self.browser.answer("document.documentElement.scrollWidth")
        self.expect(f"it is {width} pixels wide", width <= self.width)
        nameless = self.browser.answer(NAMELESS)
        self.expect(f"these have no name: {nameless}", not nameless)


# ---- what the page has to do

def a_race_is_hunted(student: Student) -> None:
    """A lesson is opened, its race hunted, and seen in words and as a picture."""
    student.lesson(LESSON)
    student.expect_in("the lesson", "A word too early", student.text("#lesson"))
    student.expect_in("the hunt", "race in ", student.hunt())
    student.look()
    student.click("#hunt .race .show-run")
    student.settle("document.querySelectorAll('#race section').length")
    student.expect_in("the race", f"{SOURCE}:12", student.text("#race"))
    student.expect_in("what would order them", "TagSeen", student.text("#race"))
    student.expect("the line of the race isn't marked", student.browser.answer("document.querySelectorAll('#numbers .race').length") > 0)
    student.look()
    student.click("#tab-picture")
    student.settle("(inner => inner && inner.querySelectorAll('.back.race').length === 2)(document.getElementById('frame').contentDocument)")
    student.look()
    if student.width > NARROW:
        student.click("#wide")
        student.expect("the picture isn't as wide as the window", student.browser.answer("document.getElementById('frame').clientWidth") > student.width - 60)
        student.click("#wide")


def steps_go_on_and_back(student: Student) -> None:
    """The steps of the run, by a slider and by buttons."""
    student.click("#tab-steps")
    student.settle("document.querySelector('#step h3')")
    place = int(student.browser.answer("document.getElementById('place').value"))
    student.browser.answer("document.getElementById('slider').focus()")
    student.browser.key("ArrowLeft")
    student.settle(f"document.querySelector('#step li') && document.getElementById('place').value === '{place - 1}'")
    student.settle(f"document.querySelector('#step li').textContent.startsWith('step {place - 2},')")
    student.click("#on")
    student.settle(f"document.querySelector('#step li').textContent.startsWith('step {place - 1},')")
    student.look()


def both_orders_are_told(student: Student) -> None:
    student.click("#tab-orders")
    student.settle("document.querySelector('#orders pre')")
    student.expect_in("both orders", "second  00000000", student.text("#orders"))


def it_is_mended(student: Student) -> None:
    """The line that is missing is written, and the hunt finds nothing."""
    student.to_line(BEHIND)
    student.type("\n")  # which begins as the line before
    student.type(WAIT.lstrip("\t").replace("\t", " "))
    student.settle("!document.getElementById('stale').hidden && !document.getElementById('restore').hidden")
    student.expect_in("the hunt of the mended program", "nothing found", student.hunt())


def a_fault_stands_at_its_line(student: Student) -> None:
    student.to_line(BEHIND + 1)
    student.type("\nfrob $1")
    student.settle("document.querySelector('#faults .fault')")
    student.expect_in("the fault", f"{SOURCE}:{BEHIND + 2}", student.text("#faults"))
    student.expect_in("the fault", "UnknownName", student.text("#faults"))
    student.expect("the faulty line has no mark", student.text("#numbers .fault") == str(BEHIND + 2))
    student.look()
    student.click("#run")
    student.settle("document.querySelector('#nothing .refused')")
    student.expect_in("a run of it", f"{SOURCE}:{BEHIND + 2}", student.text("#nothing"))
    student.to_line(BEHIND + 2)
    for _ in range(len("\n\tfrob $1")):
        student.browser.key("Backspace")
    student.settle("!document.querySelector('#faults .fault')")


def a_link_is_reopened(student: Student) -> None:
    """The program that was changed comes back by its link."""
    student.click("#share")
    student.settle("document.getElementById('link').value")
    link = student.browser.answer("document.getElementById('link').value")
    student.look()
    student.open("#" + link.partition("#")[2])
    student.expect_in("the program of the link", WAIT.split("\t")[-1], student.browser.answer(f"document.querySelector({json.dumps(TEXT)}).value"))
    student.expect_in("the check of its run", "no race", checked(student))


def checked(student: Student) -> str:
    """What a check by keys says."""
    student.click(TEXT, (30, 30))
    student.browser.key("Enter", CONTROL)
    student.settle("!document.getElementById('verdict').hidden")
    return student.text("#verdict")


def a_long_hunt_is_stopped(student: Student) -> None:
    """By its button, and by the time that it may take; then the page goes on."""
    student.click("#runs")
    student.browser.key("a", CONTROL)
    student.type("1000000")
    student.click("#hunt-runs")
    student.settle("!document.getElementById('stop').hidden")
    student.settle("document.getElementById('hunt').textContent.match(/[1-9].* of 1,000,000/)")
    student.click("#stop")
    student.settle("document.getElementById('hunt').textContent.includes('of 1,000,000 runs: stopped')")
    student.hunt_too_long()
    student.click("#run")
    student.settle("document.querySelector('#result pre')")
    student.expect_in("the run behind it", "AllStopped", student.text("#result"))


def the_keyboard_goes_round(student: Student) -> None:
    """Arrow keys go from tab to tab, Tab to the buttons, and these keep the keyboard."""
    student.browser.answer("document.querySelector('#files [aria-selected=true]').focus()")
    before = student.text("#files [aria-selected=true]")
    student.browser.key("ArrowRight")
    student.expect("the arrow key goes to no other file", student.text("#files [aria-selected=true]") != before)
    student.expect("the tab lost the keyboard", student.browser.answer("document.activeElement.getAttribute('aria-selected')") == "true")
    for _ in range(MOST_TABS):
        student.browser.key("Tab")
        if student.browser.answer("document.activeElement.id") == "check":
            break
    student.browser.key("Enter")
    student.settle("!document.getElementById('race').hidden && !document.getElementById('verdict').hidden")
    student.expect("the button lost the keyboard", student.browser.answer("document.activeElement.id") == "check")


def it_is_dark_and_light(student: Student) -> None:
    """The button changes the colours, and back."""
    colour = "getComputedStyle(document.body).backgroundColor"
    before = student.browser.answer(colour)
    student.click("#theme")
    student.expect("the colours stay", student.browser.answer(colour) != before)
    student.click("#theme")
    student.expect("the colours don't come back", student.browser.answer(colour) == before)


USES: Tuple[Callable[[Student], None], ...] = (a_race_is_hunted, steps_go_on_and_back, both_orders_are_told, it_is_mended, a_fault_stands_at_its_line,
                                               a_link_is_reopened, a_long_hunt_is_stopped, the_keyboard_goes_round, it_is_dark_and_light)


def used(browser: Browser, page: pathlib.Path, width: int, uses: Tuple[Callable[[Student], None], ...] = USES) -> List[str]:
    """What is wrong with uses of the page at a width, and which hosts it asks."""
    browser.hear_requests()
    student = Student(browser, page, width)
    for use in uses:
        use(student)
    hosts = [address for address in browser.requests if not address.startswith(OWN)]
    return student.said + [f"at {width} pixels: it asks {address}" for address in hosts] + ["no request of the page was heard"] * (not browser.requests)


def answered(browser: Browser, page: pathlib.Path, questions: Told) -> List[Told]:
    """What the engine answers in the browser."""
    student = Student(browser, page, WIDTHS[0])
    found: List[Told] = student.browser.answer(f"({script_here()})({json.dumps(questions)})")
    return found
