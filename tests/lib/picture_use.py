"""Uses pages of tools/picture as a reader does, by keys and clicks in a browser, and tells where one does something else than its reader asks for."""
import dataclasses
import json
import pathlib
import re
import time
from typing import Any, Callable, Dict, Iterator, List, Sequence, Tuple

from lib.browser import NAMED_KEYS, SHIFT, Browser, Silent
from lib.picture_page import Page

WIDTHS = (1400, 900)
SECONDS = 60   # that a page may take for what it was asked
NEAR = 2       # pixels by which a row that stays may move
MOST_TABS = 99
AMBER, RED, GREEN = "rgb(240, 180, 41)", "rgb(198, 70, 0)", "rgb(0, 127, 95)"
Seen = Dict[str, Any]  # what picture_using.js sees, as JSON has it
Count = Callable[[Page], int]  # how many steps of a page a search has to find
SEEN = (pathlib.Path(__file__).resolve().parent / "picture_using.js").read_text()


class Reader:
    """Somebody who reads a page, and tells what is wrong."""

    def __init__(self, browser: Browser, page: Page, path: pathlib.Path, width: int) -> None:
        self.browser, self.page, self.width = browser, page, width
        self.said: List[str] = []
        browser.open(path.as_uri(), width, is_in_front=True)
        self.settle("document.body && document.body.dataset.ready === 'yes'")
        browser.answer("scrollTo(0, 0); document.getElementById('scroll').focus()")

    def settle(self, condition: str) -> None:
        """Waits until something holds in the page."""
        end = time.monotonic() + SECONDS
        while not self.browser.answer(f"Boolean({condition})"):
            if time.monotonic() > end:
                raise Silent(f"the page doesn't come so far that {condition}")
            time.sleep(0.01)

    def keys(self, *names: str) -> Seen:
        """Presses keys, one after the other, a capital with Shift, and types words; what is seen then."""
        for name in names:
            if len(name) == 1 or name in NAMED_KEYS:
                self.browser.key(name, SHIFT * name.isupper())
            else:
                self.browser.call("Input.insertText", text=name)
            self.settle("document.getElementById('scroll').getAttribute('aria-busy') !== 'true'")
        return self.seen()

    def click(self, selector: str) -> Seen:
        """Clicks at the middle of the first node of a kind."""
        node = f"document.querySelector({json.dumps(selector)})"
        self.browser.click(*self.browser.answer(f"(box => [box.left + box.width / 2, box.top + box.height / 2])({node}.getBoundingClientRect())"))
        self.settle("document.getElementById('scroll').getAttribute('aria-busy') !== 'true'")
        return self.seen()

    def seen(self) -> Seen:
        self.browser.answer("new Promise(done => requestAnimationFrame(() => requestAnimationFrame(done)))")
        found: Seen = self.browser.answer(SEEN)
        return found

    def expect(self, what: str, wanted: object, found: object) -> None:
        if wanted != found:
            self.said.append(f"{what}: {found!r}, and not {wanted!r}")

    def expect_in(self, what: str, wanted: str, found: str) -> None:
        if wanted not in (found or ""):
            self.said.append(f"{what}: {found!r} hasn't {wanted!r}")

    def comes_by_tab(self, place: int) -> bool:
        """Whether the key Tab comes to a button that goes to a step."""
        for _ in range(MOST_TABS):
            self.browser.key("Tab")
            if self.browser.answer("document.activeElement.dataset.go || ''") == str(place):
                return True
        return False

    def go(self, place: int) -> Seen:
        return self.keys("g", str(place), "Enter")


# ---- what a page has to do

def numbers(reader: Reader) -> None:
    """A number that is asked for twice is written over, also where the key is pressed twice."""
    first, second = reader.page.facts["count"] // 3, reader.page.facts["count"] // 2
    found = reader.keys("g", "g", str(first), "Enter")
    reader.expect_in("`g` twice and a number", f"step {first},", found["chosen"])
    found = reader.go(second)
    reader.expect("the field behind another number", str(second), found["field"])
    reader.expect_in("`g` and another number", f"step {second},", found["chosen"])


def neighbours(reader: Reader) -> None:
    """A step follows the one before it in its own program, and what a rule puts before it."""
    lines = reader.page.lines
    place = next(k for k, line in reversed(list(enumerate(lines))) if " | issue " in line)
    before = max(k for k, line in enumerate(lines[:place]) if line.startswith(" ".join(lines[place].split(" ")[:2]) + " "))
    found = reader.go(place)
    reader.expect_in("what happens before a step", f"{before:,}, the previous step of its program, by Program", " ".join(found["side"].split()))
    piece = max(k for k, line in enumerate(lines) if line.startswith("p "))
    spe, command = lines[piece].split()[1:3]
    issue = next(k for k, line in enumerate(lines) if line.startswith(f"x {spe} ") and f" | issue {command} " in line)
    reader.expect_in("what happens before a piece", f"{issue:,} by Issued", " ".join(reader.go(piece)["side"].split()))


def columns(reader: Reader) -> None:
    """All columns are opened and folded again, and what is in view stays there."""
    before = reader.keys("r")
    opened = reader.keys("c")
    reader.expect("the folded columns behind `c`", [], opened["strips"])
    kept(reader, "`c`", before, opened)
    if before["strips"]:
        after = reader.keys("c")
        reader.expect("the folded columns behind `c` twice", before["strips"], after["strips"])
        kept(reader, "`c` twice", before, after)


def kept(reader: Reader, what: str, before: Seen, after: Seen) -> None:
    """That the step that is chosen stays where it was on the screen."""
    reader.expect(f"the chosen step behind {what}", before["chosen"], after["chosen"])
    if after["top"] is None or abs(before["top"] - after["top"]) > NEAR:
        reader.said.append(f"{what} moves the chosen step from {before['top']} to {after['top']}")


def only(reader: Reader) -> None:
    """Only a race's steps are shown, and all again, and the step that is chosen stays in view."""
    before = reader.keys("r")
    first = reader.keys("o")
    reader.expect("`o` presses its button", "only" not in before["pressed"], "only" in first["pressed"])
    reader.expect("the chosen step behind `o`", before["chosen"], first["chosen"])
    second = reader.keys("o")
    reader.expect("`o` twice releases it", before["pressed"], second["pressed"])
    kept(reader, "`o`", first, second)


def race_in_view(reader: Reader) -> None:
    """Wherever the reader is, both steps of the race and the memory column are in view behind `r`, and what is folded has a name and opens."""
    reader.keys("e")
    if len(reader.seen()["strips"]):
        reader.keys("c")
    found = reader.keys("r")
    reader.expect("the steps of the race in view behind `r`", ["1st", "2nd"] if raced_near(reader) else ["2nd"], found["racing"])
    reader.expect("the memory column is in view", True, "memory" in found["columns"] or any(name.startswith("store") for name in found["columns"]))
    reader.expect("names of folded columns that can't be read", [], found["unreadable"])
    if found["strips"]:
        opened = reader.click("#heads .fold button")
        reader.expect_in("a click opens a column", found["strips"][0], " ".join(opened["open"]))
        back = reader.keys("r")
        reader.expect("the columns behind another `r`", found["strips"], back["strips"])


def raced_near(reader: Reader) -> bool:
    """Whether the rows of a race are few enough for the window, by what the page itself takes for it."""
    return bool(reader.browser.answer("raceFits()"))


def badge(wanted: str, color: str) -> Callable[[Reader], None]:
    """That the badge says how the run ended, in its colour, and the page opens at its end where it ended otherwise than well."""
    def look(reader: Reader) -> None:
        found = reader.seen()
        reader.expect("the badge", wanted, found["badge"])
        reader.expect("the badge's colour", color, found["color"])
        reader.expect("the page opens at its end", True, found["is_at_end"])
    return look


def waiting(reader: Reader) -> None:
    """From what waits the reader comes to its last step: by a key, and by the words beside."""
    said = reader.page.facts["ending"]["said"]
    place = said[0][1]
    reader.expect("the words of what waits", f"last step {place:,}", " ".join(re.findall(rf"last step {place:,}", reader.seen()["side"])[:1]))
    reader.expect_in("`w`", f"step {place},", reader.keys("w")["chosen"])
    reader.go(0)
    reader.expect("the key Tab comes to the last step", True, reader.comes_by_tab(place))
    reader.expect_in("Enter on the last step", f"step {place},", reader.keys("Enter")["chosen"])


def values(*pairs: Tuple[str, str]) -> Callable[[Reader], None]:
    """That steps tell what they took, read or signalled: of each a pattern of its line, and what its words have."""
    def look(reader: Reader) -> None:
        for pattern, words in pairs:
            place = next((k for k, line in enumerate(reader.page.lines) if re.search(pattern, line)), None)
            if place is None:
                reader.said.append(f"no step of the page has {pattern}")
                continue
            reader.expect_in(f"the words of step {place}", words, " ".join(reader.go(place)["side"].split()))
    return look


@dataclasses.dataclass(frozen=True)
class Found:
    """A search, and how many steps it has to find."""
    text: str
    count: Count


def searches(*wanted: Found) -> Callable[[Reader], None]:
    """That searches find what they have to, go on and back and round, and say where there is none."""
    def look(reader: Reader) -> None:
        for search in wanted:
            count = search.count(reader.page)
            reader.keys("Escape")
            reader.browser.answer("document.getElementById('scroll').focus()")
            found = reader.keys("/", search.text, "Enter")
            if not count:
                reader.expect(f"the search for {search.text}", f"no step has {search.text}", found["hits"])
                continue
            hit = re.fullmatch(r"hit ([\d,]+) of ([\d,]+)", found["hits"])
            reader.expect(f"the hits of {search.text}", f"{count:,}", hit[2] if hit else found["hits"])
            if hit:
                go_on(reader, int(hit[1].replace(",", "")), count, found)
    return look


def go_on(reader: Reader, at: int, count: int, found: Seen) -> None:
    """The next hit, by a key, and back again."""
    reader.keys("Escape")
    following = reader.keys("n")
    reader.expect("the next hit", f"hit {at % count + 1:,} of {count:,}", following["hits"])
    back = reader.keys("N")
    reader.expect("and back", found["hits"], back["hits"])
    reader.expect("and the step", found["chosen"], back["chosen"])


# ---- what a search has to find, by the lines of the steps

def lines_with(pattern: str) -> Count:
    """How many steps have a pattern."""
    return lambda page: sum(bool(re.search(pattern, line)) for line in page.lines)


def steps_of_line(name: str) -> Count:
    """How many instructions come from a line of a source."""
    file, number = name.rsplit(":", 1)

    def count(page: Page) -> int:
        sites = {(spe, int(at)) for spe, code in enumerate(page.facts["code"]) for at, line in code.items()
                 if page.facts["sources"][line][0].endswith(file) and page.facts["sources"][line][1] == int(number)}
        fetches = map(re.compile(r"x (\d+) \| fetch \d+ (\d+) ").match, page.lines)
        return sum((int(found[1]), int(found[2])) in sites for found in fetches if found)
    return count


def steps_touching(place: str, low: int, high: int) -> Count:
    """How many steps touch bytes of a place, which is a pattern: `mem`, the number of a store, or any."""
    span = re.compile(rf" \| (?:fetch|read|write) ({place}) (\d+) (\d+)")
    return lambda page: sum(any(int(at) < high and low < int(at) + int(size) for _, at, size in span.findall(line)) for line in page.lines)


def uses(looks: Sequence[Callable[[Reader], None]], browser: Browser, page: Page, path: pathlib.Path) -> Iterator[str]:
    """What goes wrong with a page at each width."""
    for width in WIDTHS:
        reader = Reader(browser, page, path, width)
        for look in looks:
            look(reader)
        yield from (f"at {width} pixels: {line}" for line in reader.said)


# ---- what each page is used for

RACY = [numbers, neighbours, columns, only, race_in_view]
USES: Dict[str, Sequence[Callable[[Reader], None]]] = {
    "mail_race": [*RACY, searches(
        Found("receiver.s:12", steps_of_line("receiver.s:12")), Found("0x84", steps_touching(r"\S+", 0x84, 0x85)), Found("$ch21", lines_with(" wrch 21 ")),
        Found("reads inbox", lines_with(r"^x .*\| take \d+ in ")), Found("to its outbox", lines_with(r"^x .*\| put \d+ out")), Found("lost", lambda page: 0))],
    "sixteen": [*RACY, searches(
        Found("lost", lines_with(r"putllc .*status 1|rdch 27 1 ")), Found("mutex_early_race.s:29", steps_of_line("mutex_early_race.s:29")),
        Found("MFC_RdAtomicStat", lines_with(" rdch 27 ")))],
    "stuck": [badge("accepted 4 · deadlock (Stuck), SPU 0 waits, 2 of 3 host actions done", AMBER), waiting],
    "fault": [badge("accepted 10 · AllStopped, SPU 0 has a fault", RED), waiting],
    "spent": [badge("accepted 400 · Budget: all 400 steps are spent, 16 SPUs run", AMBER), waiting],
    "wait_any": [values((r"rdch 0 17$", "reads the events 0x11: {inbox, tags}"), (r"take 0 in 256", "reads 0x100 from its inbox"),
                        (r"rdch 27 4 ", "reads the atomic status 4: GETLLAR"),
                        (r" tags 8 1", "reads the tag status 0x8: tags {3}"), ("put 0 in 256", "send 0"))],
    "signal": [values((r"deliver 1", "to SPU 1 sig 1: 0x1"), (r"rdch 3 1 ", "reads 0x1 from signal 1"))],
    "follow": [values((r" stalls 32", "reads the stall status 0x20: stalls {5}"))],
}
