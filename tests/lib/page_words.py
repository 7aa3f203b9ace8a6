"""How plainly pages are written, as far as that can be counted: habits that make a reader read twice, terms of the field, and how long sentences are."""
import pathlib
import re
from typing import Dict, Iterator, List, NamedTuple

from lib.page_reading import INDENT, parts_of

CODE = re.compile(r"`[^`]*`")
LINK = re.compile(r"\]\([^)]*\)")
WORD = re.compile(r"[A-Za-z][A-Za-z'-]*")
END = re.compile(r"[.!?:](?=\s|$)")

# Each habit: what it is found by, and how often it may come in 1,000 words of a page that a user reads.
HABITS: Dict[str, "Habit"] = {}


class Habit(NamedTuple):
    pattern: "re.Pattern[str]"
    most: float


HABITS.update({
    "tell, told": Habit(re.compile(r"\b(?:tells?|told|telling)\b", re.I), 1.0),
    "what .. for a noun": Habit(re.compile(r"\bwhat (?:is|isn't|was|are|has|have|had|stands?|comes?|came|goes|went|can|can't|nobody|waits?)\b", re.I), 4.0),
    "behind, beside, stands, by chance": Habit(re.compile(r"\b(?:behind|beside|stands?|by chance|so many)\b", re.I), 2.0),
    "where for if": Habit(re.compile(r"\bwhere (?:it|there|they|this|that|one|none|no|two|a|an|the|all|nothing|some|several|each|every|many|you)\b", re.I), 2.0),
    "the object in front": Habit(re.compile(r"(?:^|[.!?] )Of (?:a|an|the|each|every|two|these|this|all|which)\b"), 1.0),
})
LONGEST = 20  # words of a sentence, in the mean

# Terms of the field, each on the page that needs it.
TERMS = {
    "README.md": ("data race", "DMA", "proved", "record"),
    "docs/guide/first-race.md": ("data race", "random schedules", "machine file"),
    "docs/guide/own-program.md": ("deadlock", "record", "budget"),
    "docs/guide/races.md": ("data race", "happens before", "interleaving", "settled"),
    "docs/guide/hunting.md": ("random schedules", "data race", "deadlock", "suppressions", "coverage", "scheduling strategies"),
    "docs/guide/debugging.md": ("breakpoint", "watchpoint", "deadlock"),
    "docs/reference/order.md": ("happens before", "race"),
    "docs/reference/machine.md": ("MFC", "deadlock", "own"),
    "docs/inside/proofs.md": ("theorem", "specification", "contract"),
}


class Figures(NamedTuple):
    """The words of a page, how often each habit comes in 1,000 of them, and the mean length of its sentences."""
    words: int
    habits: Dict[str, float]
    sentence: float


def prose_of(page: pathlib.Path) -> List[str]:
    """The paragraphs and cells of a page, without code and the targets of links."""
    texts: List[str] = []
    for _, lines in parts_of(page.read_text().splitlines()):
        text = " ".join(line for line in lines if not line.startswith("#"))
        if not text.startswith(INDENT):
            plain = LINK.sub("]", CODE.sub("X", text))
            texts += [cell.strip() for cell in plain.split("|")] if text.startswith("|") else [plain]
    return [text for text in texts if WORD.search(text)]


def figures_of(page: pathlib.Path) -> Figures:
    texts = prose_of(page)
    words = sum(len(WORD.findall(text)) for text in texts)
    counts = {name: sum(len(habit.pattern.findall(text)) for text in texts) for name, habit in HABITS.items()}
    sentences = [len(WORD.findall(part)) for text in texts for part in END.split(text) if len(WORD.findall(part)) > 3]
    mean = sum(sentences) / len(sentences) if sentences else 0
    return Figures(words, {name: 1000 * count / max(words, 1) for name, count in counts.items()}, mean)


def is_for_users(page: pathlib.Path, root: pathlib.Path) -> bool:
    name = page.relative_to(root)
    return str(name) == "README.md" or name.parts[:2] in (("docs", "guide"), ("docs", "reference"))


def word_faults(page: pathlib.Path, root: pathlib.Path) -> Iterator[str]:
    """Which habits a page has too often, and which terms it lacks."""
    name = str(page.relative_to(root))
    text = page.read_text().lower()
    for term in TERMS.get(name, ()):
        if term.lower() not in text:
            yield f"{name}: the term '{term}' doesn't occur, which a reader of this page would search for"
    if not is_for_users(page, root):
        return
    found = figures_of(page)
    for habit, often in found.habits.items():
        allowed = max(HABITS[habit].most, 1000 * 1.5 / max(found.words, 1))  # one is never too many
        if often > allowed:
            yield f"{name}: '{habit}' comes {often:.1f} times in 1,000 words, {allowed:.1f} are the most: write as CONTRIBUTING.md says"
    if found.sentence > LONGEST:
        yield f"{name}: sentences have {found.sentence:.1f} words in the mean, {LONGEST} are the most"


def summary(pages: List[pathlib.Path], root: pathlib.Path) -> str:
    """The figures of all pages for users together."""
    found = [figures_of(page) for page in pages if is_for_users(page, root)]
    words = sum(it.words for it in found)
    rates = ", ".join(f"{name} {sum(it.habits[name] * it.words for it in found) / words:.1f}" for name in HABITS)
    return f"{words} words for users; in 1,000 of them: {rates}"
