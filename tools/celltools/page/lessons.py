"""The lessons and examples of the page, from docs/guide/gallery.md and docs/guide/own-program.md, with the files that they name."""
import re
from typing import Any, Dict, Iterator, List, Optional

from celltools.common.repository import ROOT
from celltools.page.bundle import Unmade
from celltools.run.plans import sources_in

Entry = Dict[str, Any]  # an example or a group of them, as the page has it

GROUP, LESSON = re.compile(r"## (.+)"), re.compile(r"### (\d+\. .+)")
RECORD = re.compile(r"    tools/picture (?:--run \d+ )?examples/races/(\w+)\.cell ")
MENDS = re.compile(r"\*\*What mends it\*\* \(`(\w+)`\): (.+)")
LINK = re.compile(r"\[([^\]]+)\]\([^)]*\)")
ROW = re.compile(r"^\| (`[^|]+`) \| ([^|]+) \|$", re.M)
OWN_WORDS = "A sum by a loop: write your own in its place. A `source` line of the machine file brings a tab for it."
MOST_SAID = 240  # characters of what is said of an example
HEAD = re.compile(r"(?:#.*\n)+")
OWN = re.compile(r"`(\w+\.\w+)`[^`\n]*(?:`[^`\n]*`[^`\n]*)?:\n\n((?:    .*\n|\n)+)")  # a block of README, behind the name of its file


def plain(text: str) -> str:
    """A text without links; what stands between backquotes stays so."""
    return LINK.sub(r"\1", text).strip()


def capital(text: str) -> str:
    return text[:1].upper() + text[1:]


def example(name: str, title: str, words: List[str], mends: str = "", mended: Optional[str] = None) -> Entry:
    return {"id": name, "title": title, "words": words, "mends": mends, "mended": mended, "machine": machine_of(name)}


def machine_of(name: str) -> str:
    """The machine file of an example, by its name from the root."""
    found = next((ROOT / "examples").rglob(f"{name}.cell"), None)
    return f"{name}.cell" if found is None else str(found.relative_to(ROOT))


def lessons() -> Iterator[Entry]:
    """The groups of the gallery, each with its lessons."""
    group: Optional[Entry] = None
    for part in re.split(r"^(?=##)", (ROOT / "docs" / "guide" / "gallery.md").read_text(encoding="utf-8"), flags=re.M):
        heading, lesson = GROUP.match(part), LESSON.match(part)
        if heading:
            if group and group["examples"]:
                yield group
            group = {"title": heading[1], "examples": []}
        elif lesson and group:
            group["examples"].append(lesson_of(lesson[1], part.partition("\n")[2]))
    if group and group["examples"]:
        yield group


def lesson_of(title: str, text: str) -> Entry:
    """A lesson, from its part of the page."""
    record, mends = RECORD.search(text), MENDS.search(text)
    if record is None or mends is None:
        raise Unmade(f"docs/guide/gallery.md: `{title}` has no command of tools/picture, or no **What mends it** with the program's name in parentheses")
    words = [plain(said) for said in text[:record.start()].split("\n\n") if said.strip() and not said.startswith("    ")]
    return example(record[1], title, words, capital(plain(mends[2])), mends[1])


def head_of(name: str) -> List[str]:
    """What the comments at the front of a machine file say, or of its first source where it has none."""
    text = (ROOT / machine_of(name)).read_text(encoding="utf-8")
    found = HEAD.match(text) or next((HEAD.match((ROOT / name).read_text(encoding="utf-8")) for name in sources_in(text.encode())), None)
    return [beginning(re.sub(r"\s*#\s*", " ", re.split(r":\n", found[0])[0]).strip())] if found else []


def beginning(text: str) -> str:
    """The first sentences of a text, as many as are short; the others stand in the file."""
    kept = ""
    for sentence in re.findall(r".+?\.(?= |$)", text):
        if kept and len(kept) + len(sentence) > MOST_SAID:
            break
        kept += sentence
    return kept.strip() or text


def others() -> Iterator[Entry]:
    """The examples that READING has, those that hang, and the mended programs."""
    rows = ROW.findall((ROOT / "docs" / "guide" / "own-program.md").read_text(encoding="utf-8"))
    found = ((re.findall(r"`(\w+)`", names), capital(plain(what))) for names, what in rows)
    named = [(name, what if len(names) == 1 else f"{capital(name)}, one of {what[:1].lower()}{what[1:]}") for names, what in found for name in names]
    yield {"title": "Examples", "examples": [example(name, what, head_of(name)) for name, what in named if (ROOT / machine_of(name)).is_file()]}
    hangs = sorted(path.stem for path in (ROOT / "examples" / "hangs").glob("*.cell"))
    yield {"title": "Programs that hang in some runs", "examples": [example(name, capital(name.replace("_", " ")), head_of(name)) for name in hangs]}


def mended(groups: List[Entry]) -> Entry:
    """The mended programs of lessons, which stand in no list."""
    names = dict.fromkeys(lesson["mended"] for group in groups for lesson in group["examples"] if lesson["mended"])
    return {"title": "", "examples": [example(name, f"{capital(name.replace('_', ' '))}, fixed", head_of(name)) for name in names]}


def own_program() -> Dict[str, str]:
    """The program of own-program.md that a reader writes, by its files."""
    text = (ROOT / "docs" / "guide" / "own-program.md").read_text(encoding="utf-8")
    section = text[text.index("## Write it"):]
    return {name: re.sub(r"^    ", "", block.strip("\n") + "\n", flags=re.M) for name, block in OWN.findall(section) if name.startswith("ten.")}


def files_of(machines: List[str], own: Dict[str, str]) -> Dict[str, str]:
    """The machine files and their sources."""
    found = dict(own)
    for machine in machines:
        if machine not in found:
            found[machine] = (ROOT / machine).read_text(encoding="utf-8")
            found.update({name: (ROOT / name).read_text(encoding="utf-8") for name in sources_in(found[machine].encode())})
    return dict(sorted(found.items()))


def library() -> Entry:
    """What the page lists, and all files of it."""
    groups = list(lessons())
    own = own_program()
    first = {"title": "Your own program", "examples": [example("ten", "A sum, to be changed", [OWN_WORDS])]}
    start = groups[0]["examples"][0]["id"]
    groups = [first, *groups, *others(), mended(groups)]
    machines = [found["machine"] for group in groups for found in group["examples"]]
    return {"groups": groups, "files": files_of(machines, own), "start": start}
