"""Explains what `cell` refuses in a machine file and its sources, and warns of what is accepted and probably wrong."""
import collections
import os
import re
import stat
from typing import DefaultDict, Dict, Iterable, Iterator, List, Mapping, NamedTuple, Optional, Sequence, Set, Tuple

from celltools.common.texts import MOST_BYTES, bytes_of, number_of
from celltools.explain.report import MOST, Report, cell, cell_of, in_latin, short
from celltools.explain.source import explain_source
from celltools.run.plans import PlanLine, plan_of
from celltools.run.runs import Refused
from celltools.source.language import STORE
from celltools.source.names import name_in, named_by_labels
from celltools.source.sites import source_labels, source_lines

LINE = 128  # bytes of a line of main memory
HEADS = {"cell-machine": 1, "lines": 524_288, "budget": 1_000_000}  # each with its greatest number
LINES = {
    "spe": "", "code": "A HEX", "bytes": "A HEX", "source": "NAME", "entry": "A", "mem": "A HEX", "host send": "P V",
    "host take": "P", "host takeintr": "P", "host await": "P", "host signal": "P R V", "host store": "A HEX", "ormode": "P R",
    "show ls": "P A N", "show mem": "A N",
}  # fmt: skip
OF_SIGNALS = {
    "host signal": "the value V for signal register R, 1 or 2, of processor P",
    "ormode": "signal register R, 1 or 2, of processor P",
}
MOST_LINES = {"spe": 16, "source": 32, "host": 4096, "show": 64}
MACHINE_NUMBER = re.compile(r"0|[1-9]\d*|0x[0-9A-Fa-f]{1,8}", re.A)


class Placed(NamedTuple):
    """Bytes that a line places in a processor's store."""
    line: int
    spe: int
    start: int
    size: int
    kind: str  # the first word of the line


class Seen:
    """What the accepted lines of a machine file said, as far as the next one depends on it. A file with a faulty line has no plan that would say it."""

    def __init__(self) -> None:
        self.heads, self.memory = 0, 0
        self.counts = dict.fromkeys(MOST_LINES, 0)
        self.entries: Set[int] = set()  # the processors that have one

    @property
    def spe(self) -> int:
        return self.counts["spe"] - 1

    def take(self, words: Sequence[str]) -> None:
        """Takes an accepted line."""
        name = words[0]
        if name in HEADS:
            self.heads += 1
            if name == "lines":
                self.memory = int(words[1], 0) * LINE
        if name in self.counts:
            self.counts[name] += 1
        if name == "entry":
            self.entries.add(self.spe)


class Placing:
    """What the lines of a machine file put into the stores, by its plan."""

    def __init__(self, plan: Sequence[PlanLine]) -> None:
        self.begun = [line.number for line in plan if line.words[0] == "spe"]
        self.placed: List[Placed] = []
        self.sources: List[Tuple[int, int, str]] = []  # line, processor, name
        for line in plan:
            if line.spe is not None:
                self.take(line.number, line.spe, line.words)

    def take(self, number: int, spe: int, words: Sequence[str]) -> None:
        if words[0] in ("code", "bytes"):
            self.placed.append(Placed(number, spe, int(words[1], 0), len(words[2]) // 2, words[0]))
        elif words[0] == "source":
            self.sources.append((number, spe, words[1]))

    def place(self, number: int, address: int) -> str:
        """An address that the line of a number has placed, with its name, if it has one."""
        name = "".join(label_at(source, address) for line, _, source in self.sources if line == number)
        return f"0x{address:05x}" + (f" ({name})" if name else "")


def label_at(source: str, address: int) -> str:
    """The name that a source has for an address; nothing where it has none, or its lines can't be placed."""
    try:
        return name_in(named_by_labels(source_labels(source_lines(source))), address)
    except Refused:
        return ""


def why_head(words: Sequence[str], seen: Seen) -> str:
    want = list(HEADS)[seen.heads]
    if words[0] != want:
        return f"`{want}` has to come here: the first three lines are `cell-machine 1`, `lines N` and `budget N`, in this order"
    if want == "cell-machine":
        return "the first line is `cell-machine 1`"
    return f"`{want}` takes one number from 1 to {HEADS[want]}"


def why_hex(word: str) -> Optional[str]:
    if word.startswith("0x"):
        return "bytes are hexadecimal digits without 0x"
    if not re.fullmatch("[0-9A-Fa-f]+", word) or len(word) % 2:
        return "bytes are an even number of hexadecimal digits"
    return "a line has at most 4,096 bytes" if len(word) > 8192 else None


def why_word(kind: str, word: str) -> Optional[str]:
    """What is wrong with one word of a line, by itself."""
    if kind == "HEX":
        return why_hex(word)
    if kind == "NAME":
        fits = len(word) <= 255 and re.fullmatch("[!-~]+", word)
        return None if fits else "a source's name has 1 to 255 characters of ASCII"
    if MACHINE_NUMBER.fullmatch(word) and number_of(word) is not None:
        return None
    labels = "; a label has no value here, tools/listing shows its address" if word[:1].isalpha() else ""
    return f"`{short(word)}` is no number: decimal without a leading zero or sign, or 0x and 1 to 8 digits" + labels


def why_range(name: str, value: Mapping[str, int], seen: Seen) -> Optional[str]:
    """What is wrong with the range of bytes that a line names."""
    size = value.get("N", value.get("HEX", 1))
    if name in ("code", "entry") and value["A"] % 4 or name == "code" and size % 4:
        return "the address has to be a multiple of 4" + (", and the number of bytes too" if name == "code" else "")
    if name == "host store" and (size > 16 or value["A"] % LINE + size > LINE):
        return "`host store` takes 1 to 16 bytes within one line of 128 bytes"
    is_memory = "mem" in name or name == "host store"
    if value["A"] + size > (seen.memory if is_memory else STORE):
        whole = f"main memory, {seen.memory} bytes (`lines`)" if is_memory else "the local store, 262,144 bytes"
        return f"the range ends outside {whole}"
    return None if 1 <= size <= 4096 else "a range has 1 to 4,096 bytes"


def number_in_word(kind: str, word: str) -> int:
    """The number that an accepted word of a line has, of bytes and names how long they are."""
    return len(word) // 2 if kind == "HEX" else len(word) if kind == "NAME" else int(word, 0)


def hint_of_form(name: str, form: Sequence[str], count: int) -> str:
    """What is to be known of a line's form, behind the form itself."""
    if name in OF_SIGNALS:
        return f": {OF_SIGNALS[name]}"
    if name == "source" and count > len(form):
        return "; a name has no blanks"
    return "; the bytes have no blanks between them" if "HEX" in form and count > len(form) else ""


def why_machine_line(words: Sequence[str], seen: Seen) -> Optional[str]:
    """What is wrong with a line of a machine file, behind the first three, in words."""
    name = " ".join(words[:2]) if words[0] in ("host", "show") else words[0]
    if name not in LINES:
        return f"no line begins with `{short(name)}`; lines are: {', '.join(LINES)}"
    arguments, form = words[name.count(" ") + 1 :], LINES[name].split()
    if len(arguments) != len(form):
        return f"the form is `{' '.join([name, *form])}`{hint_of_form(name, form, len(arguments))}"
    for kind, word in zip(form, arguments):
        if why := why_word(kind, word):
            return why
    value = {kind: number_in_word(kind, word) for kind, word in zip(form, arguments)}
    if name in ("code", "bytes", "source", "entry") and seen.spe < 0:
        return f"`{name}` has to follow a `spe` line"
    if value.get("P", -1) > seen.spe:
        return f"there is no processor {value['P']}: {seen.counts['spe']} `spe` lines come before, counted from 0"
    if value.get("R", 1) not in (1, 2):
        return f"there is no signal register {value['R']}: each processor has 1 and 2"
    if why := why_range(name, value, seen) if "A" in value else None:
        return why
    if name == "entry" and seen.spe in seen.entries:
        return "a processor has one `entry`"
    most = MOST_LINES.get(words[0], 0)
    return f"there are at most {most} lines of `{words[0]}`" if seen.counts.get(words[0]) == most else None


def words_of(line: bytes) -> List[str]:
    return re.findall(r"[^ \t]+", in_latin(line).split("#")[0])


class MachineFile:
    """A machine file, of which the faulty lines are mended one after the other."""

    END = b"end-of-the-file"  # begins no line, so that the program stops there at the latest

    def __init__(self, data: bytes) -> None:
        self.lines = data.split(b"\n")
        if self.lines[-1] == b"":
            self.lines.pop()
        self.seen, self.taken = Seen(), 0

    def faults(self) -> Iterator[Tuple[Optional[int], str]]:
        """Each faulty line's number with the reason, in order."""
        while True:
            _, _, said = cell_of("run", [*self.lines, self.END], ".cell")
            found = re.fullmatch(r"machine file, line (\d+)", said)
            if not found:
                yield None, said
                return
            number = int(found[1])
            self.take(number - 1)
            if number > len(self.lines):
                if self.seen.heads < len(HEADS) or self.seen.spe < 0:
                    yield number, "the file ends too early: `cell-machine 1`, `lines N`, `budget N` and one `spe` are required"
                return
            yield number, self.mended(number - 1)
            if not self.goes_on:
                return

    def take(self, end: int) -> None:
        for at in range(self.taken, end):
            if words := words_of(self.lines[at]):
                self.seen.take(words)
        self.taken = max(self.taken, end)

    def mended(self, at: int) -> str:
        """Takes the fault out of a line; what it was."""
        line, self.goes_on = self.lines[at], True
        if line.startswith(b"\xef\xbb\xbf"):
            self.lines[at] = line[3:]
            return "the file begins with a byte order mark: save it without"
        if line.endswith(b"\r"):
            self.lines = [other.rstrip(b"\r") for other in self.lines]
            return "lines end with CR LF: a machine file has LF alone, `tr -d '\\r'` takes the others away"
        words = words_of(line)
        if self.seen.heads < len(HEADS):
            want = list(HEADS)[self.seen.heads]
            self.goes_on = words[0] == want
            self.lines[at] = f"{want} {HEADS[want]}".encode()
            return why_head(words, self.seen)
        why = why_machine_line(words, self.seen) or "the line is outside the form"
        is_spe = words[0] == "spe" and self.seen.spe + 1 < MOST_LINES["spe"]
        self.lines[at] = b"spe" if is_spe else b""
        return why

    def plan(self) -> Sequence[PlanLine]:
        """What the lines say, now that the faulty ones are mended; nothing where they aren't all."""
        try:
            return plan_of(b"\n".join(self.lines))
        except Refused:
            return ()

    def whole(self) -> str:
        """What the program says of the file when all its lines and sources are in order."""
        at = [at for at, line in enumerate(self.lines) if words_of(line)][2]
        _, _, said = cell_of("run", [*self.lines[:at], b"budget 1", *self.lines[at + 1 :]], ".cell")
        return said


def image_ranges(name: str) -> Iterator[Tuple[int, int]]:
    """Address and size of each range of a source's image."""
    for words in map(str.split, cell("asm", name)[1].splitlines()):
        if words[0] in ("code", "bytes"):
            yield int(words[1], 16), len(words[2]) // 2


def source_places(placing: Placing, explained: Mapping[str, bool]) -> List[Placed]:
    """What the lines of a machine file place, those of sources with their images, in the order of the lines."""
    places = list(placing.placed)
    for number, spe, name in placing.sources:
        if explained.get(name):
            places += [Placed(number, spe, start, size, "source") for start, size in image_ranges(name)]
    return sorted(places, key=lambda place: place.line)


class Stores:
    """Which line placed each byte first, in the store of each processor."""

    def __init__(self) -> None:
        self.lines: DefaultDict[int, List[int]] = collections.defaultdict(lambda: [0] * STORE)

    def cover(self, place: Placed) -> Optional[Tuple[int, int]]:
        """Takes a place in: the first line before it that placed one of its bytes, and the address of the first such byte; None where there is none."""
        number, spe, start, size, _ = place
        lines = self.lines[spe]
        there = lines[start : start + size]
        lines[start : start + size] = [before or number for before in there]
        first = min(filter(None, there), default=number)
        return (first, start + there.index(first)) if first < number else None


def machine_warnings(placing: Placing, places: Iterable[Placed]) -> Iterator[Tuple[int, str]]:
    stores = Stores()
    told: Set[int] = set()
    for place in places:
        covered = stores.cover(place)
        if covered and place.kind != "bytes" and place.line not in told:
            told.add(place.line)
            linker = " (each source begins at 0, and nothing is linked)" if place.kind == "source" else ""
            yield place.line, f"covers {placing.place(*covered)}, which line {covered[0]} has placed: the later stays{linker}"
    filled = {place.spe for place in places} | {spe for _, spe, _ in placing.sources}
    for spe, number in enumerate(placing.begun):
        if spe not in filled:
            yield number, f"nothing is placed in the store of processor {spe}, which stops at once with 0"


def placed_at(said: str, places: Iterable[Placed]) -> Optional[int]:
    """The number of the line that placed the word which the program names, if it names one."""
    found = re.match(r"processor (\d+), 0x([0-9a-f]+)", said)
    if not found:
        return None
    spe, address = int(found[1]), int(found[2], 16)
    lines = [place.line for place in places if place.spe == spe and place.start < address + 4 and address < place.start + place.size]
    return lines[-1] if lines else None


def refusal_of(said: str, placing: Placing, places: Iterable[Placed]) -> Tuple[Optional[int], str]:
    """What the program says of a whole machine file, in words, and the number of the line that it means, if it means one."""
    found = re.search(r"source (\d+)", said)
    if found and int(found[1]) < len(placing.sources):
        number, _, source = placing.sources[int(found[1])]
        return number, f"{said}: it is `{source}`"
    line = placed_at(said, places)
    return line, f"{said}: the word spells no instruction" if line else said


def source_text(source: str) -> bytes:
    """The text of a source; Refused where there is none."""
    try:
        if not stat.S_ISREG(os.stat(source).st_mode):
            raise Refused(f"`{source}` is no regular file, and isn't read")
        return bytes_of(source)
    except FileNotFoundError:
        quotes = ", without quotes" if source[:1] in ("'", '"') else ""
        raise Refused(f"there is no file `{source}`: names are relative to the current folder{quotes}") from None
    except OSError as why:
        raise Refused(f"`{source}`: {why.strerror}") from None


def explain_sources(name: str, placing: Placing, report: Report) -> Dict[str, bool]:
    """Explains each source that a machine file names; for each whether it has an image."""
    explained: Dict[str, bool] = {}
    for number, _, source in placing.sources:
        if source in explained:
            continue
        explained[source] = False
        try:
            text = source_text(source)
        except Refused as why:
            report.fault(f"{name}:{number}", str(why))
            continue
        if len(text) > MOST_BYTES:
            report.fault(source, f"the file is too long: `cell` reads at most {MOST_BYTES:,} bytes")
        else:
            explained[source] = explain_source(source, text, report)
    return explained


def explain_machine(name: str, data: bytes, report: Report) -> None:
    file, before = MachineFile(data), report.refusals
    for count, (number, words) in enumerate(file.faults(), 1):
        report.fault(f"{name}:{number}" if number else name, words)
        if count == MOST:
            report.fault(name, f"only the first {MOST} faulty lines are printed")
            break
    placing = Placing(file.plan())
    explained = explain_sources(name, placing, report)
    places = source_places(placing, explained)
    said = file.whole() if report.refusals == before else ""
    if said:
        number, words = refusal_of(said, placing, places)
        report.fault(f"{name}:{number}" if number else name, words)
    for number, words in sorted(machine_warnings(placing, places), key=lambda found: found[0]):
        report.warning(f"{name}:{number}", words)
