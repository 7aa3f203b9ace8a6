"""Rewrites sources of GNU as for SPUs, a compiler's or hand-written, in the language of docs/reference/assembler.md: statement by statement."""
import collections
import itertools
import re
from typing import Counter, Dict, List, Match, NamedTuple, Optional, Sequence, Set, Tuple, Union

from celltools.common.texts import shown
from celltools.source.channels import VALUES, channel_named
from celltools.source.gas_expressions import ATOM, CHARACTERS, NUMERIC_LABEL, Expression, Known, Unwritable, Value, combined
from celltools.source.gas_source import Source, Statement
from celltools.source.gas_words import ALIGNING, DROPPED, LAST_REGISTER, LAZY, REGISTERS, SETS, why_absent, why_no_directive, why_no_instruction
from celltools.source.language import CHANNEL, DATA, FORMS, NAME, NUMBER, PIECE, REGISTER, RELATIVE_FORMS, SECTIONS, STORE, STRINGS
from celltools.source.language import cut, is_text_section, operand_forms

OF_SECTIONS = SECTIONS | {".pushsection", ".popsection", ".previous"}
RENAMED = {".zero": ".space", ".half": ".hword", "hbrp": "lnop", "syncc": "sync"}
OF_REGISTERS = ("rt", "ra", "rb", "rc")
SHORT_NUMBER = re.compile(r"[0-9]{1,9}")
WITHOUT_DISPLACEMENT = re.compile(rf"\(\s*(?:\$.*|{'|'.join(REGISTERS)})\s*\)", re.S | re.I)
WORD_BYTES = 4
ONES = {1: 0x01010101, 2: 0x00010001, 4: 1}  # which repeat one, two or four bytes in a word
MOST_SHOWN, FAR = 40, 20  # characters of a statement in a message, and how many times as many are looked at
MOST_REPEATS = 4096
MOST_ALIGNED = 12
MOST_FILLED = 8  # bytes of what a `.fill` repeats
MOST_WORKED_OUT = 50_000  # values of names that later lines set: they are worked out again where names that they need are set again

Section = Tuple[str, str]  # the word that begins it, and its name and flags
Address = Tuple[int, int]  # how often it was changed to one that isn't known, and the bytes behind that
Placed = Tuple[bool, int, int]  # of a label: whether it stands in the text, and its address
Common = Tuple[int, int, str]  # its size, the power of two of its alignment, and where it comes from


class Fault(NamedTuple):
    """A statement that can't be rewritten: the line of the text, where it comes from, and why."""
    at: int
    place: str
    reason: str


def length(lines: Sequence[str]) -> int:
    """How many bytes lines of the language take, those that change the address apart."""
    return sum(map(line_length, lines))


def line_length(line: str) -> int:
    word, _, rest = line.strip().partition("\t")
    if word in DATA:
        return DATA[word][0] * (rest.count(",") + 1)
    if word in STRINGS:
        return len(re.findall(r"\\[0-7]{1,3}|\\.|.", rest[1:-1], re.S)) + (word != ".ascii")
    if word == ".space":
        return int(rest)
    return 0 if word.startswith(".") or word.endswith(":") or not word else 4


class Writer(Known):
    """Rewrites the statements of one source after the other.

    An earlier writer of the same sources, where there is one, tells the places of labels and the values of names that
    later lines define. A place is whether the label stands in the text, how often the address there was changed to one
    that isn't known here, and the bytes behind that.
    """

    def __init__(self, sources: Sequence[Source], earlier: Optional["Writer"]) -> None:
        self.sources, self.earlier = sources, earlier
        self.places: Dict[str, Placed] = {}
        self.values: Dict[Tuple[int, str], Value] = {}  # by the number of the source, and the name
        self.addresses: Dict[bool, Address] = {True: (0, 0), False: (0, 0)}  # of the text and of the data
        self.current: Section = (".text", "")  # the section that the lines so far end in
        self.forms = operand_forms()
        self.lines: List[str] = []
        self.faults: List[Fault] = []
        self.commons: Dict[str, Common] = {}
        self.left_to_work_out = MOST_WORKED_OUT
        self.notes: List[str] = []  # for each line where it comes from, and its comment
        self.names: Set[str] = set().union(*(source.labels | source.kept_local | source.shared for source in sources))
        counts = collections.Counter(
            name for source in sources for name in source.labels | source.kept_local | source.shared
        )
        self.endings = [
            {name: self.fresh(f"{name}.{number}") for name in source.own() if counts[name] > 1}
            for number, source in enumerate(sources)
        ]

    def fresh(self, name: str) -> str:
        """The name, or a longer one that no source has; it is taken from then on."""
        while name in self.names:
            name += "_"
        self.names.add(name)
        return name

    def write(self) -> None:
        for number, source in enumerate(self.sources):
            self.begin(number, source)
            for line, statements_of in itertools.groupby(source.statements, lambda entry: entry[0]):
                self.line, first = line, len(self.lines)
                for _, self.column, statement in statements_of:
                    before = len(self.lines)
                    self.checked(statement)
                    self.note_origin(before)
                self.add_comment(first)
        self.place_commons()

    def checked(self, statement: Statement) -> None:
        try:
            self.statement(statement)
        except Unwritable as why:
            reason = str(why)
            shown_text = "" if "`" in reason else f": `{cut_short(f'{statement.word} {statement.rest}')}`"
            self.faults.append(Fault(self.line, self.place_in_source(), reason + shown_text))

    def place_in_source(self) -> str:
        """Where a statement comes from: with its column where several stand on the line, and the line is as its author wrote it."""
        name, line = self.source.origin(self.line)
        return f"{name}:{line}" + (f":{self.column}" if self.column and not self.source.has_marks_before(self.line) else "")

    def origin(self) -> str:
        """The same as a comment says it."""
        return in_comment(self.place_in_source())

    def note_origin(self, before: int) -> None:
        """Says of the lines from a place on where they come from."""
        self.notes += [""] * (before - len(self.notes))
        self.notes += [self.origin()] * (len(self.lines) - len(self.notes))

    def add_comment(self, first: int) -> None:
        """Keeps the comment of a line, behind the first line that was written for it, or on one of its own where none was."""
        said = self.source.comments.get(self.line, "")
        if len(self.lines) == first:
            if not said or self.section[1].startswith(".debug"):
                return
            self.lines.append("")
            self.notes += [""] * (len(self.lines) - len(self.notes))
        self.notes[first] = f"{self.notes[first]} {said}".strip()

    def text(self) -> str:
        """What was written, each line with where it comes from."""
        noted = itertools.zip_longest(self.lines, self.notes, fillvalue="")
        return "".join(f"{line}\t# {note}\n" if line and note else f"# {note}\n" if note else f"{line}\n" for line, note in noted)

    def begin(self, number: int, source: Source) -> None:
        """Each source begins in the text, with its own numeric labels and sets."""
        self.source, self.ending, self.line, self.column = source, self.endings[number], 1, 0
        self.section: Section = (".text", "")
        self.previous, self.number = self.section, number
        self.stack: List[Tuple[Section, Section]] = []  # each with the one before it
        # a value of its place holds from its line on, every other in the lines before too
        self.sets: Dict[str, Union[str, Value]] = {name: value for name, value in source.sets.items() if not is_of_its_place(value)}
        self.open_sets: Set[str] = set()
        self.worked_out: Dict[str, Value] = {}  # the values of names on which others may rest, as they were when they were looked up
        self.lazy: Dict[str, str] = {}  # what `.eqv` gave names
        self.counts: Counter[str] = collections.Counter()
        self.numeric: Dict[Tuple[str, int], str] = {}
        self.here: Optional[str] = None
        self.lines += self.changed_section()

    # Names and expressions

    def renamed(self, name: str) -> str:
        if not NAME.fullmatch(name):
            raise Unwritable(f"`{name}` is not a name")
        return self.ending.get(name, name)

    def place(self) -> Placed:
        in_text = is_text_section(*self.section)
        return in_text, *self.addresses[in_text]

    def distance(self, left: str, right: str) -> int:
        """How many bytes the first label stands behind the second."""
        if not self.earlier:
            return 0
        one, two = (self.earlier.places.get(name) for name in (left, right))
        if one is None or two is None or one[:2] != two[:2]:
            raise Unwritable(f"the distance of `{left}` and `{right}` is not known: both must be in the same section, without `.org` between them")
        return one[2] - two[2]

    def numeric_label(self, digits: str, count: int) -> str:
        """The label that stands for the numeric label of these digits that is defined as the count-th."""
        key = (digits, count)
        if key not in self.numeric:
            self.numeric[key] = self.fresh(f".L{digits}_{count}.{self.number}")
        return self.numeric[key]

    def look_up(self, word: str, depth: int = 1) -> Value:
        """The value of a name, also of one of spu_mfcio.h that no source defines, of `.`, or of a numeric label such as 1b.

        `depth` is 1 where a statement has the word, and more where the value of another name needs it.
        """
        if found := NUMERIC_LABEL.fullmatch(word):
            count = self.counts[found[1]] + (found[2] == "f")
            if count == 0:
                raise Unwritable(f"no earlier line defines label {found[1]}")
            return Value(self.numeric_label(found[1], count), 0)
        if word == ".":
            self.here = self.here or self.fresh(f".Lhere{len(self.lines)}")
            self.places[self.here] = self.place()
            return Value(self.here, 0)
        if word in self.lazy:
            return self.evaluated(word, self.lazy[word], depth)
        if word in self.sets or word in self.source.sets:
            return self.set_value(word, depth)
        if word in VALUES and word not in self.names:
            return Value(None, VALUES[word])
        absent = None if word in self.names else why_absent(word)
        if absent:
            raise Unwritable(absent)
        return Value(self.renamed(word), 0)

    def set_value(self, name: str, depth: int) -> Value:
        """The value of a name that a line sets, before or behind this one."""
        value = self.sets.get(name)
        if value is None:
            value = self.later_value(name)
        elif isinstance(value, str):
            value = self.worked_out[name] if name in self.worked_out else self.work_out(name, value, depth)
        if depth > 1:
            self.worked_out[name] = value
        return value

    def work_out(self, name: str, text: str, depth: int) -> Value:
        """The value that a later line gives a name."""
        self.worked_out[name] = self.evaluated(name, text, depth)
        return self.worked_out[name]

    def evaluated(self, name: str, text: str, depth: int) -> Value:
        """The value that an expression gives a name now."""
        if name in self.open_sets:
            raise Unwritable(f"the value of `{name}` depends on itself")
        self.left_to_work_out -= 1
        if self.left_to_work_out < 0:
            raise Unwritable(f"more than {MOST_WORKED_OUT} values depend on names that later lines set")
        self.open_sets.add(name)
        try:
            return Expression(text, self, depth).value()
        finally:
            self.open_sets.discard(name)

    def later_value(self, name: str) -> Value:
        """The value to which a later line sets a name."""
        if not self.earlier:
            return Value(None, 0)
        if (self.number, name) not in self.earlier.values:
            raise Unwritable(f"`{name}` is used before it is set")
        return self.earlier.values[self.number, name]

    def constant(self, text: str, what: str) -> int:
        value = Expression(text, self).value()
        if value.name or value.number < 0:
            raise Unwritable(f"{what} must be a number that is not negative: `{cut_short(text)}`")
        return value.number

    def expression(self, text: str, is_distance: bool = False) -> str:
        """An expression as the language writes it: a number, a label, or a label with a number added."""
        text = text.strip()
        half = re.search(r"@[hl]$", text)
        value = Expression(text[: half.start()] if half else text, self).value()
        if value.name is None and is_distance:
            value = combined("+", value, self.look_up("."))
        if value.name is None:
            number = value.number
            if half:
                number = number >> 16 if half[0] == "@h" else number & 0xFFFF
            return text if NUMBER.fullmatch(text) else str(number)
        return f"{value.name}{value.number:+d}"[: None if value.number else -2] + (half[0] if half else "")

    def register(self, text: str) -> str:
        """A register, with `$` or without: a number, a name, or an expression that has no label."""
        bare = text.removeprefix("$").strip()
        if bare.lower() in REGISTERS:
            return REGISTERS[bare.lower()]
        value = Value(None, int(bare)) if SHORT_NUMBER.fullmatch(bare) else Expression(bare, self).value()
        if value.name or not 0 <= value.number <= LAST_REGISTER:
            raise Unwritable(f"`{text}` is not a register: write $0 to ${LAST_REGISTER}, $lr or $sp")
        return f"${value.number}"

    def displaced(self, text: str) -> str:
        """A displacement, and a register in parentheses."""
        at = last_group(text)
        if at is None or not (at or WITHOUT_DISPLACEMENT.fullmatch(text)):
            return self.operand(text, "", False)
        return f"{self.expression(text[:at] or '0')}({self.register(text[at + 1 : -1].strip())})"

    def channel(self, text: str) -> str:
        """A channel, by its name or its number."""
        number = channel_named(text)
        if number is not None:
            return f"$ch{number}"
        absent = why_absent(text)
        if absent:
            raise Unwritable(absent)
        return self.expression(text.removeprefix("$"))

    def operand(self, text: str, kind: str, is_distance: bool) -> str:
        """An operand of some kind, as the forms of the instruction table name them."""
        if kind == "channel":
            return self.channel(text)
        if kind in OF_REGISTERS:
            return self.register(text)
        if kind.endswith("(ra)"):
            return self.displaced(text)
        return text.lower() if text.startswith("$") else self.expression(text, is_distance)

    def operands(self, rest: str, form: str) -> List[str]:
        """The operands of an instruction, as many as there are."""
        kinds = itertools.chain(FORMS[form][0].split(","), itertools.repeat(""))
        return [self.operand(part.strip(), kind, form in RELATIVE_FORMS) for part, kind in zip(cut(rest, ","), kinds)]

    # Statements

    def statement(self, statement: Statement) -> None:
        labels = ""
        for label in statement.labels:
            if label.isdecimal():
                self.counts[label] += 1
                label = self.numeric_label(label, self.counts[label])
            else:
                label = self.renamed(label)
            self.places[label] = self.place()
            labels += f"{label}:"
        if self.section[1].startswith(".debug") and statement.word not in OF_SECTIONS:
            return
        self.here, before = None, self.section
        lines = self.rewritten(RENAMED.get(statement.word.lower(), statement.word), statement.rest)
        if self.here:
            labels += f"{self.here}:"
        if self.section == before:
            self.move(lines)
        if labels and lines and not lines[0].startswith("\t."):
            lines[0] = labels + lines[0]
        elif labels:
            self.lines.append(labels)
        self.lines += lines

    def move(self, lines: Sequence[str]) -> None:
        """Moves the address of the section behind lines."""
        in_text, changes, address = self.place()
        word, _, rest = lines[0].strip().partition("\t") if lines else ("", "", "")
        if word == ".align":
            size = 1 << max(int(rest), 2 if in_text else 0)
            address = -(-address // size) * size
            changes += not in_text and int(rest) > 7  # the data begin at a multiple of 128
        elif word == ".org":
            address, changes = int(rest), changes + 1
        self.addresses[in_text] = changes, address + length(lines)

    def rewritten(self, word: str, rest: str) -> List[str]:
        """The lines of the language that stand for a statement."""
        if not word.startswith("."):
            return self.instruction(word.lower(), rest) if word else []
        if word in OF_SECTIONS:
            return self.section_line(word, rest)
        if word in DATA or word in STRINGS:
            return self.data(word, rest)
        if word in SETS:
            return self.set_name(rest, word == LAZY)
        if word in (".comm", ".lcomm"):
            return self.common(word, rest)
        if word in ALIGNING:
            return self.alignment(word, rest)
        if word in (".space", ".skip", ".fill"):
            return self.filling(word, rest)
        if word == ".org":
            self.refuse_beyond(word, address := self.constant(rest, "the address"))
            return [f"\t.org\t{address}"]
        if word in DROPPED or word.startswith(".cfi_"):
            return []
        raise Unwritable(why_no_directive(word))

    def instruction(self, word: str, rest: str) -> List[str]:
        form = self.forms.get(word)
        if form is None:
            raise Unwritable(self.reason_against(word))
        if form in ("OptionalRegister", "Bare"):
            return [f"\t{word}"]
        if form == "Code" and not rest:
            rest = "0"
        operands = self.operands(rest, form)
        if not fits_form(operands, FORMS[form][0].split(",")):
            raise Unwritable(f"`{word}` takes {FORMS[form][0]}, not `{cut_short(rest)}`")
        return [f"\t{word}\t{','.join(operands)}"]

    def reason_against(self, word: str) -> str:
        """Why a word isn't rewritten that is no instruction: it may be a macro of the source."""
        if word not in self.source.macros:
            return why_no_instruction(word)
        name, line = self.source.origin(self.source.macros[word])
        return f"`{word}` is the macro of {name}:{line}, but macros are not supported"

    def section_line(self, word: str, rest: str) -> List[str]:
        """Changes the section."""
        previous = self.section
        if word == ".previous":
            chosen = self.previous
        elif word == ".popsection":
            if not self.stack:
                raise Unwritable("`.popsection` without an earlier `.pushsection`")
            chosen, previous = self.stack.pop()
        elif word == ".pushsection":
            self.stack.append((self.section, self.previous))
            chosen = section_named(rest)
        elif word == ".section":
            chosen = section_named(rest)
        elif rest in ("", "0"):
            chosen = word, ""
        else:
            raise Unwritable("numbered subsections are not supported")
        self.previous, self.section = previous, chosen
        return self.changed_section()

    def changed_section(self) -> List[str]:
        """The line that changes to the section, where that isn't the present one; those of debugging are left out."""
        if self.section == self.current or self.section[1].startswith(".debug"):
            return []
        self.current = self.section
        return ["\t".join(("", *self.section)).rstrip()]

    def refuse_small(self, word: str) -> None:
        """Refuses what places fewer than four bytes, where it stands in the text."""
        if (word in STRINGS or DATA[word][0] < 4) and is_text_section(*self.section):
            raise Unwritable(f"`{word}` is not supported in text: place it after `.data`, or write `.long`")

    def data(self, word: str, rest: str) -> List[str]:
        self.refuse_small(word)
        if word in STRINGS:
            return [f"\t{word}\t{string(part.strip())}" for part in cut(rest, ",")]
        return [f"\t{word}\t{','.join(self.expression(part) for part in cut(rest, ','))}"]

    def set_name(self, rest: str, is_lazy: bool) -> List[str]:
        """Sets a name to a value, or to one that is worked out at each use, from here on; a name that is set to the present address is a label."""
        name, text = ([part.strip() for part in cut(rest, ",")] + [""])[:2]
        if is_lazy:
            self.lazy[name] = text
            self.worked_out.clear()
            return []
        if text == ".":
            self.places[self.renamed(name)] = self.place()
            return [f"{self.renamed(name)}:"]
        value = Expression(text, self).value()
        self.values.setdefault((self.number, name), value)
        if self.worked_out.get(name, value) != value:
            self.worked_out.clear()
        self.sets[name] = value
        return []

    def common(self, word: str, rest: str) -> List[str]:
        name, bytes_of, align = ([part.strip() for part in cut(rest, ",")] + ["", "16"])[:3]
        name, size = self.renamed(name), self.constant(bytes_of, "a size")
        self.refuse_beyond(word, size)
        power = power_of_two(self.constant(align or "16", "an alignment"))
        before = self.commons.get(name, (0, 0, self.origin()))
        self.commons[name] = (max(size, before[0]), max(power, before[1]), before[2])
        return []

    def alignment(self, word: str, rest: str) -> List[str]:
        power, fill, most = ([part.strip() for part in cut(rest, ",")] + ["", ""])[:3]
        number = self.constant(power or "0", "an alignment")
        if word.startswith(".balign"):
            number = power_of_two(number)
        if number > MOST_ALIGNED:
            raise Unwritable(f"the greatest alignment is 2^{MOST_ALIGNED}")
        if fill and is_text_section(*self.section):
            return self.filled_text(word, 1 << number, fill, most)
        self.refuse_padding(word, 1 << number, fill, most)
        return [f"\t.align\t{number}"]

    def filled_text(self, word: str, size: int, fill: str, most: str) -> List[str]:
        """The words of text up to a multiple of so many bytes: each has a value once, twice or four times, by the bytes that the directive fills with."""
        value, count = Expression(fill, self).value(), -self.place()[2] % max(size, WORD_BYTES)
        if value.name:
            raise Unwritable(f"`{word}`: text is padded with a number, not with `{fill}`")
        if not count or most and 0 < self.constant(most, "the most bytes of an alignment") < count:
            return []
        part = value.number % (1 << 8 * ALIGNING[word])
        return [f"\t.long\t{','.join([str(part * ONES[ALIGNING[word]])] * (count // WORD_BYTES))}"]

    def refuse_padding(self, word: str, size: int, fill: str, most: str) -> None:
        """Refuses in data a value to fill with other than 0, and an alignment that isn't made where it takes more than so many bytes."""
        if is_text_section(*self.section):
            return
        if fill and Expression(fill, self).value() != Value(None, 0):
            raise Unwritable(f"`{word}`: data is padded with zeros, not with `{fill}`: write the bytes with `.fill`")
        if most and 0 < self.constant(most, "the most bytes of an alignment") < size - 1:
            raise Unwritable(f"`{word}`: a limit of {most} bytes for the padding is not supported: leave the last number out")

    def filling(self, word: str, rest: str) -> List[str]:
        """Bytes of one value: as zeros that are skipped, or written out."""
        parts = [part.strip() for part in cut(rest, ",")]
        count = self.constant(parts[0], "a count")
        size = 1
        if word == ".fill":
            size = self.constant(parts[1], "a size") if len(parts) > 1 else 1
            parts = parts[1:]
        if size > MOST_FILLED:
            raise Unwritable(f"`{word}`: the number to repeat can have at most {MOST_FILLED} bytes, not {size}")
        value = Expression(parts[1], self).value() if len(parts) > 1 else Value(None, 0)
        self.refuse_beyond(word, self.place()[2] + count * size)
        if count == 0 or value == Value(None, 0):
            return [f"\t.space\t{count * size}"]
        words = {1: ".byte", 2: ".short", 4: ".long"}  # of a greater size GNU as takes four bytes of the value
        if value.name or size not in words or count > MOST_REPEATS:
            raise Unwritable(f"`{word}`: only up to {MOST_REPEATS:,} numbers of 1, 2 or 4 bytes are supported, not `{cut_short(rest)}`")
        self.refuse_small(words[size])
        return [f"\t{words[size]}\t{','.join([str(value.number)] * count)}"]

    def refuse_beyond(self, word: str, end: int) -> None:
        """Refuses what ends at an address that the local store hasn't, wherever its section begins."""
        if end > STORE:
            raise Unwritable(f"`{word}` goes beyond the end of the local store, {STORE:,} bytes")

    def place_commons(self) -> None:
        """What the sources hold in common and none defines stands behind all else."""
        defined = {self.endings[n].get(name, name) for n, source in enumerate(self.sources) for name in source.labels}
        commons = {name: sizes for name, sizes in self.commons.items() if name not in defined}
        if commons:
            self.lines.append("\t.bss")
        self.notes += [""] * (len(self.lines) - len(self.notes))
        for name, (size, power, origin) in commons.items():
            self.lines += [f"\t.align\t{power}", f"{name}:", f"\t.space\t{size}"]
            self.notes += [origin] * 3


def in_comment(name: str) -> str:
    """A file's name as the text of a source has it, which is read as bytes."""
    return shown(name).encode().decode("latin1")


def last_group(text: str) -> Optional[int]:
    """Where the parenthesis opens that the last character closes; None where it closes none."""
    opened: List[int] = []
    found = 0, 0
    for piece in PIECE.finditer(text):
        if piece[0] == "(":
            opened.append(piece.start())
        elif piece[0] == ")" and opened:
            found = opened.pop(), piece.end()
    return found[0] if found[1] == len(text) else None


def cut_short(text: str) -> str:
    """The first characters of a text."""
    text = " ".join(text[:FAR * MOST_SHOWN].split())
    return text if len(text) <= MOST_SHOWN else f"{text[:MOST_SHOWN]}.."


def is_of_its_place(value: str) -> bool:
    """Whether a value is another one on each line: it has `.` or a numeric label in it."""
    return any(word == "." or NUMERIC_LABEL.fullmatch(word) for word in ATOM.findall(value))


def fits_form(operands: Sequence[str], form: Sequence[str]) -> bool:
    """Whether operands are as many as a form has, with registers and channels where it has them."""
    return len(operands) == len(form) and all(map(fits_kind, operands, form))


def fits_kind(operand: str, kind: str) -> bool:
    if kind in ("rt", "ra", "rb", "rc"):
        return bool(REGISTER.fullmatch(operand))
    if kind == "channel":
        return bool(CHANNEL.fullmatch(operand))
    before, base, _ = operand.partition("(")
    if kind.endswith("(ra)") and not REGISTER.fullmatch(operand[len(before) + 1 : -1]):
        return False
    return not operand.startswith("$") and bool(base) == kind.endswith(")")


def section_named(rest: str) -> Section:
    """The section of a `.section` line; one that holds code under another name is a part of the text."""
    name, flags = ([part.strip().strip('"') for part in cut(rest, ",")] + [""])[:2]
    is_code = "x" in flags and not is_text_section(".section", name)
    return ".section", f".text.{name.lstrip('.')}" if is_code else name


def power_of_two(number: int) -> int:
    """Which power of two a number is."""
    if number < 1 or number & (number - 1):
        raise Unwritable(f"{number} is not a power of two")
    return number.bit_length() - 1


def string(text: str) -> str:
    """A string with the escapes of the language."""

    def escape(found: Match[str]) -> str:
        word = found[1]
        if word == "x":
            raise Unwritable("`\\x` without a hexadecimal digit")
        if word[0] == "x":
            return f"\\{int(word[1:], 16) & 0xFF:03o}"
        if word in ("b", "f"):
            return f"\\{CHARACTERS[word]:03o}"
        return found[0]

    if not re.fullmatch(r'"(?:\\.|[^"\\])*"', text, re.S):
        raise Unwritable("strings must be in double quotes and separated by commas")
    return re.sub(r"\\(x[0-9A-Fa-f]+|.)", escape, text, flags=re.S)


def written_after(sources: Sequence[Source], earlier: Optional[Writer]) -> Writer:
    """A writer of these sources that has written them, and knew the places and values of an earlier one."""
    writer = Writer(sources, earlier)
    writer.write()
    return writer


def written(sources: Sequence[Source]) -> Writer:
    """The writer of these sources that knew all places and values from an earlier one, which found the same."""
    writer = written_after(sources, None)
    for _ in range(3):
        earlier, writer = writer, written_after(sources, writer)
        if (writer.places, writer.values) == (earlier.places, earlier.values):
            break
    else:
        writer.faults.append(Fault(1, f"{sources[0].name}:1", "addresses and distances depend on each other"))
    return writer


def refused_lines(name: str, text: str) -> Set[int]:
    """The numbers of the lines of a source that can't be rewritten."""
    return {fault.at for fault in written([Source(name, text.replace("\r\n", "\n"))]).faults}
