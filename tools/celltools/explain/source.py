"""Explains what `cell` refuses in a source, all faulty lines at once, and warns of what is accepted and probably wrong."""
import functools
import re
from typing import Collection, Dict, Iterable, Iterator, List, Optional, Sequence, Set, Tuple

from celltools.explain.report import MOST, Report, cell_of, in_latin, short
from celltools.source.channels import VALUES
from celltools.source.gas import refused_lines
from celltools.source.gas_words import ALIGNING, DROPPED, SETS, by_its_case, why_no_directive, why_no_instruction
from celltools.source.language import CHANNEL, DATA, FORMS, NAME, NUMBER, REGISTER, RELATIVE_FORMS, SECTIONS, SKIPPED, STORE, STRINGS
from celltools.source.language import cut, is_text_section, number_in, operand_forms, without_comments

OPERANDS = operand_forms()
KINDS = {
    "BadChar": "a byte that begins no token, a string or comment that its line doesn't end, or an escape other than "
    '\\n \\t \\r \\\\ \\" and octal digits up to 377',
    "BadNumber": "a word that begins with a digit and isn't a number: decimal without a leading zero, or 0x",
    "UnknownName": "no mnemonic of the integer part, and no directive of the language",
    "BadDirective": "other arguments than the directive's own",
    "BadOperand": "operands of another form than the mnemonic's",
    "Twice": "an earlier line, or this one, defines the label already",
    "NotMultiple": "an address that isn't a multiple of 4",
    "Overlap": "`.org` goes back below the present address",
    "OutsideStore": "the line ends above the local store, 262,144 bytes; what follows isn't checked",
    "Undefined": "no line defines the label (there is no linker)",
    "OutOfRange": "a value outside its range",
}
REWRITTEN = {*ALIGNING, *SETS, *DROPPED, *".zero .comm .lcomm .half .fill .previous .pushsection .popsection hbrp syncc".split()}  # by from_gas
LABELS = re.compile(r"\s*((?:[A-Za-z_.][\w.]*\s*:\s*)*)(.*)", re.S | re.A)
WORD = re.compile(r"[\w.$]+")
CLOSED = re.compile(r'"[^"\\]*(?:\\.[^"\\]*)*("?)')  # a string, and whether something closes it
MOST_KEPT = 100_000
BY_TOOL = "; tools/from_gas rewrites it"
BY_TOOL_OTHERS = "; tools/from_gas works out others"
OR_BY_TOOL = ", or use tools/from_gas"


@functools.lru_cache(maxsize=MOST_KEPT)  # all lines are gone through for each one that is faulty
def labels_and_statement(line: bytes) -> Tuple[List[str], str]:
    """The labels of a line, and its statement without comments."""
    found = LABELS.fullmatch(without_comments(in_latin(line)))
    labels, statement = found.groups() if found else ("", "")
    return [label.strip() for label in labels.split(":")[:-1]], statement.strip()


def first_word(statement: str) -> str:
    found = WORD.match(statement)
    return found[0] if found else ""


def labels_before(lines: Iterable[bytes]) -> Set[str]:
    return {label for line in lines for label in labels_and_statement(line)[0]}


class SourceLines:
    """The lines of a source, of which the faulty ones are mended one after the other."""

    def __init__(self, lines: Iterable[bytes]) -> None:
        self.lines = list(lines)
        self.tries: Dict[int, int] = {}

    def mend(self, at: int, kind: str) -> bool:
        """Takes the fault out of a line, so that the lines behind it can be judged; False where that can't be done.

        Labels stay, and so does the place that an instruction or data take, as far as that is possible.
        """
        self.tries[at] = self.tries.get(at, 0) + 1
        if self.tries[at] > 3 or kind == "OutsideStore":
            return False
        line = self.lines[at]
        if kind == "BadChar" and opens_comment(line):
            self.drop_comment(at)
            return True
        labels, statement = labels_and_statement(line)
        if kind == "Twice":
            known = labels_before(self.lines[:at])
            kept = [label for number, label in enumerate(labels) if label not in known | set(labels[:number])]
        else:
            kept, statement = labels, self.place_holder(at, statement)
        self.lines[at] = ("".join(f"{label}:" for label in kept) + statement).encode("latin1")
        return True

    def place_holder(self, at: int, statement: str) -> str:
        """Something that takes the same place, or nothing where that was refused too."""
        word = first_word(statement)
        if self.tries[at] > 1:
            return ""
        if word in (".comm", ".lcomm"):
            name = NAME.match(statement[len(word) :].strip())
            return f"{name[0]}:" if name else ""
        if word in DATA:
            return f"{word} " + ",".join("0" for _ in cut(statement, ","))
        return "" if word.startswith(".") or "=" in statement else "lnop"

    def drop_comment(self, at: int) -> None:
        """Empties a comment of several lines, as far as it goes."""
        self.lines[at] = self.lines[at].partition(b"/*")[0]
        for later in range(at + 1, len(self.lines)):
            _, end, rest = self.lines[later].partition(b"*/")
            self.lines[later] = rest
            if end:
                return


def opens_comment(line: bytes) -> bool:
    """Whether a comment begins in the line and doesn't end there."""
    return "/*" in without_comments(in_latin(line))


def source_faults(lines: Iterable[bytes]) -> Iterator[Tuple[Optional[int], str]]:
    """Each faulty line of a source as its index and the kind of its fault, in the program's order."""
    source = SourceLines(lines)
    told: Set[Tuple[int, str]] = set()
    while True:
        status, _, said = cell_of("asm", source.lines, ".s")
        found = re.fullmatch(r"source 0, line (\d+): (\w+)", said)
        if not found:
            if status:
                yield None, said
            return
        at, kind = int(found[1]) - 1, found[2]
        if (at, kind) not in told:
            told.add((at, kind))
            yield at, kind
        if not source.mend(at, kind):
            return


def why_character(line: bytes) -> Optional[str]:
    text = in_latin(line)
    if opens_comment(line):
        return "a comment of several lines: end it with */ on each line" + BY_TOOL
    code = without_comments(text)
    bare = CLOSED.sub(lambda found: "" if found[1] else found[0], code)
    strange = [byte for byte in bare if byte not in "\t\r " and not "!" <= byte <= "~"]
    if strange:
        byte = f"the byte 0x{ord(strange[0]):02x}"
        return f"{byte} begins no token: outside strings and comments, only ASCII characters are allowed"
    if '"' in bare:
        return "a string that its line doesn't end"
    if escape := re.search(r'\\(?:[4-7][0-7]{2}|[^ntr\\"0-7])', re.sub(r'\\[ntr\\"]', "", code)):
        return f"the escape {escape[0]} isn't \\n, \\t, \\r, \\\\, \\\" or one to three octal digits up to 377" + BY_TOOL
    return None


def why_number(statement: str) -> Optional[str]:
    for word in re.findall(r"(?<![\w.$])\d\w*", statement):
        if number_in(word) is not None:
            continue
        if NUMBER.fullmatch(word):
            return f"`{short(word)}` has more than 64 bits"
        if re.fullmatch(r"\d+[bf]", word):
            return f"`{short(word)}`: there are no numeric labels" + BY_TOOL
        if re.fullmatch(r"0\d+", word):
            return f"`{short(word)}`: a number has no leading zero, and none is octal" + BY_TOOL
        other = BY_TOOL if re.fullmatch(r"0[bB][01]+|0X[0-9A-Fa-f]+", word) else ""
        return f"`{short(word)}` is no number: decimal without a leading zero, or 0x{other}"
    return None


def why_name(statement: str) -> str:
    word = first_word(statement)
    if re.match(r"\d+\s*:", statement):
        return "there are no numeric labels" + BY_TOOL
    if statement.startswith(word) and re.match(r"\s*=", statement[len(word) :]):
        return "names have no values but labels" + BY_TOOL
    if word.lower() in OPERANDS or word.lower() in SECTIONS | SKIPPED | STRINGS | set(DATA):
        return f"`{word}`: mnemonics and directives are written in small letters"
    if word.lower() in REWRITTEN:
        return f"`{word}` is no word of the language" + BY_TOOL
    directive = by_its_case(word)
    if directive.startswith(".") and not word.startswith("."):
        return f"`{word}`: a directive begins with a dot" + BY_TOOL
    return why_no_directive(directive) if directive.startswith(".") else why_no_instruction(word.lower())


def why_directive(statement: str, in_text: bool) -> Optional[str]:
    word = first_word(statement)
    small = word in STRINGS or word in DATA and DATA[word][0] < 4
    if small and in_text:
        return f"`{word}` is for data only: put it after .data or another section"
    if word in (".align", ".p2align"):
        return f"`{word}` takes one number, the power of two, from 0 to 12"
    if word in (".org", ".skip", ".space"):
        return f"`{word}` takes one number without a sign"
    if word in STRINGS:
        return f"`{word}` takes one string" + (BY_TOOL if "," in statement else "")
    if word in DATA:
        return f"`{word}` takes expressions with commas between: a number, a label, label+number or label-number"
    if word in SECTIONS:
        return f"`{word}` takes " + ("a name" if word == ".section" else "nothing")
    return None


def why_operand(statement: str) -> Optional[str]:
    word = first_word(statement)
    if word not in OPERANDS:
        return None
    form = FORMS[OPERANDS[word]][0]
    return f"`{word}` takes {form}" + hint_of_operands(statement[len(word) :], form)


def hint_of_operands(rest: str, form: str) -> str:
    """What is probably wrong with operands, behind the form that they should have."""
    known = re.compile(f"{REGISTER.pattern}|{CHANNEL.pattern}", re.A)
    strange = [name for name in re.findall(r"\$\w*", rest) if not known.fullmatch(name)]
    if form == "a register or nothing":
        return BY_TOOL
    if strange and "channel" in form:
        return "; a channel is $ch0 to $ch127, or a number up to 127" + BY_TOOL
    if strange:
        return f"; `{strange[0]}` is no register: they are $0 to $127, $lr and $sp"
    if re.search(r"(?<![\w.])\.(?![\w.])", rest):
        return "; `.` is no address: put a label on the line" + OR_BY_TOOL
    if rest.count(",") == form.count(",") and re.search("disp|imm|addr|code", form):
        expression = "a number, a label, label+number or label-number, with @h or @l after a label"
        return f"; an expression is {expression}{BY_TOOL_OTHERS}"
    return ""


def why_value(kind: str, statement: str) -> Optional[str]:
    """Of a value that isn't a multiple, or is outside its range."""
    word = first_word(statement)
    if word in DATA:
        return f"a number of `{word}` is from {DATA[word][1]}"
    if word.startswith("."):
        return f"in the text, what `{word}` names is a multiple of 4"
    form = OPERANDS.get(word)
    if form is None:
        return None
    if kind == "OutOfRange":
        return f"the value of `{word}` is from {FORMS[form][1]}"
    in_data = "in data, an instruction has to be at a multiple of 4"
    if form == "RtDisplacementRa":
        return f"disp is a multiple of 16; {in_data}"
    return f"addr is a multiple of 4; {in_data}" if "addr" in FORMS[form][0] else in_data


def why_undefined(statement: str, defined: Collection[str]) -> Optional[str]:
    rest = statement[len(first_word(statement)) :]
    missing = [name for name in re.findall(r"(?<![\w.$@])[A-Za-z_.][\w.]*", rest) if name not in defined]
    if "." in missing:
        return "`.` is no address: put a label on the line" + OR_BY_TOOL
    if missing and VALUES.keys() >= set(missing):
        return f"`{missing[0]}` is a name of spu_mfcio.h, for {VALUES[missing[0]]:#x}: this language has no such names" + BY_TOOL
    names = ", ".join(f"`{name}`" for name in dict.fromkeys(missing))
    return f"no line defines {names} (there is no linker: one source is the whole program)" if names else None


def why_source_line(lines: Sequence[bytes], at: int, kind: str, in_text: Sequence[bool], defined: Collection[str]) -> str:
    """What is wrong with a line of a source, in words."""
    labels, statement = labels_and_statement(lines[at])
    why: Optional[str] = None
    if kind == "BadChar":
        why = why_character(lines[at])
    elif kind == "BadNumber":
        why = why_number(statement)
    elif kind == "UnknownName":
        why = why_name(statement)
    elif kind == "BadDirective":
        why = why_directive(statement, in_text[at])
    elif kind == "BadOperand":
        why = why_operand(statement)
    elif kind == "Undefined":
        why = why_undefined(statement, defined)
    elif kind in ("NotMultiple", "OutOfRange"):
        why = why_value(kind, statement)
    elif kind == "Twice":
        first = next((n for n, line in enumerate(lines[:at]) if set(labels) & set(labels_and_statement(line)[0])), at)
        why = f"line {first + 1} defines the label already"
    return why if why else KINDS.get(kind, kind)


def without_hints(words: str) -> str:
    """Words about a line without the advice to have it rewritten."""
    for hint in (BY_TOOL, BY_TOOL_OTHERS, OR_BY_TOOL):
        words = words.replace(hint, "")
    return words


def text_lines(lines: Iterable[bytes]) -> List[bool]:
    """For each line, whether it stands in the text."""
    answer: List[bool] = []
    in_text = True
    for line in lines:
        answer.append(in_text)
        _, statement = labels_and_statement(line)
        word = first_word(statement)
        if word in SECTIONS:
            in_text = is_text_section(word, statement[len(word) :])
    return answer


RIGHT_SHIFTS = {"rothmi": 32, "rotmi": 64, "rotmahi": 32, "rotmai": 64, "rotqmbyi": 32, "rotqmbii": 8}  # counts, modulo


def line_warnings(statement: str) -> Iterator[str]:
    """What of a statement is accepted and probably wrong."""
    word = first_word(statement)
    operands = [part.strip() for part in cut(statement[len(word) :], ",")]
    last = number_in(operands[-1])
    if last is None:
        return
    if word in RIGHT_SHIFTS and 0 < last < 64:
        yield f"`{word}` takes the negated count: this shifts right by {-last % RIGHT_SHIFTS[word]}, and -{last} by {last}"
    if OPERANDS.get(word) in RELATIVE_FORMS:
        yield f"a bare number is an address here; for GNU as it is a distance, `.+{last}`"
    if word == "ila" and operands[0] in ("$sp", "$1") and (last & ~15) + 16 >= STORE:
        yield "a called function saves its link at 16($sp), which is above the store and so at 0 again: use 0x3ffd0"


def source_warnings(lines: Sequence[bytes]) -> Iterator[Tuple[int, str]]:
    labels = labels_before(lines)
    for at, line in enumerate(lines):
        for words in line_warnings(labels_and_statement(line)[1]):
            yield at, words
    if not any(labels_and_statement(line)[1] for line in lines):
        yield 0, "there is no statement in this source: it places nothing, and its processor stops at once with 0"
    if "main" in labels and "_start" not in labels:
        yield 0, "`main` without `_start`: the program begins at address 0, and `main` returns there"


def explain_source(name: str, data: bytes, report: Report) -> bool:
    """Explains one source; whether the program has an image of it."""
    lines = data.split(b"\n")
    in_text, defined, count = text_lines(lines), labels_before(lines), 0
    refused = refused_lines(name, in_latin(data))
    for at, kind in source_faults(lines):
        count += 1
        if at is None:
            report.fault(name, kind)
        elif count > MOST:
            report.fault(name, f"only the first {MOST} faulty lines are printed")
            break
        else:
            words = why_source_line(lines, at, kind, in_text, defined)
            words = without_hints(words) if at + 1 in refused else words
            report.fault(f"{name}:{at + 1}", f"{kind}: {words}", in_latin(lines[at]).strip())
    for at, words in sorted(source_warnings(lines), key=lambda found: found[0]):
        report.warning(f"{name}:{at + 1}", words)
    return count == 0
