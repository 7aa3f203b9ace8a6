"""What the table's texts mean: the options of a program with the kinds of their values, and the words of each form by their places."""
import itertools
import re
from typing import Dict, Iterator, List, Tuple

from celltools.usage.table import KINDS, ONE_OF, Program

ANY_NUMBER = ".."  # ends a word of which there may be any number
LITERAL = "="  # begins a word that is typed as it is
IN_BRACKETS = re.compile(r"\[-[^\]]*\]|\[OPTION\.\.\]|[<>]\S+")  # options and redirections, which have no place
CHOICE = re.compile(r"\(([^)]*)\)")

Form = Tuple[str, ...]  # for each place `=WORD`, or the kind of the word; the last may end with `..`


def options_of(program: Program) -> Dict[str, Tuple[str, ...]]:
    """The options of a program, each spelling with the kinds of its values."""
    found: Dict[str, Tuple[str, ...]] = {}
    for text in program.options:
        *others, last = text.split(", ")
        name, *values = last.split()
        for spelling in (*others, name):
            found[spelling] = tuple(KINDS[value] for value in values)
    return found


def forms_of(program: Program) -> List[Form]:
    """The forms of a program without its options."""
    options = options_of(program)
    found: List[Form] = []
    for line in (*program.usage, *program.tails):
        for text in alternatives(IN_BRACKETS.sub("", line)):
            for form in itertools.product(*places(text.split(), options)):
                if form and form not in found:
                    found.append(form)
    return [form for form in found if not is_general(form, found)]


def is_general(form: Form, forms: List[Form]) -> bool:
    """Whether other forms say which words follow the first one of a form."""
    return len(form) == 2 and form[1].endswith(ANY_NUMBER) and any(other[0] == form[0] and other != form for other in forms)


def alternatives(text: str) -> Iterator[str]:
    """The texts that a text with choices stands for: `(A|B) C`, or `A | B`."""
    choice = CHOICE.search(text)
    if choice is None:
        yield from text.split(" | ")
        return
    for word in choice[1].split("|"):
        yield text.replace(choice[0], word, 1)


def places(words: List[str], options: Dict[str, Tuple[str, ...]]) -> Iterator[List[str]]:
    """What may be at each place of a form, without its options and their values."""
    values = 0
    for word in words:
        plain = word.strip("[]")
        if values:
            values -= 1
        elif plain in options:
            values = len(options[plain])
        else:
            yield kinds_of(plain)


def kinds_of(word: str) -> List[str]:
    name, more = (word[: -len(ANY_NUMBER)], ANY_NUMBER) if word.endswith(ANY_NUMBER) else (word, "")
    if name in ONE_OF:
        return [f"{LITERAL}{choice}" for choice in ONE_OF[name]]
    return [f"{KINDS[name]}{more}"] if name in KINDS else [f"{LITERAL}{name}"]
