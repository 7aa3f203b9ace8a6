"""Hints for words that are no form of ./cell or ./hunt."""
import re
from typing import Dict, Optional, Sequence, Tuple

from celltools.common.texts import MOST_NUMBER
from celltools.hint.calls import FORMS, HUNT, NEAR_FORM, Call, Hint, hunt_words, joined, near

NUMBER = re.compile(r"0|[1-9][0-9]*", re.A)
SEED = 0, 2**64 - 1
RUNS = 1, 1_000_000
RUN = 0, MOST_NUMBER
OPTIONS: Dict[str, Tuple[int, int]] = {"--runs": RUNS, "--time": RUNS, "--seed": SEED, "--from": RUN, "--jobs": (1, 256)}
WARN = ("print", "none", "error")
PLACES = {"each": ("RUNS", "SEED"), "record": ("K", "SEED")}
RANGES = {"RUNS": RUNS, "SEED": SEED, "K": RUN}
CELL_HELP, HUNT_HELP = "./cell --help lists the forms", "./hunt --help lists the forms and their options"


def why_number(name: str, word: str, least: int, most: int) -> Optional[str]:
    """Returns what is wrong with a number of a command line, nothing if it is right. Its decimal digits are those that the programs read."""
    if NUMBER.fullmatch(word) and len(word) <= len(str(most)) and least <= int(word) <= most:
        return None
    return f"{name} is a decimal number from {least} to {most} without a leading zero, and not '{word}'"


def misused_cell(words: Sequence[str]) -> str:
    """Returns what is wrong with words that are no form of ./cell."""
    form, *given = words
    names = FORMS.get(form)
    if names is None:
        return joined(f"there is no form '{form}'", near(form, list(FORMS), NEAR_FORM))
    if len(given) != len(names):
        return f"'{form}' takes {' '.join(names)}, and here {' '.join(given) or 'nothing'} follows it"
    return why_number(names[-1], given[-1], 0, MOST_NUMBER) or f"'{' '.join(words)}' is no form"


def misused_hunt(words: Sequence[str]) -> str:
    """Returns what is wrong with words that are no form of ./hunt."""
    places, options = hunt_words(words)
    for option, value in options:
        if option == "--time" and NUMBER.fullmatch(value.removesuffix("s")):
            value = value.removesuffix("s")
        if option in OPTIONS and (why := why_number(f"the value of {option}", value, *OPTIONS[option])):
            return why
        if option == "--warn" and value not in WARN:
            return joined(f"the value of --warn is {', '.join(WARN[:-1])} or {WARN[-1]}, and not '{value}'", near(value, list(WARN)))
    form = places[1] if len(places) > 1 else ""
    names, given = (PLACES[form], places[2:]) if form in PLACES else (PLACES["each"], places[1:])
    if names is PLACES["each"] and given[:1] == [form] and not NUMBER.match(form):
        return joined(f"'{form}' is neither a number of runs nor 'each' nor 'record'", near(form, list(PLACES), NEAR_FORM))
    for name, word in zip(names, given):
        if why := why_number(name, word, *RANGES[name]):
            return why
    if form == "record" and not given:
        return "'record' takes the number K of a run"
    if len(given) > len(names):
        return f"unexpected argument '{given[len(names)]}'"
    return "an option is given twice, or doesn't go with this form"


def misused(call: Call) -> Hint:
    """Returns the hint for words that are no form."""
    if call.program == HUNT:
        return Hint(joined(misused_hunt(call.words), HUNT_HELP))
    return Hint(joined(misused_cell(call.words), CELL_HELP))
