"""The completions of shells, each from its file here, whose places `@NAME@` are filled in."""
import pathlib
from typing import Dict, Iterator, List, Tuple

from celltools.usage.reading import Text
from celltools.usage.table import FOLDER, MACHINE, PROGRAMS, SOURCE, TEXT, Program
from celltools.usage.words import forms_of, options_of

HERE = pathlib.Path(__file__).parent
NAMES = " ".join(program.name for program in PROGRAMS)
END_OF_OPTIONS = "--"
OF_ZSH = {MACHINE: "_files -g '*.cell'", SOURCE: "_files -g '*.[sS]'", FOLDER: "_files -/", TEXT: " "}
OF_FISH = {MACHINE: "-xa '(__cell_files \\\\.cell)'", SOURCE: "-xa '(__cell_files \\\\.[sS])'", FOLDER: "-xa '(__fish_complete_directories)'", TEXT: "-x"}


def filled(name: str, **places: str) -> str:
    """A file of this folder with its places filled in."""
    text = (HERE / name).read_text(encoding="utf-8")
    for place, value in places.items():
        text = text.replace(f"@{place}@", value)
    return text


def quoted(text: str) -> str:
    """A text as a word of a shell."""
    return "'" + text.replace("'", "'\\''") + "'"


def forms_text(program: Program) -> List[str]:
    return [" ".join(form) for form in forms_of(program)]


# ---- bash

def bash() -> str:
    return filled("cell.bash", TABLE="\n".join(case for program in PROGRAMS for case in bash_case(program)), NAMES=NAMES)


def bash_case(program: Program) -> Iterator[str]:
    options = options_of(program)
    values = " ".join(f"[{name}]={quoted(' '.join(kinds))}" for name, kinds in options.items() if kinds)
    yield f"    {program.name})"
    yield f"        options={quoted(' '.join(options))}{' first=yes' if program.are_first else ''}"
    if values:
        yield f"        values=({values})"
    yield f"        forms=({' '.join(map(quoted, forms_text(program)))})"
    yield "        ;;"


# ---- zsh

def zsh(texts: Dict[str, Text]) -> str:
    return filled("cell.zsh", TABLE="\n".join(case for program in PROGRAMS for case in zsh_case(program, texts[program.path])), NAMES=NAMES)


def zsh_case(program: Program, text: Text) -> Iterator[str]:
    yield f"{program.name})"
    yield f"    forms=({' '.join(map(quoted, forms_text(program)))})"
    values = " ".join(f"{option} {len(kinds)}" for option, kinds in options_of(program).items() if kinds)
    if values:
        yield f"    values=({values})"
    yield "    options=("
    for option, kinds, meaning in described(program, text):
        actions = "".join(f":{kind}:{OF_ZSH.get(kind, '_files')}" for kind in kinds)
        alone = "(- *)" if program.are_first else ""
        yield f"        {quoted(f'{alone}{option}[{zsh_text(meaning)}]{actions}')}"
    yield "    )"
    yield "    ;;"


def zsh_text(text: str) -> str:
    """A meaning within the brackets of _arguments."""
    return text.replace("\\", "\\\\").replace("[", "\\[").replace("]", "\\]").replace(":", "\\:")


def described(program: Program, text: Text) -> Iterator[Tuple[str, Tuple[str, ...], str]]:
    """Each option, in each spelling, with the kinds of its values and its meaning."""
    meanings = {name.split()[0]: meaning for item, meaning in text.meanings().items() for name in item.split(", ")}
    for option, kinds in options_of(program).items():
        if option != END_OF_OPTIONS:
            yield option, kinds, meanings.get(option, "")


# ---- fish

def fish(texts: Dict[str, Text]) -> str:
    forms = [line for program in PROGRAMS for line in fish_case(program.name, forms_text(program))]
    values = [line for program in PROGRAMS for line in fish_case(program.name, [name for name, kinds in options_of(program).items() for _ in kinds])]
    completes = [line for program in PROGRAMS for line in fish_lines(program, texts[program.path])]
    return filled("cell.fish", FORMS="\n".join(forms), VALUES="\n".join(values), COMPLETES="\n".join(completes))


def fish_case(name: str, texts: List[str]) -> Iterator[str]:
    if texts:
        yield f"        case {name}"
        yield f"            printf '%s\\n' {' '.join(map(quoted, texts))}"


def fish_lines(program: Program, text: Text) -> Iterator[str]:
    yield f"complete -c {program.name} -f"
    yield f"complete -c {program.name} -k -a '(__cell_words {program.name})'"
    for option, kinds, meaning in described(program, text):
        name = f"-l {option[2:]}" if option.startswith("--") else f"-s {option[1:]}"
        value = f" {OF_FISH.get(kinds[0], '-rF')}" if kinds else ""
        yield f"complete -c {program.name} {name}{value} -d {fish_quoted(meaning)}"


def fish_quoted(text: str) -> str:
    return "'" + text.replace("\\", "\\\\").replace("'", "\\'") + "'"
