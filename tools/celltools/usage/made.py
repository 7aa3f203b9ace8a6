"""The files that are made of the table and the usage texts, and how both differ."""
import concurrent.futures
from typing import Dict, Iterator

from celltools.usage.manual import page_of
from celltools.usage.reading import Text, text_of
from celltools.usage.shells import bash, fish, zsh
from celltools.usage.table import PROGRAMS, Program

COMPLETIONS, PAGES = "share/completions", "share/man/man1"


def texts() -> Dict[str, Text]:
    """The usage texts of all programs, by their paths."""
    paths = [program.path for program in PROGRAMS]
    with concurrent.futures.ThreadPoolExecutor(2) as pool:
        return dict(zip(paths, pool.map(text_of, paths)))


def files(found: Dict[str, Text]) -> Dict[str, str]:
    """Each file by its name from the root."""
    shells = {"cell.bash": bash(), "_cell": zsh(found), "cell.fish": fish(found)}
    pages = {f"{program.name}.1": page_of(program, found[program.path]) for program in PROGRAMS}
    return {**{f"{COMPLETIONS}/{name}": text for name, text in shells.items()}, **{f"{PAGES}/{name}": text for name, text in pages.items()}}


def differences(found: Dict[str, Text]) -> Iterator[str]:
    """How the table differs from the usage texts, which have the same forms and options."""
    for program in PROGRAMS:
        text = found[program.path]
        forms = tuple(form for form, _ in text.usage)
        if forms != program.usage:
            yield f"{program.path} --help has the forms {forms}, and the table {program.usage}"
        yield from different_options(program, text)


def different_options(program: Program, text: Text) -> Iterator[str]:
    meant = {first(item): item for item in text.meanings()}
    known = {first(option): option for option in program.options}
    for name in sorted({*meant, *known}):
        if name not in known:
            yield f"{program.path} --help has the option {meant[name]}, and the table hasn't"
        elif name not in meant:
            yield f"the table has the option {known[name]} of {program.path}, and --help hasn't"
        elif not meant[name].split(", ")[-1].startswith(known[name].split(", ")[-1]):
            yield f"{program.path} --help has the option {meant[name]}, and the table {known[name]}"


def first(option: str) -> str:
    """The last spelling of an option, without its values."""
    return option.split(", ")[-1].split()[0]
