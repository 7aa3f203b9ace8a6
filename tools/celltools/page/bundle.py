"""Puts the page's JavaScript modules into one script: each is a function that answers what it exports, those that it imports before it."""
import pathlib
import re
from typing import Dict, List

IMPORT = re.compile(r"^import (?:\{([^}]*)\}|\* as (\w+)) from '([^']+)';\n", re.M)
DECLARED = re.compile(r"^export (?:async )?(?:function\*?|const|class) ([\w$]+)", re.M)
LISTED = re.compile(r"^export \{([^}]*)\};\n", re.M)
COMMENT = re.compile(r"^\s*(?://.*|/\*\*(?:[^*]|\*(?!/))*\*/)\n", re.M)


class Unmade(Exception):
    """Why the page can't be made."""


def short_name(path: pathlib.Path, root: pathlib.Path) -> str:
    return "$" + re.sub(r"\W", "_", str(path.relative_to(root).with_suffix("")))


def exported(text: str) -> List[str]:
    """The names that a module exports."""
    names = DECLARED.findall(text)
    for listed in LISTED.findall(text):
        names += [name.strip() for name in listed.split(",") if name.strip()]
    return list(dict.fromkeys(names))


def names_taken(names: str) -> str:
    """The names of an import as JavaScript takes parts of an object."""
    return ", ".join(re.sub(r"(\w+) as (\w+)", r"\1: \2", name.strip()) for name in names.split(",") if name.strip())


class Bundle:
    """A script of modules."""

    def __init__(self, root: pathlib.Path) -> None:
        self.root = root
        self.parts: Dict[pathlib.Path, str] = {}
        self.open: List[pathlib.Path] = []

    def add(self, path: pathlib.Path) -> None:
        """Adds a module behind those that it imports."""
        path = path.resolve()
        if path in self.open:
            raise Unmade(f"{path}: it imports itself, over {' and '.join(map(str, self.open))}")
        if path in self.parts:
            return
        self.open.append(path)
        self.parts[path] = self.wrapped(path, path.read_text(encoding="utf-8"))
        self.parts[path] = self.parts.pop(path)  # behind its imports
        self.open.pop()

    def wrapped(self, path: pathlib.Path, text: str) -> str:
        """A module as a function."""
        taken = []
        for names, whole, other in IMPORT.findall(text):
            self.add(path.parent / other)
            self.refuse_absent(path, names, (path.parent / other).resolve())
            source = short_name((path.parent / other).resolve(), self.root)
            taken.append(f"const {whole} = {source};" if whole else f"const {{ {names_taken(names)} }} = {source};")
        code = re.sub(r"^export (?=(?:async )?(?:function|const|class))", "", LISTED.sub("", IMPORT.sub("", text)), flags=re.M)
        if re.search(r"^(?:import|export)\b", code, re.M):
            raise Unmade(f"{path}: an import or export of a form that tools/celltools/page/bundle.py doesn't know")
        return (f"const {short_name(path, self.root)} = (() => {{\n" + "".join(f"{line}\n" for line in taken) + COMMENT.sub("", code)
                + f"return {{ {', '.join(exported(text))} }};\n}})();\n")

    def refuse_absent(self, path: pathlib.Path, names: str, other: pathlib.Path) -> None:
        """Refused where a module imports what another doesn't export."""
        wanted = {name.split(" as ")[0].strip() for name in names.split(",") if name.strip()}
        absent = wanted - set(exported(other.read_text(encoding="utf-8")))
        if absent:
            raise Unmade(f"{path}: {other.name} exports no {', '.join(sorted(absent))}, or not at the beginning of a line")

    @property
    def text(self) -> str:
        return "".join(self.parts.values())


def bundled(root: pathlib.Path, *entries: str) -> str:
    """The script of some modules, by their names within a folder, and of all that they import."""
    bundle = Bundle(root.resolve())
    for entry in entries:
        bundle.add(root / entry)
    return bundle.text
