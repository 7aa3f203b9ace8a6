"""Reads the docstrings and signatures of the Python package's public names, without importing it."""
import ast
import dataclasses
import re
from typing import Dict, Iterator, List, Optional, Tuple, Union

from celltools.common.repository import ROOT

PACKAGE = ROOT / "c" / "cell"
SECTION = re.compile(r"(Arguments|Example|Returns|Raises):(?: (.*))?")
ONE_LINE_FEED = re.compile(r"(?<!\n)\n(?!\n)")
ITEM = re.compile(r"(\w+): (.*)")
Definition = Union[ast.FunctionDef, ast.ClassDef]


@dataclasses.dataclass
class Described:
    """A docstring in its parts."""
    text: str = ""
    arguments: List[Tuple[str, str]] = dataclasses.field(default_factory=list)
    example: List[str] = dataclasses.field(default_factory=list)
    returned: str = ""
    raised: List[Tuple[str, str]] = dataclasses.field(default_factory=list)


def public() -> List[str]:
    """The names that the package exports, in their order."""
    tree = ast.parse((PACKAGE / "__init__.py").read_text(encoding="utf-8"))
    listed = next(node.value for node in tree.body if isinstance(node, ast.Assign) and ast.unparse(node.targets[0]) == "__all__")
    return [str(name) for name in ast.literal_eval(listed)]


def definitions() -> Dict[str, Definition]:
    """The functions and classes of the package's modules, by their names."""
    found: Dict[str, Definition] = {}
    for path in sorted(PACKAGE.glob("*.py")):
        for node in ast.parse(path.read_text(encoding="utf-8")).body:
            if isinstance(node, (ast.FunctionDef, ast.ClassDef)):
                found[node.name] = node
    return found


def aliases() -> Dict[str, str]:
    """The names of types in signatures, with what they stand for."""
    found = {}
    for name in ("arguments.py", "calls.py"):
        for node in ast.parse((PACKAGE / name).read_text(encoding="utf-8")).body:
            if isinstance(node, ast.Assign) and ast.unparse(node.value).startswith(("Union[", "Mapping[")):
                found[ast.unparse(node.targets[0])] = ast.unparse(node.value).replace("'", "")
    return found


def described(node: Definition) -> Described:
    """The parts of a docstring: its text, and the sections with their items."""
    found = Described()
    title: Optional[str] = None
    for line in (ast.get_docstring(node) or "").splitlines():
        section = SECTION.fullmatch(line)
        if section:
            title = section[1]
            found.returned += section[2] or "" if title == "Returns" else ""
        elif title is None:
            found.text += f"{line}\n"
        elif line:
            add(found, title, line.strip())
    found.text = ONE_LINE_FEED.sub(" ", found.text.strip())
    return found


def add(found: Described, title: str, line: str) -> None:
    """Adds a line to a section."""
    item = ITEM.fullmatch(line)
    if title == "Example":
        found.example.append(line)
    elif title == "Returns":
        found.returned += f" {line}"
    elif item:
        (found.arguments if title == "Arguments" else found.raised).append((item[1], item[2]))


def parameters(node: ast.FunctionDef) -> Iterator[Tuple[str, str, str]]:
    """Each parameter with its type and its default, if there is one."""
    defaults = [*[None] * (len(node.args.args) - len(node.args.defaults)), *node.args.defaults]
    for argument, default in zip(node.args.args, defaults):
        kind = ast.unparse(argument.annotation) if argument.annotation else ""
        yield argument.arg, kind, "" if default is None else ast.unparse(default)


def fields(node: ast.ClassDef) -> Iterator[Tuple[str, str]]:
    """The fields of a class with their types."""
    for part in node.body:
        if isinstance(part, ast.AnnAssign) and not ast.unparse(part.target).isupper():
            yield ast.unparse(part.target), ast.unparse(part.annotation)


def properties(node: ast.ClassDef) -> Iterator[Tuple[str, str, str]]:
    """The properties of a class with their types and texts."""
    for part in node.body:
        if isinstance(part, ast.FunctionDef) and any(ast.unparse(mark) == "property" for mark in part.decorator_list):
            yield part.name, ast.unparse(part.returns) if part.returns else "", ast.get_docstring(part) or ""
