"""The page docs/reference/python.md, of the docstrings of the Python package."""
import ast
from typing import Dict, Iterator, List, Sequence

from celltools.usage.docstrings import Definition, aliases, definitions, described, fields, parameters, properties, public

PAGE = "docs/reference/python.md"
HEAD = """# The Python package

This page lists the calls, objects and exceptions of the Python package `cell`. [Embedding](../guide/embedding.md#python) shows how to install it, with an example.

The calls below are made as `cell.NAME`. Each takes the files by their names, as texts or bytes. Only `files_of` reads the disk. Any thread may make a call, also while others do. The examples run in a clone of the repository.

`cell.__version__` is the version of the package, which is that of the programs.
"""
ERRORS = ("Error", "Misused", "Faulty", "LibraryMissing", "NoMemory", "NoRun", "NotRead", "Racy")


def page() -> str:
    known = definitions()
    names = [name for name in public() if name in known]
    calls = [name for name in names if isinstance(known[name], ast.FunctionDef)]
    errors = [name for name in names if name.endswith(ERRORS)]
    objects = [name for name in names if name not in calls and name not in errors]
    parts = [HEAD, "## Types", *types(), "## Calls", *(part for name in calls for part in call(known[name])),
             "## Objects", *(part for name in objects for part in kind(known[name])), "## Exceptions", *exceptions(known, errors)]
    return "\n".join(parts).rstrip("\n") + "\n"


def table(head: Sequence[str], rows: Sequence[Sequence[str]]) -> str:
    return "".join([f"| {' | '.join(head)} |\n", f"|{'---|' * len(head)}\n", *(f"| {' | '.join(row)} |\n" for row in rows)])


def code(text: str) -> str:
    return f"`{text}`".replace("|", "\\|")


def types() -> Iterator[str]:
    yield "Signatures use these names:\n"
    yield table(("name", "type"), [(code(name), code(meaning)) for name, meaning in aliases().items()])


def call(node: Definition) -> Iterator[str]:
    """A call: its signature, its arguments with their types, its result, and its exceptions."""
    assert isinstance(node, ast.FunctionDef)
    parts, given = described(node), list(parameters(node))
    meanings = dict(parts.arguments)
    shown = ", ".join(name if not default else f"{name}={default}" for name, _, default in given)
    result = ast.unparse(node.returns) if node.returns else ""
    yield f"### `{node.name}({shown})`"
    yield f"{parts.text}\n"
    yield table(("argument", "type", "meaning"), [(code(name), code(kind), meanings.get(name, "")) for name, kind, _ in given])
    yield f"Returns {code(result)}: {parts.returned}\n"
    if parts.raised:
        yield table(("exception", "if"), [(code(name), meaning) for name, meaning in parts.raised])
    if parts.example:
        yield "".join(f"    {line}\n" for line in parts.example)


def kind(node: Definition) -> Iterator[str]:
    """An object: its text, its fields and its properties."""
    assert isinstance(node, ast.ClassDef)
    rows: List[Sequence[str]] = [(code(name), code(meaning), "") for name, meaning in fields(node)]
    rows += [(code(name), code(meaning), text) for name, meaning, text in properties(node)]
    yield f"### `{node.name}`"
    yield f"{described(node).text}\n"
    if rows:
        yield table(("attribute", "type", "meaning"), rows) if any(row[2] for row in rows) else table(("attribute", "type"), [row[:2] for row in rows])


def exceptions(known: Dict[str, Definition], names: List[str]) -> Iterator[str]:
    yield table(("exception", "is a", "meaning"), [(code(name), bases(known[name]), described(known[name]).text.replace("\n", " ")) for name in names])


def bases(node: Definition) -> str:
    return ", ".join(code(ast.unparse(base)) for base in node.bases) if isinstance(node, ast.ClassDef) else ""
