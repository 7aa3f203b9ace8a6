"""The tools' modules in JavaScript, and the files that they read."""
import ast
import json
import pathlib
from typing import Dict, Iterator

from celltools.common.repository import ROOT
from celltools.page.bundle import Unmade
from celltools.translation.scopes import Untranslated
from celltools.translation.statements import module_code

TOOLS = ("explain", "picture", "states", "witness")  # those that the page asks
LEFT = {f"celltools.common.{name}" for name in ("starting", "ending", "words", "writing")}  # for which page/python/runtime.js stands
READ = ("crates/spu_decode/specs/Table.antt", "tools/celltools/picture/picture.css", "tools/celltools/picture/picture.html")  # and picture's scripts


def imported(tree: ast.Module) -> Iterator[str]:
    """The modules of the tools that a module may import, also within a function."""
    for node in ast.walk(tree):
        if isinstance(node, ast.ImportFrom) and node.module:
            yield from (node.module, *(f"{node.module}.{alias.name}" for alias in node.names))
        elif isinstance(node, ast.Import):
            yield from (alias.name for alias in node.names)


def file_of(name: str) -> pathlib.Path:
    """Where a module stands: a tool, or a module of the package."""
    return ROOT / "tools" / name if name in TOOLS else (ROOT / "tools" / name.replace(".", "/")).with_suffix(".py")


def modules() -> Dict[str, str]:
    """The tools and all modules that they import, with their texts."""
    found: Dict[str, str] = {}
    waiting = list(TOOLS)
    while waiting:
        name = waiting.pop()
        if name in found or name in LEFT or not (name in TOOLS or name.startswith("celltools.")) or not file_of(name).is_file():
            continue
        found[name] = file_of(name).read_text(encoding="utf-8")
        waiting += imported(ast.parse(found[name]))
    return dict(sorted(found.items()))


def translation() -> Iterator[str]:
    """The modules in JavaScript."""
    for name, text in modules().items():
        file = str(file_of(name).relative_to(ROOT))
        try:
            yield module_code(name, file, text)
        except Untranslated as why:
            raise Unmade(f"{file}:{why.line}: {why}") from None


def read_files() -> Dict[str, str]:
    """The files that the tools read, by the names under which they do."""
    scripts = sorted(str(path.relative_to(ROOT)) for path in (ROOT / "tools" / "celltools" / "picture").glob("*.js"))
    return {name: (ROOT / name).read_text(encoding="utf-8") for name in (*READ, *scripts)}


def script_of(code: str) -> str:
    """A script of translated modules, behind page/python."""
    return "{\nconst { $ } = $python_runtime;\nconst { " + ", ".join(sorted(BUILTINS)) + " } = $.builtins;\n" + code + "}\n"


def python_script() -> str:
    """The script that keeps the tools' modules."""
    kept = "".join(f"$python_runtime.keep({json.dumps('/cell/' + name)}, {json.dumps(text)});\n" for name, text in read_files().items())
    return script_of("".join(translation()) + kept)


BUILTINS = set(
    "BaseException Exception LookupError OSError ValueError TypeError KeyError IndexError StopIteration FileNotFoundError NotADirectoryError "
    "IsADirectoryError PermissionError FileExistsError MemoryError KeyboardInterrupt NotImplementedError AttributeError RecursionError len str list tuple "
    "bool set frozenset dict int bytes bytearray isinstance range map filter enumerate zip reversed iter next any all sum sorted min max print getattr repr "
    "abs chr ord slice hasattr type object divmod callable float id open".split())
