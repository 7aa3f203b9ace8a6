"""The names of a function: which are its own, what JavaScript calls them, and the variables that its translation needs besides."""
import ast
from typing import Iterator, List, Optional, Set

# Words of JavaScript that Python lets one use as a name.
RESERVED = set("arguments await case catch const debugger default delete do enum eval export extends function implements instanceof interface let new null "
               "package private protected public static switch this throw true false typeof undefined var void".split())
SCOPES = (ast.FunctionDef, ast.Lambda, ast.ClassDef, ast.ListComp, ast.SetComp, ast.DictComp, ast.GeneratorExp)
COMPREHENSIONS = (ast.ListComp, ast.SetComp, ast.DictComp, ast.GeneratorExp)


class Untranslated(Exception):
    """What the translation doesn't have, with its line."""

    def __init__(self, node: ast.AST, what: str) -> None:
        super().__init__(f"{what} has no translation: write it otherwise, or add it to tools/celltools/translation")
        self.line = getattr(node, "lineno", 0)


def js_name(name: str) -> str:
    return f"{name}$" if name in RESERVED else name


class Scope:
    """A function, a class or a module as it is translated."""

    def __init__(self, owner: Optional[str] = None, self_name: Optional[str] = None) -> None:
        self.owner, self.self_name = owner, self_name  # the class whose method it is, and what the method calls its object
        self.extra: List[str] = []
        self.loops: List[Optional[str]] = []  # of the loops around, the label of what a `break` leaves, where that isn't the loop alone

    def fresh(self) -> str:
        """A variable that no name of Python is."""
        self.extra.append(f"$v{len(self.extra)}")
        return self.extra[-1]

    def within(self) -> "Scope":
        """The scope of a function within."""
        return Scope(self.owner, self.self_name)


def own_nodes(body: List[ast.stmt]) -> Iterator[ast.AST]:
    """The nodes of statements but for those of functions and classes within; of these the node itself. A walrus in a comprehension counts as outside."""
    stack: List[ast.AST] = list(reversed(body))
    while stack:
        node = stack.pop()
        yield node
        if isinstance(node, COMPREHENSIONS):
            yield from (part for part in ast.walk(node) if isinstance(part, ast.NamedExpr))
        elif not isinstance(node, SCOPES):
            stack += reversed(list(ast.iter_child_nodes(node)))


def names_bound(node: ast.AST) -> Iterator[str]:
    """The names that a node binds by itself."""
    if isinstance(node, ast.Name) and isinstance(node.ctx, ast.Store):
        yield node.id
    elif isinstance(node, ast.NamedExpr):
        yield node.target.id
    elif isinstance(node, (ast.FunctionDef, ast.ClassDef)):
        yield node.name
    elif isinstance(node, ast.ExceptHandler) and node.name:
        yield node.name
    elif isinstance(node, (ast.Import, ast.ImportFrom)):
        yield from (alias.asname or alias.name.partition(".")[0] for alias in node.names)


def bound_in(body: List[ast.stmt]) -> List[str]:
    """The names that statements bind, in their order."""
    given: Set[str] = {name for node in own_nodes(body) if isinstance(node, (ast.Nonlocal, ast.Global)) for name in node.names}
    return [name for name in dict.fromkeys(name for node in own_nodes(body) for name in names_bound(node)) if name not in given]
