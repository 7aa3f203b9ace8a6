"""The statements, functions, classes and modules of Python as JavaScript."""
import ast
from typing import Callable, Dict, Iterable, Iterator, List, Tuple, Union

from celltools.translation.expressions import BINARY, assign, expression, parameters, text, truth
from celltools.translation.scopes import Scope, Untranslated, bound_in, js_name, own_nodes

CAUGHT = "$caught"  # the variable of an exception


def block(body: List[ast.stmt], scope: Scope) -> str:
    return "\n".join(line for node in body for line in statement(node, scope))


def declared(names: List[str], scope: Scope) -> str:
    every = [*map(js_name, names), *scope.extra]
    return f"let {', '.join(every)};\n" if every else ""


def assignment(node: ast.Assign, scope: Scope) -> Iterator[str]:
    pairs = pairs_of(node.targets[0], node.value) if len(node.targets) == 1 else []
    if pairs:
        given = [(target, scope.fresh(), value) for target, value in pairs]
        yield " ".join(f"{name} = {expression(value, scope)};" for _, name, value in given)
        yield " ".join(assign(target, name, scope) for target, name, _ in given)
        return
    if len(node.targets) == 1:
        yield assign(node.targets[0], expression(node.value, scope), scope)
        return
    kept = scope.fresh()
    yield f"{kept} = {expression(node.value, scope)};"
    yield from (assign(target, kept, scope) for target in node.targets)


def pairs_of(target: ast.expr, value: ast.expr) -> List[Tuple[ast.expr, ast.expr]]:
    """Each part that is taken, with what is given for it; none where these aren't as many."""
    if not isinstance(target, ast.Tuple) or not isinstance(value, ast.Tuple) or len(target.elts) != len(value.elts):
        return []
    has_star = any(isinstance(part, ast.Starred) for part in target.elts + value.elts)
    return [] if has_star else list(zip(target.elts, value.elts))


def annotated(node: ast.AnnAssign, scope: Scope) -> Iterator[str]:
    if node.value:
        yield assign(node.target, expression(node.value, scope), scope)


def augmented(node: ast.AugAssign, scope: Scope) -> Iterator[str]:
    name, value = BINARY[type(node.op)], expression(node.value, scope)
    if isinstance(node.target, ast.Name):
        yield f"{js_name(node.target.id)} = $.within.{name}({js_name(node.target.id)}, {value});"
        return
    of, kept = expression(node.target.value, scope), scope.fresh()
    yield f"{kept} = {of};"
    if isinstance(node.target, ast.Attribute):
        yield f"{kept}.{node.target.attr} = $.within.{name}({kept}.{node.target.attr}, {value});"
        return
    key = scope.fresh()
    yield f"{key} = {expression(node.target.slice, scope)}; $.setItem({kept}, {key}, $.within.{name}($.item({kept}, {key}), {value}));"


def returned(node: ast.Return, scope: Scope) -> Iterator[str]:
    yield f"return {expression(node.value, scope) if node.value else 'null'};"


def if_statement(node: ast.If, scope: Scope) -> Iterator[str]:
    yield f"if ({truth(node.test, scope)}) {{\n{block(node.body, scope)}\n}}"
    if node.orelse:
        yield f"else {{\n{block(node.orelse, scope)}\n}}"


def for_statement(node: ast.For, scope: Scope) -> Iterator[str]:
    kept = scope.fresh()
    head = f"for ({kept} of $.iterated({expression(node.iter, scope)}))"
    yield loop(node, scope, head, assign(node.target, kept, scope) + "\n")


def while_statement(node: ast.While, scope: Scope) -> Iterator[str]:
    yield loop(node, scope, f"while ({truth(node.test, scope)})", "")


def loop(node: Union[ast.For, ast.While], scope: Scope, head: str, first: str) -> str:
    """A loop; a `break` leaves what stands under its `else`, too."""
    label = scope.fresh() + "else" if node.orelse else None
    scope.loops.append(label)
    code = f"{head} {{\n{first}{block(node.body, scope)}\n}}"
    scope.loops.pop()
    return f"{label}: {{\n{code}\n{block(node.orelse, scope)}\n}}" if label else code


def broken(node: ast.Break, scope: Scope) -> Iterator[str]:
    yield f"break {scope.loops[-1]};" if scope.loops[-1] else "break;"


def raised(node: ast.Raise, scope: Scope) -> Iterator[str]:
    yield f"throw {f'$.exceptionOf({expression(node.exc, scope)})' if node.exc else CAUGHT};"


def tried(node: ast.Try, scope: Scope) -> Iterator[str]:
    if node.orelse:
        raise Untranslated(node, "`else` of a `try`")
    yield f"try {{\n{block(node.body, scope)}\n}}"
    if node.handlers:
        yield f"catch ({CAUGHT}) {{"
        yield "\nelse ".join([*(handler(part, scope) for part in node.handlers), f"throw {CAUGHT};"])
        yield "}"
    if node.finalbody:
        yield f"finally {{\n{block(node.finalbody, scope)}\n}}"


def handler(node: ast.ExceptHandler, scope: Scope) -> str:
    kinds = expression(node.type, scope) if node.type else "$.builtins.Exception"
    name = f"{js_name(node.name)} = {CAUGHT};\n" if node.name else ""
    return f"if ($.isCaught({CAUGHT}, {kinds})) {{\n{name}{block(node.body, scope)}\n}}"


def with_statement(node: ast.With, scope: Scope) -> Iterator[str]:
    code = block(node.body, scope)
    for item in reversed(node.items):
        kept = scope.fresh()
        entered = f"{kept}.__enter__()"
        begin = assign(item.optional_vars, entered, scope) if item.optional_vars else f"{entered};"
        code = f"{kept} = {expression(item.context_expr, scope)};\n{begin}\ntry {{\n{code}\n}} finally {{ {kept}.__exit__(); }}"
    yield code


def deleted(node: ast.Delete, scope: Scope) -> Iterator[str]:
    for target in node.targets:
        if isinstance(target, ast.Subscript):
            yield f"$.deleteItem({expression(target.value, scope)}, {expression(target.slice, scope)});"
        elif isinstance(target, ast.Attribute):
            yield f"delete {expression(target.value, scope)}.{target.attr};"
        else:
            raise Untranslated(node, "this `del`")


def imported(node: ast.Import, scope: Scope) -> Iterator[str]:
    for alias in node.names:
        name = alias.asname or alias.name.partition(".")[0]
        yield f"{js_name(name)} = $.importOf({text(alias.name if alias.asname else name)});"


def imported_from(node: ast.ImportFrom, scope: Scope) -> Iterator[str]:
    for alias in node.names:
        yield f"{js_name(alias.asname or alias.name)} = $.importFrom({text(node.module or '')}, {text(alias.name)});"


# ---- functions and classes

def function_code(node: ast.FunctionDef, scope: Scope, is_method: bool) -> str:
    """A function, with the names of its parameters. That of a method's object, the first, isn't given: it is `this`."""
    arguments, ordered = node.args, [argument.arg for argument in node.args.posonlyargs + node.args.args]
    own, taken = (ordered[:1], ordered[1:]) if is_method else ([], ordered)
    inner = Scope(scope.owner, own[0] if own else scope.self_name)
    names = [name for name in bound_in(node.body) if name not in {*ordered, *names_besides(arguments)}]
    code, given = block(node.body, inner), parameters(arguments, inner, skip=len(own))
    lead = "".join(f"const {js_name(name)} = this;\n" for name in own) + named_only(arguments, inner)
    is_generator = any(isinstance(part, (ast.Yield, ast.YieldFrom)) for part in own_nodes(node.body))
    head = f"function{'*' if is_generator else ''} {js_name(node.name)}({given})"
    end = "" if is_generator else "\nreturn null;"
    only = listed(argument.arg for argument in arguments.kwonlyargs)
    return f"$.functionOf({head} {{\n{lead}{declared(names, inner)}{code}{end}\n}}, {listed(taken)}, {only})"


def names_besides(arguments: ast.arguments) -> List[str]:
    """The names of the parameters that have no place of their own."""
    return [argument.arg for argument in arguments.kwonlyargs + ([arguments.vararg] if arguments.vararg else [])]


def listed(names: Iterable[str]) -> str:
    return f"[{', '.join(map(text, names))}]"


def named_only(arguments: ast.arguments, scope: Scope) -> str:
    """The statements that take what is only given by name."""
    rest = js_name(arguments.vararg.arg) if arguments.vararg else "$rest"
    taken = f"const $named = $.takeNamed({rest});\n" if arguments.kwonlyargs else ""
    for argument, default in zip(arguments.kwonlyargs, arguments.kw_defaults):
        name, other = text(argument.arg), expression(default, scope) if default else "null"
        taken += f"let {js_name(argument.arg)} = {name} in $named ? $named[{name}] : {other};\n"
    return taken


def function(node: ast.FunctionDef, scope: Scope) -> Iterator[str]:
    code = function_code(node, scope, False)
    for decorator in reversed(node.decorator_list):
        code = f"{expression(decorator, scope)}({code})"
    yield f"{js_name(node.name)} = {code};"


def class_statement(node: ast.ClassDef, scope: Scope) -> Iterator[str]:
    inner = Scope(js_name(node.name))
    names = [name for name in bound_in([part for part in node.body if not isinstance(part, (ast.FunctionDef, ast.AnnAssign))])]
    code = "\n".join(line for part in node.body for line in member(part, inner))
    bases = ", ".join(expression(base, scope) for base in node.bases)
    kept = "".join(f"$class.$set({text(name)}, {js_name(name)});\n" for name in names)
    made = f"$.classOf({text(node.name)}, [{bases}], ($class) => {{\n{declared(names, inner)}{code}\n{kept}}})"
    for decorator in reversed(node.decorator_list):
        made = f"{expression(decorator, scope)}({made})"
    yield f"{js_name(node.name)} = {made};"


def member(node: ast.stmt, scope: Scope) -> Iterator[str]:
    """A part of a class."""
    if isinstance(node, ast.FunctionDef):
        kinds = [ast.unparse(part) for part in node.decorator_list]
        yield f"$class.$method({text(node.name)}, {function_code(node, scope, 'staticmethod' not in kinds)}, {listed(kinds)});"
    elif isinstance(node, ast.AnnAssign) and isinstance(node.target, ast.Name):
        yield f"$class.$field({text(node.target.id)}{f', {expression(node.value, scope)}' if node.value else ''});"
    else:
        yield from statement(node, scope)


def plain(code: str) -> Callable[[ast.stmt, Scope], Iterator[str]]:
    return lambda node, scope: iter([code])


def expression_statement(node: ast.Expr, scope: Scope) -> Iterator[str]:
    if not isinstance(node.value, ast.Constant):  # a text that says what a function does
        yield f"{expression(node.value, scope)};"


STATEMENTS: Dict[type, Callable[..., Iterator[str]]] = {
    ast.Assign: assignment, ast.AnnAssign: annotated, ast.AugAssign: augmented, ast.Return: returned, ast.If: if_statement, ast.For: for_statement,
    ast.While: while_statement, ast.Raise: raised, ast.Try: tried, ast.With: with_statement, ast.Delete: deleted, ast.Import: imported,
    ast.ImportFrom: imported_from, ast.FunctionDef: function, ast.ClassDef: class_statement, ast.Expr: expression_statement,
    ast.Break: broken, ast.Continue: plain("continue;"), ast.Pass: plain(""), ast.Nonlocal: plain(""), ast.Global: plain(""),
}


def statement(node: ast.stmt, scope: Scope) -> Iterator[str]:
    """The lines of a statement in JavaScript."""
    translate = STATEMENTS.get(type(node))
    if translate is None:
        raise Untranslated(node, type(node).__name__)
    return translate(node, scope)


def module_code(name: str, file: str, source: str) -> str:
    """A module in JavaScript: a call that keeps it until it is imported."""
    tree, scope = ast.parse(source), Scope()
    names = bound_in(tree.body)
    code = block([node for node in tree.body if not is_start(node)], scope)
    kept = ", ".join(f"{text(name)}: {js_name(name)}" for name in names)
    return f"$.module({text(name)}, {text(file)}, function (__name__, __file__) {{\n{declared(names, scope)}{code}\nreturn {{{kept}}};\n}});\n"


def is_start(node: ast.stmt) -> bool:
    """Whether a statement only starts a program: what stands under `if __name__ == "__main__"`."""
    return isinstance(node, ast.If) and ast.unparse(node.test) == "__name__ == '__main__'"
