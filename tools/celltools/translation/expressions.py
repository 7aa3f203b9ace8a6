"""The expressions of Python as JavaScript. `$.` is what Python brings, page/python."""
import ast
import json
from typing import Any, Callable, Dict, List, Optional, Union

from celltools.translation.scopes import Scope, Untranslated, js_name

MOST_EXACT = 2**53  # of JavaScript's numbers
BINARY = {ast.Add: "add", ast.Sub: "sub", ast.Mult: "mul", ast.Div: "div", ast.FloorDiv: "floordiv", ast.Mod: "mod", ast.Pow: "pow", ast.LShift: "lshift",
          ast.RShift: "rshift", ast.BitAnd: "and", ast.BitOr: "or", ast.BitXor: "xor"}
COMPARED = {ast.Eq: "$.eq({}, {})", ast.NotEq: "!$.eq({}, {})", ast.Lt: "$.lt({}, {})", ast.LtE: "$.le({}, {})", ast.Gt: "$.lt({1}, {0})",
            ast.GtE: "$.le({1}, {0})", ast.Is: "({} === {})", ast.IsNot: "({} !== {})", ast.In: "$.has({1}, {0})", ast.NotIn: "!$.has({1}, {0})"}
# The methods of what Python brings: which object has one is known when it is called.
BUILT_IN = set(
    "append extend insert pop remove clear index count sort reverse copy get items keys values setdefault update add discard union join split rsplit "
    "splitlines strip lstrip rstrip startswith endswith replace find rfind partition rpartition upper lower encode decode format hex isdigit isdecimal "
    "isalpha isprintable isspace ljust rjust zfill expandtabs removeprefix removesuffix title bit_length to_bytes popleft appendleft extendleft indices "
    "translate".split())


def text(value: str) -> str:
    return json.dumps(value)


def constant(node: ast.Constant, scope: Scope) -> str:
    value = node.value
    if value is None or value is True or value is False:
        return {None: "null", True: "true", False: "false"}[value]
    if isinstance(value, bytes):
        return f"$.bytesOf({text(value.decode('latin1'))})"
    if isinstance(value, str):
        return text(value)
    if isinstance(value, int):
        return str(value) if abs(value) < MOST_EXACT else f"{value}n"
    raise Untranslated(node, f"the constant {value!r}")


def is_boolean(node: ast.expr) -> bool:
    """Whether JavaScript takes its value for a truth as it is."""
    if isinstance(node, ast.Compare) or isinstance(node, ast.UnaryOp) and isinstance(node.op, ast.Not):
        return True
    if isinstance(node, ast.BoolOp):
        return all(map(is_boolean, node.values))
    return isinstance(node, ast.Call) and isinstance(node.func, ast.Name) and node.func.id in ("isinstance", "any", "all", "bool")


def truth(node: ast.expr, scope: Scope) -> str:
    return expression(node, scope) if is_boolean(node) else f"$.truth({expression(node, scope)})"


def bool_op(node: ast.BoolOp, scope: Scope) -> str:
    *before, found = (expression(value, scope) for value in node.values)
    for value, code in zip(reversed(node.values[:-1]), reversed(before)):
        if is_boolean(value):
            found = f"({code} {'||' if isinstance(node.op, ast.Or) else '&&'} {found})"
            continue
        kept = scope.fresh()
        parts = (kept, found) if isinstance(node.op, ast.Or) else (found, kept)
        found = f"($.truth({kept} = {code}) ? {parts[0]} : {parts[1]})"
    return found


def unary(node: ast.UnaryOp, scope: Scope) -> str:
    if isinstance(node.op, ast.Not):
        return f"!{truth(node.operand, scope)}"
    inner = expression(node.operand, scope)
    return f"(-{inner})" if isinstance(node.op, ast.USub) else f"$.invert({inner})" if isinstance(node.op, ast.Invert) else f"(+{inner})"


def binary(node: ast.BinOp, scope: Scope) -> str:
    left, right = expression(node.left, scope), expression(node.right, scope)
    is_plain = isinstance(node.right, ast.Constant) and type(node.right.value) is int and node.right.value < MOST_EXACT
    if is_plain and isinstance(node.op, (ast.Add, ast.Sub)):
        return f"({left} {'+' if isinstance(node.op, ast.Add) else '-'} {right})"
    return f"$.{BINARY[type(node.op)]}({left}, {right})"


def compare(node: ast.Compare, scope: Scope) -> str:
    left, parts = expression(node.left, scope), []
    for number, (op, other) in enumerate(zip(node.ops, node.comparators)):
        right = expression(other, scope)
        if number + 1 < len(node.ops):
            kept = scope.fresh()
            parts.append(COMPARED[type(op)].format(left, f"({kept} = {right})"))
            left = kept
        else:
            parts.append(COMPARED[type(op)].format(left, right))
    # a comparison that is written the other way round evaluates its right side first, which a chain doesn't see
    return parts[0] if len(parts) == 1 else f"({' && '.join(parts)})"


def if_exp(node: ast.IfExp, scope: Scope) -> str:
    return f"({truth(node.test, scope)} ? {expression(node.body, scope)} : {expression(node.orelse, scope)})"


def items(nodes: List[ast.expr], scope: Scope) -> str:
    return ", ".join(expression(node, scope) for node in nodes)


def attribute(node: ast.Attribute, scope: Scope) -> str:
    if isinstance(node.ctx, ast.Load):
        return f"$.get({expression(node.value, scope)}, {text(node.attr)})"
    return f"{expression(node.value, scope)}.{node.attr}"


def subscript(node: ast.Subscript, scope: Scope) -> str:
    return f"$.item({expression(node.value, scope)}, {expression(node.slice, scope)})"


def slice_of(node: ast.Slice, scope: Scope) -> str:
    return f"$.slice({', '.join(expression(part, scope) if part else 'null' for part in (node.lower, node.upper, node.step))})"


def call(node: ast.Call, scope: Scope) -> str:
    func, given = node.func, items(node.args, scope)
    if isinstance(func, ast.Name) and func.id == "super" and not node.args:
        return f"$.superOf({scope.owner}, {scope.self_name})"
    if node.keywords:
        return call_with_keywords(node, scope, given)
    if isinstance(func, ast.Attribute):
        target = expression(func.value, scope)
        if func.attr in BUILT_IN:
            return f"$.call({', '.join([target, text(func.attr), *([given] if given else [])])})"
        return f"{target}.{func.attr}({given})"
    return f"{expression(func, scope)}({given})"


def call_with_keywords(node: ast.Call, scope: Scope, given: str) -> str:
    named = ", ".join(f"{text(keyword.arg)}: {expression(keyword.value, scope)}" if keyword.arg else f"...$.named({expression(keyword.value, scope)})"
                      for keyword in node.keywords)
    return f"$.callNamed({expression(node.func, scope)}, [{given}], {{{named}}})"


def joined(node: ast.JoinedStr, scope: Scope) -> str:
    parts = [part_of(value, scope) for value in node.values if not is_empty(value)]  # some Pythons have an empty one behind the last
    return f"({' + '.join(parts)})" if parts else '""'


def is_empty(node: ast.expr) -> bool:
    return isinstance(node, ast.Constant) and node.value == ""


def part_of(node: ast.expr, scope: Scope) -> str:
    if isinstance(node, ast.Constant):
        return text(node.value)
    if not isinstance(node, ast.FormattedValue):
        raise Untranslated(node, "this part of a text")
    inner = expression(node.value, scope)
    if node.conversion == ord("r"):
        inner = f"$.repr({inner})"
    return f"$.format({inner}, {expression(node.format_spec, scope)})" if node.format_spec else f"$.str({inner})"


def tuple_of(node: ast.Tuple, scope: Scope) -> str:
    return f"$.tupleOf({items(node.elts, scope)})"


def list_of(node: ast.List, scope: Scope) -> str:
    return f"[{items(node.elts, scope)}]"


def set_of(node: ast.Set, scope: Scope) -> str:
    return f"$.set([{items(node.elts, scope)}])"


def dict_of(node: ast.Dict, scope: Scope) -> str:
    entries = (f"[{expression(key, scope)}, {expression(value, scope)}]" if key else f"...$.entries({expression(value, scope)})"
               for key, value in zip(node.keys, node.values))
    return f"$.dictOf([{', '.join(entries)}])"


def lambda_of(node: ast.Lambda, scope: Scope) -> str:
    inner = scope.within()
    body = expression(node.body, inner)
    declared = f"let {', '.join(inner.extra)}; " if inner.extra else ""
    return f"(({parameters(node.args, inner)}) => {{ {declared}return {body}; }})"


def parameters(arguments: ast.arguments, scope: Scope, skip: int = 0) -> str:
    """The parameters of a function as JavaScript has them; those that are only given by name come behind, in one object."""
    names = [argument.arg for argument in arguments.posonlyargs + arguments.args]
    defaults: List[Optional[ast.expr]] = [*[None] * (len(names) - len(arguments.defaults)), *arguments.defaults]
    parts = [js_name(name) + (f" = {expression(default, scope)}" if default else "") for name, default in zip(names, defaults)][skip:]
    if arguments.vararg or arguments.kwonlyargs:
        parts.append(f"...{js_name(arguments.vararg.arg) if arguments.vararg else '$rest'}")
    return ", ".join(parts)


def comprehension(node: Any, scope: Scope) -> str:  # `node`: of each kind that ast has of them, which have no class in common
    """A comprehension, of each kind: a generator, of which the outermost iterable is taken at once."""
    inner = scope.within()
    is_dict = isinstance(node, ast.DictComp)
    made = f"[{expression(node.key, inner)}, {expression(node.value, inner)}]" if is_dict else expression(node.elt, inner)
    first = node.generators[0]
    code, names = f"yield {made};", []
    for part in reversed(node.generators):
        for condition in reversed(part.ifs):
            code = f"if ({truth(condition, inner)}) {{ {code} }}"
        names += [name.id for name in ast.walk(part.target) if isinstance(name, ast.Name)]
        kept, iterable = inner.fresh(), "$from" if part is first else expression(part.iter, inner)
        code = f"for ({kept} of {iterable}) {{ {assign(part.target, kept, inner)} {code} }}"
    declared = ", ".join([*map(js_name, dict.fromkeys(names)), *inner.extra])
    generator = f"(function* ($from) {{ let {declared}; {code} }})($.iterated({expression(first.iter, scope)}))"
    wrapped = {ast.ListComp: "[...{}]", ast.SetComp: "$.set({})", ast.DictComp: "$.dictOf({})", ast.GeneratorExp: "{}"}[type(node)]
    return wrapped.format(generator)


def assign(target: ast.expr, value: str, scope: Scope) -> str:
    """The statement that gives a value to a target."""
    if isinstance(target, ast.Name):
        return f"{js_name(target.id)} = {value};"
    if isinstance(target, ast.Attribute):
        return f"{expression(target.value, scope)}.{target.attr} = {value};"
    if isinstance(target, ast.Subscript):
        return f"$.setItem({expression(target.value, scope)}, {expression(target.slice, scope)}, {value});"
    if isinstance(target, (ast.Tuple, ast.List)):
        return unpacked(target, value, scope)
    raise Untranslated(target, "this target")


def unpacked(target: Union[ast.Tuple, ast.List], value: str, scope: Scope) -> str:
    """The statements that give the parts of a value to targets."""
    starred = next((k for k, part in enumerate(target.elts) if isinstance(part, ast.Starred)), None)
    parts, count = scope.fresh(), len(target.elts)
    code = [f"{parts} = $.unpack({value}, {count if starred is None else f'{starred}, {count - starred - 1}'});"]
    code += [assign(part.value if isinstance(part, ast.Starred) else part, f"{parts}[{k}]", scope) for k, part in enumerate(target.elts)]
    return " ".join(code)


def named_expr(node: ast.NamedExpr, scope: Scope) -> str:
    return f"({js_name(node.target.id)} = {expression(node.value, scope)})"


EXPRESSIONS: Dict[type, Callable[..., str]] = {
    ast.Constant: constant, ast.Name: lambda node, scope: js_name(node.id), ast.BoolOp: bool_op, ast.UnaryOp: unary, ast.BinOp: binary, ast.Compare: compare,
    ast.IfExp: if_exp, ast.Attribute: attribute, ast.Subscript: subscript, ast.Slice: slice_of, ast.Call: call, ast.JoinedStr: joined, ast.Tuple: tuple_of,
    ast.List: list_of, ast.Set: set_of, ast.Dict: dict_of, ast.Lambda: lambda_of, ast.ListComp: comprehension, ast.SetComp: comprehension,
    ast.DictComp: comprehension, ast.GeneratorExp: comprehension, ast.NamedExpr: named_expr,
    ast.Starred: lambda node, scope: f"...$.iterated({expression(node.value, scope)})",
    ast.Yield: lambda node, scope: f"(yield {expression(node.value, scope) if node.value else 'null'})",
    ast.YieldFrom: lambda node, scope: f"(yield* $.iterated({expression(node.value, scope)}))",
}


def expression(node: ast.expr, scope: Scope) -> str:
    """An expression in JavaScript."""
    translate = EXPRESSIONS.get(type(node))
    if translate is None:
        raise Untranslated(node, type(node).__name__)
    return translate(node, scope)
