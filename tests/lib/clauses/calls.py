"""Which functions a body calls, by the types of what they are called on. A call whose type isn't seen here has no function."""
import re
from typing import Dict, Iterator, List, NamedTuple, Optional, Tuple

from lib.clauses.brackets import Brackets, after_angle, outside
from lib.clauses.sources import File, Function
from lib.clauses.types import Type, World, read_type

BINDING = re.compile(r"\b(?:(if|while) )?let ((?:mut )?[^=]*?[^=!<>])=(?!=)|\bfor (.+?) in |\bmatch ")
CALL = re.compile(r"(?P<dot>\.\s*)?(?P<path>(?:\w+::)*)(?P<name>\w+)(?P<turbo>::<)?\s*\(")
NOT_CALLS = {"if", "match", "while", "for", "return", "in", "fn", "let", "else", "loop", "move", "Some", "Ok", "Err", "requires", "ensures"}
# methods of the standard library whose result has the type that they are called on, as far as elements go
SAME = {"iter", "iter_mut", "as_slice", "as_mut_slice", "to_vec", "rev", "skip", "copied", "cloned", "as_ref", "as_mut", "as_deref", "by_ref", "into_iter",
        "unwrap_or", "drain", "filter", "take_while", "skip_while", "peekable", "step_by", "chain", "expect", "ok_or", "clone"}


class Call(NamedTuple):
    """A call: its name, the function, or those that it may be, what its result is bound to, the pattern that it is matched with, whether a `?` follows it, and
    whether the body returns its result, and its arguments, of a method with what it is called on."""
    name: str
    function: Optional[Function]
    maybe: Tuple[Function, ...]
    binds: str
    pattern: str
    tried: bool
    returned: bool
    arguments: Tuple[str, ...]


class Body:
    """The types of a body's variables, and its calls."""

    def __init__(self, world: World, function: Function) -> None:
        self.world, self.function, self.file = world, function, function.file
        self.text, self.brackets = function.body, Brackets(function.body)
        self.bound: List[Tuple[int, str, Optional[Type]]] = []
        self.generics = dict(self.bounds_of(function.generics))
        for name, said in function.parameters:
            self.bound.append((-1, name, self.own(read_type(said, self.file))))
        self.let: Dict[int, Tuple[str, str]] = {}
        self.bind_all()

    def bounds_of(self, text: str) -> Iterator[Tuple[str, str]]:
        """The type parameters with the first trait of each."""
        for part in outside(text):
            name, colon, bound = part.partition(":")
            if colon and not name.strip().startswith("'"):
                yield name.strip().replace("const ", ""), bound.split("+")[0].strip()

    def own(self, kind: Optional[Type]) -> Optional[Type]:
        """The type with `Self` and type parameters replaced."""
        if kind is None:
            return None
        if kind.name == "Self" and self.function.owner:
            return Type(self.function.owner, self.file, ())
        if kind.name in self.generics and kind.file is self.file:
            return read_type(self.generics[kind.name], self.file)
        return kind._replace(arguments=tuple(self.own(it) or it for it in kind.arguments))

    def variable(self, name: str, at: int) -> Optional[Type]:
        for place, known, kind in reversed(self.bound):
            if known == name and place < at:
                return kind
        return None

    def bind_all(self) -> None:
        for found in BINDING.finditer(self.text):
            end = self.expression_end(found.end(), "{" if found[1] or found[3] or found[0].startswith("match") else ";")
            if found[0].startswith("match"):
                self.bind_arms(found.end(), end)
                continue
            kind = self.type_at(found.end(), end)
            pattern = (found[2] or found[3] or "").strip()
            name, colon, said = pattern.partition(":")
            if colon and re.fullmatch(r"(?:mut )?\w+\s*", name):
                kind, pattern = self.own(read_type(said, self.file)), name.strip()
            if found[3]:
                kind = kind.arguments[0] if kind and kind.name == "Vec" and kind.arguments else None
            self.let[self.last_call(found.end(), end)] = (re.sub(r"^mut ", "", pattern), "let" if re.fullmatch(r"(?:mut )?\w+", pattern) else "pattern")
            self.bind(pattern, kind, end)

    def bind_arms(self, begin: int, end: int) -> None:
        """Binds the names of a `match`'s arms."""
        kind, close = self.type_at(begin, end), self.brackets.end(end)
        self.let[self.last_call(begin, end)] = ("", "match")
        for arm in re.finditer(r"(?:^|[,{}|]|\n)\s*((?:&\s*)?[A-Za-z_(][^=;{}]*?(?:\{[^{}]*\})?\s*\)*)\s*(?:if [^=]*(?:==[^=]*)?)?=>", self.text[end + 1:close]):
            self.bind(arm[1].strip(), kind, end + 1 + arm.end() - 1)

    def bind(self, pattern: str, kind: Optional[Type], at: int) -> None:
        """Binds the names of a pattern that is matched with a value of this type."""
        pattern = re.sub(r"^(?:&|mut |ref )+", "", pattern.strip())
        if re.fullmatch(r"[a-z_]\w*", pattern):
            self.bound.append((at, pattern, kind))
            return
        if pattern.startswith("("):
            parts = kind.arguments if kind and kind.name == "()" else ()
            for number, part in enumerate(outside(pattern[1:-1])):
                self.bind(part, parts[number] if number < len(parts) else None, at)
            return
        head = re.match(r"((?:\w+::)*)(\w+)\s*([({])(.*)[)}]$", pattern, re.S)
        if head is None:
            return
        for name, part, field in self.parts_of(head, kind):
            self.bind(part or name, field, at)

    def parts_of(self, head: "re.Match[str]", kind: Optional[Type]) -> Iterator[Tuple[str, str, Optional[Type]]]:
        """The parts of a variant's or a struct's pattern with their types."""
        wrapped = {"Some": 0, "Ok": 0, "Err": 1}.get(head[2])
        shape = self.world.shape(head[1].rstrip(":").split("::")[-1] or head[2], self.file)
        fields = (shape.variants.get(head[2], {}) or shape.fields) if shape else {}
        if head[1].startswith("Self") and kind is None:
            shape = self.world.shape(self.function.owner, self.file)
        for number, part in enumerate(outside(head[4])):
            name, _, inner = part.partition(":") if head[3] == "{" else (str(number), "", part)
            name = re.sub(r"^(?:mut |ref )+", "", name.strip())
            if wrapped is not None and not head[1]:
                right = kind is not None and kind.name in ("Option", "Result") and len(kind.arguments) > wrapped
                yield name, inner, kind.arguments[wrapped] if right and kind is not None else None
            else:
                yield name, inner, read_type(fields[name], shape.file) if shape and name in fields else None

    def expression_end(self, at: int, sign: str) -> int:
        """Where the expression that begins here ends: before a `;`, an `else {` or, in a condition, the `{`."""
        while at < len(self.text):
            here = self.text[at]
            if here == sign or here in ";})]" or (sign == ";" and self.text.startswith("else", at) and self.text[at - 1] in " \n"):
                return at
            at = self.brackets.end(at) + 1 if here in "({[" else at + 1
        return len(self.text)

    def last_call(self, begin: int, end: int) -> int:
        """Where the last call of a chain opens its bracket."""
        text = self.text[begin:end].rstrip().rstrip("?").rstrip()
        if not text.endswith(")"):
            return -1
        close = begin + len(text) - 1
        return next((opens for opens, closes in self.brackets.closes.items() if closes == close), -1)

    def type_at(self, begin: int, end: int) -> Optional[Type]:
        """The type of the expression between two places."""
        at, kind = begin, None
        skipped = re.compile(r"\s*(?:&\s*mut\b|&|\*|!)*\s*").match(self.text, at)
        at = skipped.end() if skipped else at
        if self.text[at:at + 1] == "(":
            close = self.brackets.end(at)
            inner = list(outside(self.text[at + 1:close]))
            kind, at = (self.type_at(at + 1, close) if len(inner) == 1 else None), close + 1
        else:
            head = re.compile(r"((?:\w+::)*)(\w+)(::<)?").match(self.text, at)
            if head is None or re.match(r"\d|match$|if$|loop$|unsafe$", head[2]):
                return None
            at = after_angle(self.text, head.end() - 1) if head[3] else head.end()
            if self.text[at:at + 1] == "(":
                called = self.resolve_path(head[1], head[2])
                kind, at = self.result_of(called, None) if called else self.constructed(head[2], at), self.brackets.end(at) + 1
            elif re.match(r"\s*\{", self.text[at:at + 2]) and head[2][0].isupper() and at < end:
                kind, at = self.own(Type(head[2], self.file, ())), self.brackets.end(self.text.index("{", at)) + 1
            elif head[1]:
                kind = self.own(Type(head[1].rstrip(":").split("::")[-1], self.file, ()))
            else:
                kind = self.variable(head[2], at)
        return self.chained(kind, at, end)

    def constructed(self, name: str, at: int) -> Optional[Type]:
        """The type of `Some(x)` or `Ok(x)`."""
        inner = self.type_at(at + 1, self.brackets.end(at)) if name in ("Some", "Ok") else None
        return Type("Option" if name == "Some" else "Result", self.file, (inner,)) if inner else None

    def chained(self, kind: Optional[Type], at: int, end: int) -> Optional[Type]:
        """The type after the fields, calls, indices and `?` that follow."""
        step = re.compile(r"\s*(?:\.\s*(\w+)\s*(::<)?|(\?)|(\[)|( as \w+))")
        while at < end and kind is not None:
            found = step.match(self.text, at)
            if found is None or found.start() >= end:
                return kind
            at = after_angle(self.text, found.end() - 1) if found[2] else found.end()
            if found[1] and self.text[at:at + 1] == "(":
                kind, at = self.after_method(kind, found[1]), self.brackets.end(at) + 1
            elif found[1]:
                kind = self.field(kind, found[1])
            elif found[3]:
                kind = kind.arguments[0] if kind.name in ("Option", "Result") and kind.arguments else None
            elif found[4]:
                close = self.brackets.end(at - 1)
                is_range = ".." in self.text[at:close]
                kind, at = kind if is_range else (kind.arguments[0] if kind.name == "Vec" and kind.arguments else None), close + 1
            else:
                return None
        return kind

    def field(self, kind: Type, name: str) -> Optional[Type]:
        if kind.name == "()" and name.isdigit():
            return kind.arguments[int(name)] if int(name) < len(kind.arguments) else None
        shape = self.world.shape(kind.name, kind.file)
        return read_type(shape.fields[name], shape.file) if shape and name in shape.fields else None

    def after_method(self, kind: Type, name: str) -> Optional[Type]:
        """The type of a method's result."""
        called = self.world.method(kind, name)
        if called is not None:
            return self.result_of(called, kind)
        if kind.name == "Vec" and kind.arguments:
            if name in ("first", "last", "get", "get_mut", "pop", "first_mut", "last_mut", "next", "pop_front", "pop_back", "front", "back", "max", "min"):
                return Type("Option", kind.file, kind.arguments)
            if name == "enumerate":
                return Type("Vec", kind.file, (Type("()", kind.file, (Type("usize", kind.file, ()), kind.arguments[0])),))
        if name in ("unwrap_or", "unwrap_or_default", "unwrap_or_else", "expect", "unwrap") and kind.name in ("Option", "Result") and kind.arguments:
            return kind.arguments[0]
        if name == "ok":
            return Type("Option", kind.file, kind.arguments[:1])
        if name in ("map_err", "ok_or", "ok_or_else"):
            return Type("Result", kind.file, kind.arguments[:1])
        return kind if name in SAME or (name == "take" and kind.name in ("Option", "Vec")) else None

    def result_of(self, called: Function, on: Optional[Type]) -> Optional[Type]:
        kind = read_type(called.result, called.file)
        if kind is None:
            return None

        def replaced(it: Type) -> Type:
            if it.name == "Self" and called.owner:
                return Type(called.owner, called.file, ())
            return it._replace(arguments=tuple(replaced(part) for part in it.arguments))
        return replaced(kind)

    def resolve_path(self, path: str, name: str) -> Optional[Function]:
        """The function of a path: of a type, of a module, or a free one."""
        last = path.rstrip(":").split("::")[-1]
        if last == "Self":
            return self.world.method(Type(self.function.owner, self.file, ()), name)
        if last and last[0].isupper():
            kind = Type(last, self.file, ())
            prefix = path.rstrip(":").split("::")[0]
            if prefix != last and prefix in self.world.crates:
                kind = Type(last, File(prefix, (), {}, {}), ())
            return self.world.method(kind, name)
        return self.world.plain_function(path.rstrip(":"), name, self.file)

    def receiver(self, dot: int) -> int:
        """Where that begins which stands before a dot."""
        begin = dot
        while begin > 0:
            before = self.text[:begin].rstrip()
            if before.endswith((")", "]")):
                begin = next((opens for opens, closes in self.brackets.closes.items() if closes == len(before) - 1), 0)
                if self.text[begin] == "[":
                    continue
                word = re.search(r"[\w:.]*(?:::<[^()]*>)?$", self.text[:begin])
                begin = self.word_begin(begin) if word and word[0] else begin
                if not re.search(r"\.\s*$", self.text[:begin]):
                    break
                begin = self.text[:begin].rstrip().rfind(".")
            elif before.endswith("?"):
                begin = len(before) - 1
            elif re.search(r"[\w]$", before):
                begin = self.word_begin(len(before))
                if not re.search(r"(?<!\.)\.\s*$", self.text[:begin]):
                    break
                begin = self.text[:begin].rstrip().rfind(".")
            else:
                break
        return begin

    def word_begin(self, at: int) -> int:
        """Where the path begins that ends here."""
        found = re.search(r"(?:\w+::)*\w+(?:::<[^()]*>)?\s*$", self.text[:at])
        return found.start() if found else at

    def calls(self) -> Iterator[Call]:
        """The calls of the body."""
        for found in CALL.finditer(self.text):
            if found["name"] in NOT_CALLS or self.text[found.end() - 2:found.end() - 1] == "!" or found["name"][0].isupper():
                continue
            opens = found.end() - 1
            if found["turbo"]:
                continue
            function, close = None, self.brackets.end(opens)
            arguments = tuple(outside(self.text[opens + 1:close]))
            if found["dot"]:
                begin = self.receiver(found.start())
                kind, arguments = self.type_at(begin, found.start()), (self.text[begin:found.start()].strip(), *arguments)
                function = self.world.method(kind, found["name"]) if kind else None
                maybe = () if kind and not function else self.world.all_named(self.file.crate, found["name"])
                maybe = tuple(it for it in maybe if it.owner)
            else:
                function = self.resolve_path(found["path"], found["name"])
                is_method = found["path"].rstrip(":").split("::")[-1][:1].isupper()
                maybe = tuple(it for it in self.world.all_named(self.file.crate, found["name"]) if bool(it.owner) == is_method)
            binds, how = self.let.get(opens, ("", ""))
            yield Call(found["name"], function, (function,) if function else maybe, binds if how == "let" else "", binds or how if how in ("pattern", "match") else "",
                       self.text[close + 1:].lstrip().startswith("?"), self.is_returned(found.start(), close + 1), arguments)

    def is_returned(self, begin: int, end: int) -> bool:
        """Whether what stands between these places is the body's result on one of its ways, alone or as the value of an `Ok` or a `Some`."""
        opens = max((at for at, close in self.brackets.closes.items() if at < begin and close >= end), default=-1)
        rest = self.text[end:].lstrip()
        if opens >= 0 and self.text[opens] == "(":
            wraps = re.search(r"\b(?:Some|Ok)$", self.text[:opens])
            return bool(wraps) and rest.startswith(")") and self.is_returned(opens, self.brackets.end(opens) + 1)
        if opens >= 0 and self.text[opens] != "{":
            return False
        head = re.split(r"[;{}]|=>|,\s*\n", self.text[opens + 1:begin])[-1]
        if re.match(r"\s*return\b", head):
            return rest.startswith(";") or rest.startswith(",")
        if re.search(r"\blet\b|[^=!<>]=(?![=>])", head) or not (rest == "" or rest[0] in ",}"):
            return False
        return opens < 0 or self.is_block_returned(opens)

    def is_block_returned(self, opens: int) -> bool:
        """Whether the value of a block is the body's result."""
        around = max((at for at, close in self.brackets.closes.items() if at < opens and close > opens), default=-1)
        if around >= 0 and self.text[around] != "{":
            return False
        head = re.split(r"[;{}]|=>", self.text[around + 1:opens])[-1]
        if re.search(r"\blet\b|[^=!<>]=(?![=>])", head) or re.match(r"\s*(?:for|while|loop)\b", head):
            return False
        rest = self.text[self.brackets.end(opens) + 1:].lstrip()
        while rest.startswith("else"):
            at = self.text.index("{", len(self.text) - len(rest))
            rest = self.text[self.brackets.end(at) + 1:].lstrip()
        return (rest == "" or rest[0] in ",}" or head.rstrip().endswith("=>")) and (around < 0 or self.is_block_returned(around))
