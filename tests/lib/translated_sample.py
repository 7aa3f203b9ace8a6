"""What the translation of tools/celltools/translation has to know of Python: tests/page runs it here and as JavaScript, and compares what both print."""
import bisect
import collections
import contextlib
import dataclasses
import enum
import functools
import heapq
import itertools
import operator
import re
from typing import Iterator, List, NamedTuple, Optional, Sequence


class Place(NamedTuple):
    name: str
    at: int
    size: int = 16


class Colour(enum.Enum):
    RED = "red"
    BLUE = "blue"


@dataclasses.dataclass(frozen=True)
class Pair:
    one: int
    other: Optional[str] = None

    @property
    def told(self) -> str:
        return f"{self.one} and {self.other}"


class Base:
    kind = "base"

    def __init__(self, *names: str, last: str = "z") -> None:
        self.names, self.last, self.count = list(names), last, 0

    @functools.cached_property
    def whole(self) -> str:
        self.count += 1
        return "-".join(self.names)

    @staticmethod
    def twice(text: str, times: int = 2) -> str:
        return text * times

    def __contains__(self, name: str) -> bool:
        return name in self.names


class Derived(Base):
    kind = "derived"

    def __init__(self, name: str) -> None:
        super().__init__(name, "b", last="y")

    def pairs(self) -> Iterator[tuple]:
        yield from ((name, self.last) for name in self.names)


class Squares(Sequence[int]):
    def __len__(self) -> int:
        return 4

    def __getitem__(self, place: int) -> int:  # type: ignore[override]
        if place >= len(self):
            raise IndexError(place)
        return place * place


class Wrong(Exception):
    """A fault of its own."""


def texts() -> None:
    text = "  one, two;\tthree  "
    print(text.split(), text.strip().split(", ", 1), text.partition(";"), "a.b.c".rpartition("."), "a\nb\r\nc\n".splitlines())
    print(f"{255:#x} {255:08b} {-5:>6} {'x':*^7} {1234567:,} {3:02} {'long':.2} {True} {None} {[1, 'a']!r} {('x',)}")
    print("{0} {name:>4} {{}}".format("a", name="b"), "%s has %d" % ("it", 3))
    print("abcdef"[1:4], "abcdef"[-2:], "abcdef"[::-2], "abcdef"[10:], "tab\tbed".expandtabs(4), "a-b-c".replace("-", "+", 1), "Ab".upper(), "x".ljust(3) + "|")
    print("abc" < "abd", "prefix".removeprefix("pre"), "it".startswith(("a", "i")), "a,b".find(","), "abcabc".count("bc"), sorted("hello"), "é".isalpha())


def numbers() -> None:
    print(7 // 2, -7 // 2, 7 % 3, -7 % 3, 2**10, 1 << 40)
    print((1 << 70) >> 68, 0xFFFF_FFFF & ~0xFF, 5 ^ 3, int("0x1f", 0), int("-12"), int("ff", 16), 12345678901234567890 % 97)
    print(max([3, 1, 2]), min("b", "a"), max([], default="none"), max(["aa", "b"], key=len))
    print(sum([1, 2]), abs(-3), 1 < 2 < 3, 3 > 2 > 2, (200).to_bytes(4, "big").hex())
    print(int.from_bytes(b"\x01\x02", "big"), bytes([1, 255]).hex())
    print(b"ab\xff".decode("utf-8", "surrogateescape") == "ab\udcff", b"a,b".split(b","), bytes.fromhex("00ff")[1])


def lists() -> None:
    values = [5, 3, 8]
    values[1:2] = [1, 2]
    values += [9]
    first, *middle, last = values
    print(values, first, middle, last, values[-1])
    print(values.index(8), values.pop(0), values[::2], [1] * 3, [*values, 0], [x * y for x in (1, 2) for y in (3, 4) if x + y > 4])
    del values[1:]
    print(values, list(zip("ab", (1, 2))), list(enumerate("ab", 1)), list(map(str, range(3))))
    print(any(x > 4 for x in [5]), all([]), list(reversed([1, 2])), (1, 2) + (3,), 2 in (1, 2))
    print(sorted([(2, "b"), (1, "z"), (2, "a")]), sorted([3, 1], reverse=True), bisect.bisect_left([1, 3, 3], 3))
    print(bisect.bisect_right([1, 3, 3], 3), [1, 2] == [1, 2], (1,) == [1])


def tables() -> None:
    table = {(1, "a"): "x", "k": [1], 3: None}
    table.setdefault("new", []).append(4)
    table[(1, "a")] = "y"
    print(table[1, "a"], (1, "a") in table, list(table), table.pop("k"))
    print(table.get("none", "other"), {**{1: 2}, 3: 4}, dict.fromkeys("ab", 0), len(table), {k: v for k, v in [("a", 1)]})
    some = {1, 2, 3}
    some -= {2}
    some |= {7}
    print(sorted(some), sorted(some & {1, 9}), {1} <= some)
    print(sorted({(1, 2), (1, 2)}), sorted({"a": 1}.keys() | {"b"}), collections.Counter("abca").most_common(1))
    grouped = collections.defaultdict(list)
    for key, value in (("a", 1), ("b", 2), ("a", 3)):
        grouped[key].append(value)
    queue = collections.deque([1, 2])
    queue.append(3)
    queue.extendleft([8, 9])
    print(dict(grouped), queue.popleft(), list(queue))
    print([(key, list(found)) for key, found in itertools.groupby("aab")], list(itertools.chain("a", "b")), operator.itemgetter(1)("xyz"))
    heap: List[int] = []
    for value in (5, 1, 4):
        heapq.heappush(heap, value)
    print([heapq.heappop(heap) for _ in range(3)])


def classes() -> None:
    thing, place = Derived("a"), Place("p", 3)
    print(thing.kind, Base.kind, thing.whole, thing.whole, thing.count)
    print(list(thing.pairs()), Base.twice("x"), Derived.twice("x", times=3), "b" in thing, isinstance(thing, Base))
    print(list(Squares()), len(Squares()), [square for square in Squares() if square])
    print(place.at, place._replace(size=1), tuple(place), place == ("p", 3, 16))
    print(Pair(1).told, Pair(1, "x") == Pair(1, "x"), len({Pair(1), Pair(1)}), dataclasses.replace(Pair(1), other="o").told)
    print(Colour.RED.value, Colour.RED is Colour.RED)
    print([colour.name for colour in Colour], list(map(Base.twice, "ab")), [method(thing) for method in (Derived.pairs,)] != [])


@contextlib.contextmanager
def entered(name: str) -> Iterator[str]:
    print("in", name)
    try:
        yield name.upper()
    finally:
        print("out", name)


def flow() -> None:
    for value in ("1", "x", "end"):
        try:
            if value == "end":
                raise Wrong(f"it is {value}")
            print(int(value))
        except ValueError:
            print("no number")
        except (KeyError, Wrong) as why:
            print("wrong", why)
        finally:
            print("then")
    for number in range(5):
        if number == 3:
            break
    else:
        print("never")
    while number := number - 1:
        print("left", number)
    with entered("room") as room:
        print(room)
    counter = iter([1, 2, 3])
    print(next(counter), [value for value in counter], next(counter, "none"), (lambda a, b=2: a + b)(1))


def patterns() -> None:
    found = re.search(r"(?P<word>\w+)-(\d+)", "see ab-12 now")
    print(found[0], found["word"], found.group(2), found.start(), found.span(2), re.findall(r"(\w)=(\d)", "a=1 b=2"), re.sub(r"(\w)\1", r"<\1>", "aabbc"))
    print(re.compile(r"^x.*$", re.M).findall("x1\ny\nx2"), re.fullmatch(r"a|ab", "ab") is not None)
    print(re.split(r"[,;]", "a,b;c"), re.compile(rb"\d+").search(b"ab12")[0], re.match("b", "ab"))


def main() -> None:
    for part in (texts, numbers, lists, tables, classes, flow, patterns):
        part()


if __name__ == "__main__":
    main()
