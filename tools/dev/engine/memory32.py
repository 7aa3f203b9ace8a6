"""Makes of a WebAssembly module with a 64-bit memory one with a 32-bit memory, which every engine has.

Pointers stay 64 bits wide in locals, in memory and across exports, and each is cut to 32 bits where the memory is reached. The memory has less than 4 GiB, so
a pointer into it loses nothing, and one that lies outside by less than 4 GiB, as below a stack that has run out, still lies outside. It knows the sections and
the instructions that the kit's clang writes without threads, exceptions and references, and refuses any other.
"""
from typing import Callable, Dict, Iterator, List, Tuple

HEADER = b"\0asm\x01\0\0\0"
MOST_OFFSET = 2**32
I32, I64, F32, F64, V128 = 0x7F, 0x7E, 0x7D, 0x7C, 0x7B
LOCAL_GET, LOCAL_SET = b"\x20", b"\x21"
WRAP, EXTEND_SIGNED, EXTEND_UNSIGNED = b"\xa7", b"\xac", b"\xad"
CONST_I32, CONST_I64 = 0x41, 0x42

# Instructions by what is written behind them: nothing, one number, two numbers, or something of their own.
BARE = {0x00, 0x01, 0x05, 0x0B, 0x0F, 0x1A, 0x1B, *range(0x45, 0xC5)}
WITH_NUMBER = {0x02, 0x03, 0x04, 0x0C, 0x0D, 0x10, 0x20, 0x21, 0x22, 0x23, 0x24, CONST_I32, CONST_I64}
WITH_BYTES = {0x43: 4, 0x44: 8}  # constants of floating point
LOADS = range(0x28, 0x36)
STORES = {0x36: I32, 0x37: I64, 0x38: F32, 0x39: F64, 0x3A: I32, 0x3B: I32, 0x3C: I64, 0x3D: I64, 0x3E: I64}  # with what each stores
CALL_INDIRECT, BRANCH_TABLE, MEMORY_SIZE, MEMORY_GROW, BULK, VECTOR = 0x11, 0x0E, 0x3F, 0x40, 0xFC, 0xFD
MEMORY_COPY, MEMORY_FILL, CONVERSIONS = 10, 11, range(8)  # behind BULK
# Behind VECTOR: instructions that load, those that store or have a vector above the address, and what others have behind them.
VECTOR_LOADS, VECTOR_STORE, VECTOR_LANES_IN_MEMORY = {*range(11), 92, 93}, 11, range(84, 92)
VECTOR_BYTES = {12: 16, 13: 16, **dict.fromkeys(range(21, 35), 1)}
IS_64, HAS_MOST = 4, 1  # of the limits of a memory or a table
TYPES, IMPORTS, FUNCTIONS, TABLES, MEMORIES, ELEMENTS, CODE, DATA = 1, 2, 3, 4, 5, 9, 10, 11  # the sections
FUNCTION_TYPE = 0x60


class UnknownModule(Exception):
    """What in the module isn't known here."""


def require(holds: bool, what: str) -> None:
    if not holds:
        raise UnknownModule(what)


def unsigned(number: int) -> bytes:
    out = bytearray()
    while number > 127:
        out.append(number & 127 | 128)
        number >>= 7
    out.append(number)
    return bytes(out)


def signed(number: int) -> bytes:
    """A number from 0 on, as a signed one."""
    out = unsigned(number)
    return out if out[-1] < 64 else out[:-1] + bytes([out[-1] | 128, 0])


class Reader:
    """Reads on in bytes."""

    def __init__(self, data: bytes, at: int = 0) -> None:
        self.data, self.at = data, at

    def has_more(self) -> bool:
        return self.at < len(self.data)

    def byte(self) -> int:
        require(self.has_more(), "it ends too early")
        self.at += 1
        return self.data[self.at - 1]

    def take(self, count: int) -> bytes:
        self.at += count
        require(self.at <= len(self.data), "it ends too early")
        return self.data[self.at - count:self.at]

    def number(self) -> int:
        number = shift = 0
        while True:
            byte = self.byte()
            number |= (byte & 127) << shift
            shift += 7
            if byte < 128:
                return number

    def as_written(self) -> bytes:
        """A number as it is written, signed or not."""
        start = self.at
        while self.byte() > 127:
            pass
        return self.data[start:self.at]

    def numbers_as_written(self, count: int) -> bytes:
        return b"".join(self.as_written() for _ in range(count))

    def sized(self) -> bytes:
        """Bytes with their number before them."""
        return self.take(self.number())

    def each(self) -> Iterator[int]:
        """Once for each of what follows, with its number before it."""
        yield from range(self.number())


class Function:
    """The code of one function, written again."""

    def __init__(self, code: bytes, parameters: int) -> None:
        self.reader, self.out = Reader(code), bytearray()
        self.groups = [(self.reader.number(), self.reader.byte()) for _ in self.reader.each()]
        self.first_spare = parameters + sum(count for count, _ in self.groups)
        self.spares: List[Tuple[int, int]] = []
        while self.reader.has_more():
            self.put_instruction(self.reader.byte())

    def whole(self) -> bytes:
        groups = self.groups + [(1, kind) for kind, _ in self.spares]
        code = unsigned(len(groups)) + b"".join(unsigned(count) + bytes([kind]) for count, kind in groups) + self.out
        return unsigned(len(code)) + code

    def spare(self, kind: int, which: int = 0) -> bytes:
        """The number of a local of our own, of a type."""
        if (kind, which) not in self.spares:
            self.spares.append((kind, which))
        return unsigned(self.first_spare + self.spares.index((kind, which)))

    def put_wrapped_below(self, local: bytes) -> None:
        """Cuts the address below the value on top, which a local keeps meanwhile."""
        self.out += LOCAL_SET + local + WRAP + LOCAL_GET + local

    def place(self) -> bytes:
        """The alignment and the offset behind an instruction that reaches the memory."""
        alignment, offset = self.reader.as_written(), self.reader.number()
        require(alignment[0] < 64, "there is more than one memory")
        require(offset < MOST_OFFSET, f"an offset of {offset}")
        return alignment + unsigned(offset)

    def put_instruction(self, code: int) -> None:
        reader, out = self.reader, self.out
        if code in BARE:
            out.append(code)
        elif code in WITH_NUMBER:
            out += bytes([code]) + reader.as_written()
        elif code in WITH_BYTES:
            out += bytes([code]) + reader.take(WITH_BYTES[code])
        elif code == BRANCH_TABLE:
            count = reader.number()
            out += bytes([code]) + unsigned(count) + reader.numbers_as_written(count + 1)
        else:
            self.put_reaching(code)

    def put_reaching(self, code: int) -> None:
        """An instruction that reaches the memory or a table."""
        reader, out = self.reader, self.out
        if code in LOADS:
            out += WRAP + bytes([code]) + self.place()
        elif code in STORES:
            self.put_wrapped_below(self.spare(STORES[code]))
            out += bytes([code]) + self.place()
        elif code == MEMORY_SIZE:
            out += bytes([code]) + reader.as_written() + EXTEND_UNSIGNED
        elif code == MEMORY_GROW:
            out += WRAP + bytes([code]) + reader.as_written() + EXTEND_SIGNED
        elif code == CALL_INDIRECT:
            out += WRAP + bytes([code]) + reader.numbers_as_written(2)
        elif code == BULK:
            self.put_bulk(reader.number())
        elif code == VECTOR:
            self.put_vector(reader.number())
        else:
            raise UnknownModule(f"the instruction 0x{code:02x}")

    def put_bulk(self, code: int) -> None:
        if code in (MEMORY_COPY, MEMORY_FILL):
            self.put_range(code)
        else:
            require(code in CONVERSIONS, f"the instruction 0xfc {code}")
            self.out += bytes([BULK]) + unsigned(code)

    def put_range(self, code: int) -> None:
        """memory.copy, which has two addresses and a count, or memory.fill, which has an address, a byte and a count."""
        is_copy = code == MEMORY_COPY
        second, count = self.spare(I64, 1) if is_copy else self.spare(I32), self.spare(I64)
        self.out += LOCAL_SET + count + LOCAL_SET + second + WRAP + LOCAL_GET + second + (WRAP if is_copy else b"")
        self.out += LOCAL_GET + count + WRAP + bytes([BULK]) + unsigned(code) + self.reader.numbers_as_written(2 if is_copy else 1)

    def put_vector(self, code: int) -> None:
        whole = bytes([VECTOR]) + unsigned(code)
        if code == VECTOR_STORE or code in VECTOR_LANES_IN_MEMORY:
            self.put_wrapped_below(self.spare(V128))
            self.out += whole + self.place() + self.reader.take(code in VECTOR_LANES_IN_MEMORY)
        elif code in VECTOR_LOADS:
            self.out += WRAP + whole + self.place()
        else:
            self.out += whole + self.reader.take(VECTOR_BYTES.get(code, 0))


class Module:
    """The sections of a module, one after the other."""

    def __init__(self) -> None:
        self.parameters: List[int] = []  # how many each type of function has
        self.types: List[int] = []  # of each function
        self.rewriting: Dict[int, Callable[[Reader], bytes]] = {
            TYPES: self.read_types, IMPORTS: self.refuse_imports, FUNCTIONS: self.read_functions, TABLES: self.tables, MEMORIES: self.memories,
            ELEMENTS: self.elements, CODE: self.code, DATA: self.data,
        }

    def section(self, kind: int, part: bytes) -> bytes:
        rewrite = self.rewriting.get(kind)
        new = rewrite(Reader(part)) if rewrite else part
        return bytes([kind]) + unsigned(len(new)) + new

    def read_types(self, reader: Reader) -> bytes:
        for _ in reader.each():
            require(reader.byte() == FUNCTION_TYPE, "a type that is no function's")
            self.parameters.append(len(reader.sized()))
            reader.sized()
        return reader.data

    def refuse_imports(self, reader: Reader) -> bytes:
        require(reader.number() == 0, "an import")
        return reader.data

    def read_functions(self, reader: Reader) -> bytes:
        self.types = [reader.number() for _ in reader.each()]
        return reader.data

    def tables(self, reader: Reader) -> bytes:
        require(reader.number() == 1, "more than one table")
        return b"\x01" + bytes([reader.byte()]) + self.limits(reader)

    def memories(self, reader: Reader) -> bytes:
        require(reader.number() == 1, "more than one memory")
        return b"\x01" + self.limits(reader)

    @staticmethod
    def limits(reader: Reader) -> bytes:
        flags = reader.byte()
        return bytes([flags & ~IS_64]) + reader.numbers_as_written(2 if flags & HAS_MOST else 1)

    @staticmethod
    def place(reader: Reader) -> bytes:
        """Where a segment stands in its memory or table."""
        require(reader.byte() == 0 and reader.byte() == CONST_I64, "a segment without a place")
        return b"\x00" + bytes([CONST_I32]) + signed(reader.number()) + bytes([reader.byte()])

    def elements(self, reader: Reader) -> bytes:
        out = bytearray()
        count = reader.number()
        for _ in range(count):
            out += self.place(reader)
            functions = reader.number()
            out += unsigned(functions) + reader.numbers_as_written(functions)
        return unsigned(count) + out

    def data(self, reader: Reader) -> bytes:
        out = bytearray()
        count = reader.number()
        for _ in range(count):
            out += self.place(reader)
            part = reader.sized()
            out += unsigned(len(part)) + part
        return unsigned(count) + out

    def code(self, reader: Reader) -> bytes:
        count = reader.number()
        return unsigned(count) + b"".join(self.function(place, reader.sized()) for place in range(count))

    def function(self, place: int, code: bytes) -> bytes:
        try:
            return Function(code, self.parameters[self.types[place]]).whole()
        except UnknownModule as why:
            raise UnknownModule(f"function {place}: {why}") from None


def with_memory32(data: bytes) -> bytes:
    """The module with a 32-bit memory. UnknownModule where it has something that isn't known here."""
    require(data.startswith(HEADER), "it is no WebAssembly module")
    module, reader, out = Module(), Reader(data, len(HEADER)), bytearray(HEADER)
    while reader.has_more():
        kind = reader.byte()
        out += module.section(kind, reader.sized())
    return bytes(out)
