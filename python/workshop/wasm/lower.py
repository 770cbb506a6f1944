"""Lowers a module whose memory has addresses of 64 bits to one with addresses of 32, for engines that lack the first.

Pointers and sizes keep their 64 bits everywhere: in locals, in sums and in memory. Only where an instruction takes an address (or a number
of octets or pages), the value is cut to 32 bits, and where one answers a number of pages, that is made one of 64. So the two modules
differ only at addresses of 2^32 and more, which no memory of the lowered one has, and at a `memory.grow` that fails, which
answers 2^32 - 1 here and 2^64 - 1 there.
"""

from __future__ import annotations

import dataclasses
from collections.abc import Callable

from workshop.wasm.binary import CODE, CUSTOM, DATA, FUNCTIONS, MEMORIES, TYPES, Reader, Refused, Section, content_of, counted, module_of, number, sections_of

I32, I64, F32, F64 = 0x7F, 0x7E, 0x7D, 0x7C
LOCAL_GET, LOCAL_SET = b"\x20", b"\x21"
CUT, WIDEN = b"\xa7", b"\xad"  # i32.wrap_i64, i64.extend_i32_u
END = 0x0B

# what comes after an instruction's octet; instructions that aren't here are refused
NOTHING, NUMBER, BLOCK, TABLE, LOAD, STORE, SIZE, GROW, OCTETS_4, OCTETS_8, MORE, TYPES_OF_SELECT = range(12)
KINDS = (
    {it: NOTHING for it in (0x00, 0x01, 0x05, END, 0x0F, 0x1A, 0x1B, *range(0x45, 0xC5))}
    | {it: NUMBER for it in (0x0C, 0x0D, 0x10, *range(0x20, 0x25), 0x41, 0x42)}
    | {it: BLOCK for it in (0x02, 0x03, 0x04)}
    | {it: LOAD for it in range(0x28, 0x36)}
    | {it: STORE for it in range(0x36, 0x3F)}
    | {0x0E: TABLE, 0x1C: TYPES_OF_SELECT, 0x3F: SIZE, 0x40: GROW, 0x43: OCTETS_4, 0x44: OCTETS_8, 0xFC: MORE}
)
# instructions that put one value on the stack and take none
PUSHES = (0x20, 0x23, 0x41, 0x42, 0x43, 0x44)
STORED = {0x36: I32, 0x37: I64, 0x38: F32, 0x39: F64, 0x3A: I32, 0x3B: I32, 0x3C: I64, 0x3D: I64, 0x3E: I64}
MEMORY_COPY, MEMORY_FILL = 10, 11


@dataclasses.dataclass
class Spares:
    """The locals that a function gets in addition, each when it is first needed. `first` is the number of the first one."""

    first: int
    types: list[int] = dataclasses.field(default_factory=list)

    def of(self, kind: int) -> bytes:
        """The number of the local of this type."""
        if kind not in self.types:
            self.types.append(kind)
        return number(self.first + self.types.index(kind))


def skip_block_type(reader: Reader) -> None:
    if reader.octets[reader.at] in (0x40, I32, I64, F32, F64):
        reader.at += 1
    else:
        reader.skip_number()


def skip_after(reader: Reader, kind: int) -> None:
    """Goes past what comes after an instruction of this kind."""
    if kind in (NUMBER, SIZE, GROW):
        reader.skip_number()
    elif kind == BLOCK:
        skip_block_type(reader)
    elif kind == TABLE:
        for _ in range(reader.number() + 1):
            reader.skip_number()
    elif kind == TYPES_OF_SELECT:
        reader.counted()
    elif kind != NOTHING:
        reader.at += 4 if kind == OCTETS_4 else 8


def access(reader: Reader, opcode: int) -> bytes:
    """A load or a store, from after its octet on: its alignment, and its offset, which the linker spells in ten octets."""
    align, offset = reader.number(), reader.number()
    if offset >> 32:
        raise Refused("an offset is greater than a memory")
    return bytes([opcode]) + number(align) + number(offset)


def lowered_store(instruction: bytes, spares: Spares) -> bytes:
    """A store, whose address lies below its value: the value waits in a local while the address is cut."""
    value = spares.of(STORED[instruction[0]])
    return LOCAL_SET + value + CUT + LOCAL_GET + value + instruction


Stores = Callable[[bytes, Spares], bytes]  # how a store is lowered whose value wasn't only just put there


def lowered_more(reader: Reader, start: int, spares: Spares) -> bytes:
    """An instruction of two parts, from its first octet on."""
    which = reader.number()
    if which < 8:  # to an integer, and no trap
        return reader.octets[start : reader.at]
    if which not in (MEMORY_COPY, MEMORY_FILL):
        raise Refused(f"the instruction fc {which} is not expected")
    reader.at += 2 if which == MEMORY_COPY else 1
    count, second = spares.of(I64), spares.of(I32)  # a number of octets; where they come from, or which octet they all are
    cut_second = CUT if which == MEMORY_COPY else b""
    set_aside = LOCAL_SET + count + cut_second + LOCAL_SET + second
    return set_aside + CUT + LOCAL_GET + second + LOCAL_GET + count + CUT + reader.octets[start : reader.at]


def lowered_body(reader: Reader, spares: Spares, stores: Stores) -> bytes:
    """The instructions of a function, to the end of its octets."""
    octets, out, pushed_at = reader.octets, bytearray(), -1
    while not reader.is_at_end():
        start = reader.at
        opcode = reader.octet()
        kind = KINDS.get(opcode)
        if kind is None:
            raise Refused(f"the instruction {opcode:02x} is not expected")
        if kind == MORE:
            out += lowered_more(reader, start, spares)
            pushed_at = -1
            continue
        if kind in (LOAD, STORE):
            instruction = access(reader, opcode)
        else:
            skip_after(reader, kind)
            instruction = octets[start : reader.at]
        before = len(out)
        if kind == LOAD:
            out += CUT + instruction
        elif kind == STORE and pushed_at >= 0:  # the value was only just put there: the address is cut before
            out[pushed_at:pushed_at] = CUT
            out += instruction
        elif kind == STORE:
            out += stores(instruction, spares)
        elif kind == SIZE:
            out += instruction + WIDEN
        elif kind == GROW:
            out += CUT + instruction + WIDEN
        else:
            out += instruction
        pushed_at = before if opcode in PUSHES else -1
    return bytes(out)


def lowered_function(body: bytes, parameters: int, stores: Stores) -> bytes:
    """A function, whose locals come before its instructions."""
    reader = Reader(body)
    groups, count, start = reader.number(), parameters, reader.at
    for _ in range(groups):
        count += reader.number()
        reader.octet()
    locals_before = body[start : reader.at]
    spares = Spares(count)
    instructions = lowered_body(reader, spares, stores)
    added = b"".join(number(1) + bytes([kind]) for kind in spares.types)
    return number(groups + len(spares.types)) + locals_before + added + instructions


def parameters_of(content: bytes) -> list[int]:
    """How many parameters each type of function has."""
    reader, counts = Reader(content), []
    for _ in range(reader.number()):
        if reader.octet() != 0x60:
            raise Refused("a type is no function's")
        counts.append(len(reader.counted()))
        reader.counted()
    return counts


def lowered_code(content: bytes, functions: bytes, types: bytes, stores: Stores) -> bytes:
    """The section of code, where the section of functions has the type of each."""
    parameters, of_function, reader = parameters_of(types), Reader(functions), Reader(content)
    count = reader.number()
    if of_function.number() != count:
        raise Refused("functions and code differ in number")
    bodies = [lowered_function(reader.counted(), parameters[of_function.number()], stores) for _ in range(count)]
    return number(count) + b"".join(counted(it) for it in bodies)


def lowered_memory(content: bytes) -> bytes:
    """The section of memories: the flag of 64 bits goes."""
    reader = Reader(content)
    count, flags = reader.number(), reader.octet()
    if count != 1 or flags not in (4, 5):
        raise Refused("the module has not one memory of 64 bits")
    return number(1) + bytes([flags & ~4]) + content[reader.at :]


def lowered_data(content: bytes) -> bytes:
    """The section of data: the place of each piece becomes an i32.const."""
    reader = Reader(content)
    count = reader.number()
    out = number(count)
    for _ in range(count):
        if reader.number() != 0 or reader.octet() != 0x42:
            raise Refused("a piece of data has no place of its own")
        start = reader.at
        reader.skip_number()
        place = content[start : reader.at]
        if reader.octet() != END:
            raise Refused("the place of a piece of data is no number")
        out += number(0) + b"\x41" + place + bytes([END]) + counted(reader.counted())
    return out


def lowered(module: bytes, stores: Stores = lowered_store) -> bytes:
    """The module with addresses of 32 bits. Custom sections go. Another way to lower stores is a fault, to be found by tests."""
    sections = [it for it in sections_of(module) if it.number != CUSTOM]
    types, functions = content_of(sections, TYPES), content_of(sections, FUNCTIONS)

    def content(section: Section) -> bytes:
        if section.number == MEMORIES:
            return lowered_memory(section.content)
        if section.number == CODE:
            return lowered_code(section.content, functions, types, stores)
        return lowered_data(section.content) if section.number == DATA else section.content

    return module_of([Section(it.number, content(it)) for it in sections])
