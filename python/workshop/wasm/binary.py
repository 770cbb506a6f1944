"""The binary form of a WebAssembly module: numbers, sections, and the notes that a module carries in sections of its own."""

import dataclasses

HEAD = b"\0asm\1\0\0\0"
CUSTOM, TYPES, IMPORTS, FUNCTIONS, MEMORIES, CODE, DATA = 0, 1, 2, 3, 5, 10, 11


class Refused(Exception):
    """Why a module can't be taken."""


@dataclasses.dataclass(frozen=True)
class Section:
    """A section: its number and what is in it."""

    number: int
    content: bytes


class Reader:
    """Reads octets from the beginning."""

    def __init__(self, octets: bytes, at: int = 0) -> None:
        self.octets = octets
        self.at = at

    def is_at_end(self) -> bool:
        return self.at == len(self.octets)

    def octet(self) -> int:
        self.at += 1
        return self.octets[self.at - 1]

    def number(self) -> int:
        """An unsigned number in LEB128."""
        value = shift = 0
        while True:
            octet = self.octets[self.at]
            self.at += 1
            value |= (octet & 127) << shift
            if octet < 128:
                return value
            shift += 7

    def skip_number(self) -> None:
        """Goes past a number in LEB128, signed or not."""
        while self.octets[self.at] > 127:
            self.at += 1
        self.at += 1

    def take(self, count: int) -> bytes:
        if self.at + count > len(self.octets):
            raise Refused("the module ends too early")
        self.at += count
        return self.octets[self.at - count : self.at]

    def counted(self) -> bytes:
        """Octets with their number before them."""
        return self.take(self.number())


def number(value: int) -> bytes:
    """Spells an unsigned number in LEB128."""
    spelled = bytearray()
    while value > 127:
        spelled.append(value & 127 | 128)
        value >>= 7
    spelled.append(value)
    return bytes(spelled)


def counted(octets: bytes) -> bytes:
    """Spells octets with their number before them."""
    return number(len(octets)) + octets


def sections_of(module: bytes) -> list[Section]:
    """The sections of a module, in their order."""
    if not module.startswith(HEAD):
        raise Refused("this is no module of WebAssembly")
    reader, sections = Reader(module, len(HEAD)), []
    while not reader.is_at_end():
        sections.append(Section(reader.octet(), reader.counted()))
    return sections


def module_of(sections: list[Section]) -> bytes:
    """The module of these sections."""
    return HEAD + b"".join(bytes([it.number]) + counted(it.content) for it in sections)


def content_of(sections: list[Section], wanted: int) -> bytes:
    """What is in the one section of this number."""
    found = [it.content for it in sections if it.number == wanted]
    if len(found) != 1:
        raise Refused(f"the module has {len(found)} sections of number {wanted}")
    return found[0]


def note_of(module: bytes, name: str) -> bytes | None:
    """What is in the custom section of this name; None where there is no such section."""
    for section in sections_of(module):
        if section.number == CUSTOM:
            reader = Reader(section.content)
            if reader.counted() == name.encode():
                return section.content[reader.at :]
    return None


def with_notes(module: bytes, notes: dict[str, bytes]) -> bytes:
    """The module with these custom sections at its end, in place of all that it had."""
    kept = [it for it in sections_of(module) if it.number != CUSTOM]
    return module_of([*kept, *(Section(CUSTOM, counted(name.encode()) + text) for name, text in notes.items())])


def memory_of(sections: list[Section]) -> tuple[int, int]:
    """The flags of the one memory of a module, and how many pages of 64 KiB it begins with."""
    reader = Reader(content_of(sections, MEMORIES))
    count, flags, least = reader.number(), reader.octet(), reader.number()
    if count != 1:
        raise Refused(f"the module has {count} memories")
    return flags, least


def least_pages(module: bytes) -> int:
    """How many pages of memory a module begins with."""
    return memory_of(sections_of(module))[1]


def with_greatest(module: bytes, pages: int) -> bytes:
    """The module with a memory that grows to this many pages at most, but never below those that it begins with."""
    sections = sections_of(module)
    flags, least = memory_of(sections)
    limits = number(1) + bytes([flags | 1]) + number(least) + number(max(pages, least))
    return module_of([Section(MEMORIES, limits) if it.number == MEMORIES else it for it in sections])
