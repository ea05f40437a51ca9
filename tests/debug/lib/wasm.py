"""A module as bytes: its sections, the bodies of its functions, and other contents of its custom sections."""
from dataclasses import dataclass

PREAMBLE = 8
CUSTOM, TYPES, IMPORTS, FUNCTIONS, CODE = 0, 1, 2, 3, 10


def read_number(contents, at):
    """An unsigned LEB128, and where it ends."""
    value = shift = 0
    while True:
        byte = contents[at]
        at += 1
        value |= (byte & 0x7F) << shift
        shift += 7
        if byte < 0x80:
            return value, at


def number(value):
    """The shortest unsigned LEB128."""
    written = bytearray()
    while value >= 0x80:
        written.append(value & 0x7F | 0x80)
        value >>= 7
    return bytes(written) + bytes([value])


def sized(contents):
    return number(len(contents)) + contents


@dataclass
class Section:
    """A section: its id, the place of its first byte, and those where its contents begin and end."""

    kind: int
    start: int
    begin: int
    end: int
    # of a custom section: its name, and where the bytes after it begin
    name: str = ""
    contents_at: int = 0


def sections_of(module):
    """The sections of a module, in order."""
    sections, at = [], PREAMBLE
    while at < len(module):
        size, begin = read_number(module, at + 1)
        section = Section(module[at], at, begin, begin + size)
        if section.kind == CUSTOM:
            length, name = read_number(module, begin)
            section.name, section.contents_at = module[name : name + length].decode("utf-8", "replace"), name + length
        sections.append(section)
        at = section.end
    return sections


def is_debug(name):
    return name.startswith(".debug_")


def debug_sections(module):
    """The sections of DWARF, in order: name and contents."""
    return [(it.name, bytes(module[it.contents_at : it.end])) for it in sections_of(module) if it.kind == CUSTOM and is_debug(it.name)]


def with_debug(module, contents):
    """The module with these contents of its sections of DWARF, which are given by name; those that aren't named stay."""
    parts = [module[:PREAMBLE]]
    for it in sections_of(module):
        if it.kind == CUSTOM and is_debug(it.name) and it.name in contents:
            parts.append(b"\0" + sized(sized(it.name.encode()) + contents[it.name]))
        else:
            parts.append(module[it.start : it.end])
    return b"".join(parts)


def contents_of(module, kind):
    """Where the contents of the section of this kind begin and end: nowhere if there is none."""
    for it in sections_of(module):
        if it.kind == kind:
            return it.begin, it.end
    return 0, 0


def code_begin(module):
    """The place from which addresses of the code are counted."""
    return contents_of(module, CODE)[0]


def bodies_of(module):
    """Where each body of the code section begins and ends, counted from the contents of that section."""
    begin, end = contents_of(module, CODE)
    if begin == end:
        return []
    count, at = read_number(module, begin)
    bodies = []
    for _ in range(count):
        size, at = read_number(module, at)
        bodies.append((at - begin, at + size - begin))
        at += size
    return bodies


def counts_of_parameters(module):
    """How many parameters each function with a body has."""
    counts = []
    at, end = contents_of(module, TYPES)
    if at < end:
        count, at = read_number(module, at)
        for _ in range(count):
            parameters, at = read_number(module, at + 1)
            results, at = read_number(module, at + parameters)
            at += results
            counts.append(parameters)
    at, end = contents_of(module, FUNCTIONS)
    if at == end:
        return []
    count, at = read_number(module, at)
    found = []
    for _ in range(count):
        index, at = read_number(module, at)
        found.append(counts[index])
    return found
