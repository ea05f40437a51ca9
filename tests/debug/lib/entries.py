"""The entries of `.debug_info` and `.debug_types`, as they are printed: units, and in each the entries with their attributes."""
import re
from dataclasses import dataclass, field

UNIT = re.compile(r"^0x([0-9a-f]+): (\w+ Unit): (.*)$")
ENTRY = re.compile(r"^0x([0-9a-f]+): ( *)(DW_TAG_\w+|NULL)(?: \[(\d+)\])?(.*)$")
ATTRIBUTE = re.compile(r"^ +(DW_AT_\w+) \[(DW_FORM_\w+)\]\t\( ?(.*)$")
NEXT_UNIT = re.compile(r" \(next unit at 0x([0-9a-f]+)\)$")
LENGTH = re.compile(r"length = 0x[0-9a-f]+")
TYPE_OFFSET = re.compile(r"type_offset = 0x([0-9a-f]+)")
BRACES = re.compile(r"\{0x([0-9a-f]+)\}")
HEXADECIMAL = re.compile(r"0x([0-9a-f]+)")
DECIMAL = re.compile(r"-?\d+\)$")
INDEXED_ADDRESS = re.compile(r"indexed \(([0-9a-f]+)\) address = (?:0x([0-9a-f]+)|.*)")
ADDRESS_FORMS = re.compile(r"DW_FORM_(addr|addrx[1-4]?|GNU_addr_index)$")

@dataclass
class Attribute:
    name: str
    form: str
    # what is printed after the first parenthesis, with line breaks
    text: str

    def is_address(self):
        return bool(ADDRESS_FORMS.match(self.form))

    def number(self):
        """The first number that is printed, or None. One of a LEB128 is printed in decimal."""
        if DECIMAL.match(self.text):
            return int(self.text[:-1])
        found = HEXADECIMAL.search(self.text)
        return int(found[1], 16) if found else None

    def index(self):
        """The index of an address, in `.debug_addr`."""
        found = INDEXED_ADDRESS.match(self.text)
        return int(found[1], 16) if found else None

    def address(self):
        """The address, or None if it isn't printed."""
        found = INDEXED_ADDRESS.match(self.text)
        if found:
            return int(found[2], 16) if found[2] else None
        return self.number()

    def offset_of_list(self):
        """Where the list is that is named, by its offset or its index."""
        first = self.text.split("\n")[0]
        found = re.search(r"(?:rangelist|loclist) = 0x([0-9a-f]+)", first) or HEXADECIMAL.match(first)
        return int(found[1], 16) if found else None

    def target(self):
        """The offset of the entry that is named."""
        found = BRACES.search(self.text) or HEXADECIMAL.match(self.text)
        return int(found[1], 16) if found else None


@dataclass
class Entry:
    offset: int
    depth: int
    tag: str
    # what is printed of its abbreviation
    code: str
    unit: object = None
    parent: object = None
    # its number in the section
    index: int = 0
    attributes: list = field(default_factory=list)

    def get(self, name):
        return next((it for it in self.attributes if it.name == name), None)

    def target(self, name, entries):
        """The entry that this attribute names, or None."""
        attribute = self.get(name)
        return entries.at(attribute.target()) if attribute else None


@dataclass
class Unit:
    offset: int
    kind: str
    header: str
    entries: list = field(default_factory=list)

    def number_in_header(self, name):
        found = re.search(rf"{name} = 0x([0-9a-f]+)", self.header)
        return int(found[1], 16) if found else None

    def version(self):
        return self.number_in_header("version")

    def address_size(self):
        return self.number_in_header("addr_size")

    def end(self):
        found = NEXT_UNIT.search(self.header)
        return int(found[1], 16) if found else None

    def plain_header(self):
        """The header without what follows from the sizes of entries."""
        return TYPE_OFFSET.sub("", LENGTH.sub("", NEXT_UNIT.sub("", self.header)))

    def number_of(self, name):
        """The number that an attribute of its first entry has."""
        attribute = self.entries[0].get(name) if self.entries else None
        return attribute.address() if attribute else None


class Entries:
    """All entries of a section."""

    def __init__(self, lines):
        self.units, self.all, self.by_offset = [], [], {}
        self._open, self._attribute = [], None
        for line in lines:
            self._read(line)

    def at(self, offset):
        return self.by_offset.get(offset)

    def unit_at(self, offset):
        """The number of the unit that begins here, or None."""
        return next((number for number, it in enumerate(self.units) if it.offset == offset), None)

    def _read(self, line):
        entry, attribute, unit = ENTRY.match(line), ATTRIBUTE.match(line), UNIT.match(line)
        if unit:
            self.units.append(Unit(int(unit[1], 16), unit[2], unit[3]))
            self._open, self._attribute = [], None
        elif entry:
            self._add(int(entry[1], 16), len(entry[2]) // 2, entry[3], (entry[4] or "") + ("*" if entry[5].startswith(" *") else ""))
        elif attribute and self.all:
            self._attribute = Attribute(attribute[1], attribute[2], attribute[3])
            self.all[-1].attributes.append(self._attribute)
        elif self._attribute and line.strip():
            self._attribute.text += "\n" + line.strip()
        if not line.strip():
            self._attribute = None

    def _add(self, offset, depth, tag, code):
        del self._open[depth:]
        unit = self.units[-1] if self.units else None
        entry = Entry(offset, depth, tag, code, unit, self._open[-1] if self._open else None, len(self.all))
        self._open.append(entry)
        self.all.append(entry)
        self.by_offset[offset] = entry
        if unit:
            unit.entries.append(entry)
