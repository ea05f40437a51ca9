"""The tables of `.debug_addr` and `.debug_aranges`, as they are printed."""
import re
from dataclasses import dataclass, field

ADDRESSES = re.compile(r"^0x([0-9a-f]+): (Address table header: .*)$")
ADDRESS = re.compile(r"^0x([0-9a-f]+)$")
ARANGES = re.compile(r"^Address Range Header: (.*)$")
ARANGE = re.compile(r"^\[0x([0-9a-f]+), 0x([0-9a-f]+)\)")
LENGTH = re.compile(r"length = 0x[0-9a-f]+, ")


@dataclass
class AddressTable:
    offset: int
    header: str
    entries: list = field(default_factory=list)

    def base(self):
        """The offset of its first entry, by which units name it."""
        return self.offset + (16 if "DWARF64" in self.header else 8)


class AddressTables:
    """All tables of `.debug_addr`."""

    def __init__(self, lines):
        self.all = []
        for line in lines:
            header, entry = ADDRESSES.match(line), ADDRESS.match(line)
            if header:
                self.all.append(AddressTable(int(header[1], 16), LENGTH.sub("", header[2])))
            elif entry and self.all:
                self.all[-1].entries.append(int(entry[1], 16))

    def number_at(self, base):
        """The number of the table whose first entry is here, or None."""
        return next((number for number, it in enumerate(self.all) if it.base() == base), None)

    def address(self, base, index):
        """An address of the table whose first entry is at this offset, or None."""
        number = self.number_at(base)
        entries = self.all[number].entries if number is not None else []
        return entries[index] if index is not None and index < len(entries) else None


@dataclass
class RangeTable:
    unit: int
    header: str
    ranges: list = field(default_factory=list)


def range_tables(lines):
    """The tables of `.debug_aranges`, each with the offset of its unit."""
    tables = []
    for line in lines:
        header, it = ARANGES.match(line), ARANGE.match(line)
        if header:
            unit = re.search(r"cu_offset = 0x([0-9a-f]+)", header[1])
            tables.append(RangeTable(int(unit[1], 16), re.sub(r"(length|cu_offset) = 0x[0-9a-f]+, ", "", header[1])))
        elif it and tables:
            tables[-1].ranges.append((int(it[1], 16), int(it[2], 16)))
    return tables
