"""Lists of ranges and of locations, as they are printed of their sections."""
import re
from dataclasses import dataclass, field

OLD_RANGE = re.compile(r"^([0-9a-f]{8,16}) (?:([0-9a-f]{8,16}) ([0-9a-f]{8,16})|<End of list>)$")
RANGE = re.compile(r"^0x([0-9a-f]+): \[(DW_RLE_\w+) *\](?:: +(.*))?$")
BEGIN = re.compile(r"^0x([0-9a-f]+): *$")
OLD_LOCATION = re.compile(r"^ +\(0x([0-9a-f]+), 0x([0-9a-f]+)\)(?:: (.*))?$")
EXPRESSION = re.compile(r"^ +=> (?:\[.*?\)(?: \"[^\"]*\")?|<default>): (.*)$")
LOCATION = re.compile(r"^ +(DW_LLE_\w+) *\(([^)]*)\)(?:: (.*))?$")
TABLE_OFFSET = re.compile(r"^0x([0-9a-f]+) => 0x([0-9a-f]+)$")
NUMBER = re.compile(r"0x([0-9a-f]+)")
# the kinds of items of lists before DWARF 5
PAIR, BASE, END = "pair", "base", "end"


@dataclass
class Item:
    kind: str
    numbers: tuple = ()
    expression: str = ""


@dataclass
class List:
    offset: int
    number: int
    items: list = field(default_factory=list)


class Lists:
    """The lists of a section, and other lines: headers, and the lists that a table of offsets names."""

    def __init__(self, name, lines):
        self.all, self.by_offset, self.other = [], {}, []
        read = {".debug_ranges": self._old_range, ".debug_loc": self._old_location, ".debug_rnglists": self._range}.get(name, self._location)
        self._is_ended = True
        for line in lines:
            if line.strip():
                read(line)

    def at(self, offset):
        return self.by_offset.get(offset)

    def offsets_by_number(self):
        """The other lines, with the number of a list in the place of each offset in a table, and without lengths."""
        found = []
        for line in self.other:
            offset = TABLE_OFFSET.match(line)
            named = self.at(int(offset[2], 16)) if offset else None
            found.append(f"list {named.number}" if named else re.sub(r"^0x[0-9a-f]+: |length = 0x[0-9a-f]+", "", line))
        return found

    def _begin(self, offset):
        self.all.append(List(offset, len(self.all)))
        self.by_offset[offset] = self.all[-1]
        self._is_ended = False

    def _add(self, kind, numbers=(), expression=""):
        self.all[-1].items.append(Item(kind, numbers, expression))

    def _old_range(self, line):
        it = OLD_RANGE.match(line)
        if not it:
            return self.other.append(line)
        if self._is_ended:
            self._begin(int(it[1], 16))
        if it[2] is None:
            self._is_ended = True
            return self._add(END)
        self._add_pair(it[2], it[3])

    def _add_pair(self, low, high, expression=""):
        is_base = set(low) == {"f"}
        self._add(BASE if is_base else PAIR, (int(high, 16),) if is_base else (int(low, 16), int(high, 16)), expression)

    def _old_location(self, line):
        begin, pair = BEGIN.match(line), OLD_LOCATION.match(line)
        if begin:
            self._begin(int(begin[1], 16))
        elif pair and self.all:
            self._add_pair(pair[1], pair[2], pair[3] or "")
        else:
            self._expression(line)

    def _expression(self, line):
        """An expression in a line of its own, which is that of the last item; or another line."""
        expression = EXPRESSION.match(line)
        if expression and self.all and self.all[-1].items:
            self.all[-1].items[-1].expression = expression[1]
        else:
            self.other.append(line)

    def _range(self, line):
        it = RANGE.match(line)
        if not it:
            return self.other.append(line)
        if self._is_ended:
            self._begin(int(it[1], 16))
        written = (it[3] or "").split(" => ")[0]
        self._add(it[2], tuple(int(number, 16) for number in NUMBER.findall(written)))
        self._is_ended = it[2] == "DW_RLE_end_of_list"

    def _location(self, line):
        begin, it = BEGIN.match(line), LOCATION.match(line)
        if begin:
            self._begin(int(begin[1], 16))
        elif it and self.all:
            self._add(it[1], tuple(int(number, 16) for number in NUMBER.findall(it[2])), it[3] or "")
        else:
            self._expression(line)
