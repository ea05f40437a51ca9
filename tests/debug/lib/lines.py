"""The tables of `.debug_line`, as they are printed: in each its header, and its sequences with their operations and rows."""
import bisect
import re
from dataclasses import dataclass, field

TABLE = re.compile(r"^debug_line\[0x([0-9a-f]+)\]$")
ROW = re.compile(r"^ {12}0x([0-9a-f]{8,16}) +(.*?) *$")
OPERATION = re.compile(r"^0x([0-9a-f]+): (.*)$")
SETS = re.compile(r"DW_LNE_set_address \(0x([0-9a-f]+)\)")
MOVES = re.compile(r"DW_LNS_(?:advance_pc|const_add_pc|fixed_advance_pc) \((0x[0-9a-f]+|\d+)\)")
SPECIAL = re.compile(r"address \+= (\d+), ")
COPY, END = "DW_LNS_copy", "DW_LNE_end_sequence"


@dataclass
class Row:
    address: int
    # the line, the column, the file, the instruction set, the discriminator and the flags
    rest: str

    def ends(self):
        return self.rest.endswith("end_sequence")


@dataclass
class Operation:
    """An operation: where it begins, what is printed of it, and its bytes."""

    offset: int
    text: str
    data: bytes = b""


@dataclass
class Sequence:
    operations: list = field(default_factory=list)
    rows: list = field(default_factory=list)

    def first(self):
        """The address of its first row, or None if there is no row. Rows of code that isn't there aren't printed, so operations tell."""
        address = 0
        for it in (operation.text for operation in self.operations):
            sets, special, moves = SETS.search(it), SPECIAL.search(it), MOVES.search(it)
            if sets:
                address = int(sets[1], 16)
            elif moves:
                address += int(moves[1], 0)
            elif special or COPY in it or END in it:
                return address + (int(special[1]) if special else 0)
        return None

    def data(self):
        return b"".join(it.data for it in self.operations)

    def unknown(self):
        """The bytes of operations that aren't known, or define a file: what they say is carried over."""
        return [it.data for it in self.operations if "Unrecognized" in it.text or "DW_LNE_define_file" in it.text]

    def row_at(self, address):
        """The last row at or before this address, or None."""
        index = bisect.bisect_right(self.rows, address, key=lambda it: it.address)
        return self.rows[index - 1] if index else None


@dataclass
class Table:
    offset: int
    header: list = field(default_factory=list)
    sequences: list = field(default_factory=list)


class Lines:
    """All tables of the section, with these bytes."""

    def __init__(self, lines, section):
        self.tables, self._is_ended = [], True
        for line in lines:
            table = TABLE.match(line)
            if table:
                self.tables.append(Table(int(table[1], 16)))
                self._is_ended = True
            elif self.tables and line.strip():
                self._read(self.tables[-1], line)
        self._cut(section)

    def _cut(self, section):
        """Gives each operation its bytes: up to the next one, or to the end of the table."""
        ends = [it.offset for it in self.tables[1:]] + [len(section)]
        for table, end in zip(self.tables, ends):
            operations = [it for sequence in table.sequences for it in sequence.operations]
            for it, after in zip(operations, [it.offset for it in operations[1:]] + [end]):
                it.data = section[it.offset : after]

    def number_at(self, offset):
        """The number of the table that begins here, or None."""
        return next((number for number, it in enumerate(self.tables) if it.offset == offset), None)

    def _read(self, table, line):
        row, operation = ROW.match(line), OPERATION.match(line)
        if operation:
            if self._is_ended:
                table.sequences.append(Sequence())
            table.sequences[-1].operations.append(Operation(int(operation[1], 16), operation[2]))
            self._is_ended = END in operation[2]
        elif row and table.sequences:
            table.sequences[-1].rows.append(Row(int(row[1], 16), row[2]))
        elif "total_length:" not in line:
            table.header.append(line)
