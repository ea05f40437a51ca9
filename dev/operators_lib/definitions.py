"""The definitions of operators, which are by hand: they are read here, and never written.

A row of a definition is an equation, such as `meaning (operator.Call func) = operation (Byte 0x10) (index Funcs func ∷ [])`."""
import re
from collections import defaultdict
from dataclasses import dataclass, replace
from functools import cached_property
from pathlib import Path

from . import names

SPECS = "crates/wasm_operators/specs/"
OPCODES = SPECS + "Opcodes.antt"
ATOMICS = SPECS + "AtomicOpcodes.antt"
MEANING = SPECS + "Meaning.antt"
REFERENCES = SPECS + "ReferenceOperations.antt"
INSTRUCTIONS = "crates/wasm_body/specs/InstructionTable.antt"
CONTROL = "crates/wasm_body/specs/Control.antt"
RULES = "crates/wasm_typing/specs/RuleTable.antt"

EQUATION = re.compile(r"^(\w+) (?:\((?:\w+\.)?([A-Z]\w*)((?: \w+)*)\)|(?:\w+\.)?([A-Z]\w*)) =\s*(.*)$", re.M)
OPCODE = re.compile(r"\b(?:Byte|Prefixed (0x\w\w)) (0x[0-9a-f]+|\d+)")
BY_NULL = re.compile(r"\bby_null \S+ (\d+) (\d+)")
TABLE = re.compile(r"^abbrev pub (\w+)\b.* : (?:Width → )?List \(ℕ × ")
# A row for a number, or for a range up to it; or such a case of a function.
TABLE_ROW = re.compile(r"(?:^    \(|\bnat_le (?P<case>b|n) )(?P<last>0x[0-9a-f]+|\d+)(?:, | then )"
                       r"(?P<contents>.*?)(?:\) ∷)?(?:  -- .*)?$")
# `kinds_of_byte` has cases for bytes, `kinds_after` for numbers after 0xfc.
CASES = {"b": "byte", "n": "bulk"}
# the prefix byte of each table of opcodes
PREFIXES = {"bulk": "0xfc", "aggregate": "0xfb", "vector": "0xfd", "atomic": "0xfe"}


@dataclass(frozen=True)
class Opcode:
    """A byte, or a prefix byte and a number: as the definition writes them."""
    prefix: str  # empty if the opcode is a byte
    number: str

    @property
    def key(self):
        return self.prefix, int(self.number, 0)

    def code(self):
        return f"Prefixed({self.prefix}, {self.number})" if self.prefix else f"Byte({self.number})"


@dataclass(frozen=True)
class Immediate:
    kind: str
    space: str  # of an index
    name: str


@dataclass(frozen=True)
class Row:
    """A row of a table that has one for each operator or instruction."""
    function: str
    variant: str
    arguments: tuple
    right: str

    @cached_property
    def opcode(self):
        if found := BY_NULL.search(self.right):
            return Opcode("0xfb", found[1])
        found = OPCODE.search(self.right)
        return found and Opcode(found[1] or "", found[2])

    @cached_property
    def opcode_by_null(self):
        """The second opcode, of a test or cast that null passes."""
        found = BY_NULL.search(self.right)
        return found and Opcode("0xfb", found[2])

    @cached_property
    def immediates(self):
        """Those of `operation (OPCODE) (IMMEDIATES)`; of another right side none."""
        found = re.match(r"operation \([^)]*\) \((.*) ∷ \[\]\)$", self.right)
        return tuple(map(immediate, re.split(r" ∷ (?![^(]*\))", found[1]))) if found else ()

    @property
    def is_operation(self):
        return self.right.startswith("operation ")


@dataclass(frozen=True)
class TableRow:
    """A row of `Opcodes.antt` or `RuleTable.antt`: of one number, or of a range up to it."""
    table: str
    first: int
    last: int
    contents: str
    path: str
    line: int


def immediate(text):
    kind, *words = text.split(" ")
    space = words.pop(0) if kind == "index" else ""
    name = words[0] if words else ""
    return Immediate(kind, space, name.split(".")[1] if name.startswith("x.") else name)


def equations(top, path):
    """The rows of all tables of a file."""
    rows = EQUATION.findall((top / path).read_text())
    return [Row(function, variant or plain, tuple(arguments.split()), right) for function, variant, arguments, plain, right in rows]


def table_rows(top, path):
    """The rows of a file of tables of opcodes, and the cases of its functions."""
    rows, table, after = [], "", defaultdict(int)
    for number, line in enumerate((top / path).read_text().splitlines(), 1):
        if found := TABLE.match(line):
            table = found[1]
        if found := TABLE_ROW.search(line):
            name = CASES.get(found["case"], table)
            last, contents = int(found["last"], 0), found["contents"]
            first = last if name.endswith("_rows") else after[name]
            after[name] = last + 1
            if not contents.startswith("row_at "):
                rows.append(TableRow(name, first, last, contents, path, number))
    return rows


class Definitions:
    """All rows, in the order in which the definitions have them."""

    def __init__(self, top):
        self.top = Path(top)
        self.unary = self.family("UnaryOperations", "unary_row")
        self.binary = self.family("BinaryOperations", "binary_row")
        self.ternary = self.family("TernaryOperations", "")
        accesses = equations(self.top, SPECS + "AccessOperations.antt")
        self.loads = [row for row in accesses if row.function == "load_opcode"]
        self.stores = [row for row in accesses if row.function == "store_opcode"]
        vectors = equations(self.top, SPECS + "VectorAccessOpcodes.antt")
        self.vector_accesses = [row for row in vectors if row.function == "vector_access_opcode"]
        self.atomics = equations(self.top, ATOMICS)
        self.operators = [row for row in equations(self.top, MEANING) if row.function == "meaning"]
        self.references = self.reference_rows()
        self.instructions = [row for row in equations(self.top, INSTRUCTIONS) if row.function == "operation_of"]
        self.instruction = {row.variant: row for row in self.instructions}
        self.opcodes = table_rows(self.top, OPCODES)
        self.rules = table_rows(self.top, RULES)

    def family(self, name, row):
        """The rows of the operators of one, two or three operands: the tables in the order in which `row` looks for one."""
        path = SPECS + name + ".antt"
        rows = [x for x in equations(self.top, path) if x.opcode]
        order = re.search(rf"^{row} op = (.*)$", (self.top / path).read_text(), re.M) if row else None
        tables = re.findall(r"\((\w+) op\)", order[1]) if order else [rows[0].function]
        return [x for table in tables for x in rows if x.function == table]

    def reference_rows(self):
        """The opcode and the immediates of each as one row."""
        rows = equations(self.top, REFERENCES)
        immediates = {row.variant: row.right for row in rows if row.function == "reference_immediates"}
        opcodes = [row for row in rows if row.function == "reference_opcode"]
        return [replace(row, right=f"operation ({row.right}) ({immediates.get(row.variant)})") for row in opcodes]

    def roles(self):
        """The opcodes of operators that aren't plain, as the rows of `Control.antt` have them: bytes, and numbers after 0xfb."""
        text = (self.top / CONTROL).read_text()
        return {("" if number.startswith("0x") else "0xfb", int(number, 0)) for number in re.findall(r"^    \((\w+), an?_\w+\) ∷", text, re.M)}

    def named(self):
        """Each operator: its name, its opcode, and its row."""
        for row in self.unary + self.binary + self.ternary + self.vector_accesses + self.operators + self.references:
            if row.opcode:
                yield names.standard(row.variant), row.opcode, row
            if row.opcode_by_null:
                yield names.standard(row.variant), row.opcode_by_null, row
        for row in self.loads + self.stores:
            yield names.access(row.variant, row.arguments, row.function.split("_")[0]), row.opcode, row
        yield from self.named_atomics()

    def named_atomics(self):
        """Those that aren't loads or stores. Seven opcodes, one for each width, follow the first of an update and of `cmpxchg`."""
        widths = [row for row in self.atomics if row.function == "width_number"]
        updates = [row for row in self.atomics if row.function == "first_atomic"]
        exchange = re.search(r"cmpxchg_opcode width = Prefixed 0xfe \((\w+) \+", (self.top / ATOMICS).read_text())
        firsts = [(row.variant.lower(), row, row.right) for row in updates] + [("cmpxchg", None, exchange[1])]
        for row in self.atomics:
            if row.function == "atomic_opcode" and row.opcode:
                yield names.standard(row.variant), row.opcode, row
        for word, row, first in firsts:
            for width in widths:
                yield names.update(width.variant, word), Opcode("0xfe", hex(int(first, 0) + int(width.right, 0))), row or width


def row_at(rows, opcode):
    """The row of a table of opcodes for this one, if there is one."""
    prefix, number = opcode
    found = [row for row in rows if PREFIXES.get(row.table.split("_")[0], "") == prefix and row.first <= number <= row.last]
    return max(found, key=lambda row: row.first, default=None)
