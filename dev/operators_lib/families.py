"""The operators of one, two or three operands, and accesses: their enums, the rows of their opcodes, and their readers."""
import re
from functools import partial

from .names import standard
from .parts import Part, merged

TYPES = "crates/wasm_types/src/"
ROWS = "crates/wasm_operators/src/"
READERS = "crates/wasm_ops/src/"
# The enum of each family of operators with operands, and its variant of `Op`.
OPERANDS = {"unary": ("UnaryOp", "Unop"), "binary": ("BinaryOp", "Binop"), "ternary": ("TernaryOp", "TernOp")}
# The functions that have the opcodes of each family. They have the names of the tables in the definitions.
TABLES = {
    "unary": ("scalar_unary_opcode", "low_vector_unary_opcode", "high_vector_unary_opcode", "extract_opcode"),
    "binary": ("integer_binary_opcode", "float_binary_opcode", "vector_comparison_opcode", "low_vector_binary_opcode",
               "high_vector_binary_opcode", "replace_opcode"),
    "ternary": ("ternary_opcode",),
}
# The functions of readers that have an arm for each opcode of a range: their file, the prefix byte, the enum and the form of the
# results, and their names.
RANGES = (
    ("numeric_reader.rt", "", "Operator", "CommonOperator::{}", ("comparison", "integer_arithmetic", "float_arithmetic", "conversion")),
    ("numeric_reader.rt", "0xfc", "Operator", "Operator::{}", ("saturating_conversion",)),
    ("vector_reader.rt", "0xfd", "Operator", "Operator::{}", (
        "lane", "i8x16_comparison", "i16x8_comparison", "i32x4_comparison", "float_comparison", "i8x16_by_lane", "i8x16_sum", "i8x16_bound",
        "i16x8_by_lane", "i16x8_arithmetic", "f64x2_arithmetic", "float_conversion", "relaxed_lanes", "relaxed_arithmetic")),
    ("vector_reader.rt", "0xfd", "Operator", "Ok((Operator::{}, bytes))", (
        "read_splat", "read_bitwise", "read_i16x8_product", "read_i32x4", "read_i64x2", "read_f32x4")),
    ("access_reader.rt", "", "LoadKind", "LoadKind::{}", ("load_kind",)),
    ("access_reader.rt", "", "StoreKind", "StoreKind::{}", ("store_kind",)),
    ("atomic_reader.rt", "0xfe", "LoadKind", "LoadKind::{}", ("atomic_load_kind",)),
    ("atomic_reader.rt", "0xfe", "StoreKind", "StoreKind::{}", ("atomic_store_kind",)),
    ("vector_access_reader.rt", "0xfd", "LoadSimdKind", "LoadSimdKind::{}", ("wide_load_kind", "lane_kind")),
)


def values(definitions):
    """Each operator with no immediate or with a lane, and each kind of access: its enum, its row, and how the code writes its variant."""
    for family, (enum, variant) in OPERANDS.items():
        for row in getattr(definitions, family):
            yield "Operator", row, f"{variant}({enum}::{row.variant}{' { idx }' if row.arguments else ''})"
    for row in definitions.operators:
        if row.is_operation and not row.immediates:
            yield "Operator", row, row.variant
    for row in definitions.loads:
        yield "LoadKind", row, access_variant(row)
    for row in definitions.stores:
        yield "StoreKind", row, access_variant(row)
    for row in definitions.vector_accesses:
        yield "LoadSimdKind", row, row.variant + ("(lane)" if row.arguments else "")


def access_variant(row):
    """The variant of a load or store with its field, if it has one. The formatter puts a long one on lines of its own."""
    if not row.arguments:
        return row.variant
    field = ("atomic: " if row.arguments[0] in ("true", "false") else "kind: ") + row.arguments[0]
    return f"{row.variant} {{ {field} }}" if len(field) <= 18 else f"{row.variant} {{\n            {field},\n        }}"


# ---- enums

def enum_rows(family, definitions, found):
    rows = {}
    for row in getattr(definitions, family):
        lane = " { idx: u8 }" if family != "vector_accesses" else "(u8)"
        rows[row.variant] = [f"    /// `{standard(row.variant)}`.", f"    {row.variant}{lane if row.arguments else ''},"]
    return merged(found.old, rows, (), r"(\w+)", keeps_comments=family == "vector_accesses")


# ---- opcodes

def opcode_rows(family, table, definitions, found):
    enum, form = OPERANDS[family][0], "{}" if family == "ternary" else "Some({})"
    rows = [row for row in getattr(definitions, family) if row.function == table]
    lines = [f"        {enum}::{row.variant}{' { .. }' if row.arguments else ''} => {form.format(row.opcode.code())}," for row in rows]
    return lines + ["        _ => None,"] * (family != "ternary")


def access_opcode_rows(enum, definitions, found):
    rows = [(row, text.replace("(lane)", "(_)")) for of, row, text in values(definitions) if of == enum]
    return "\n".join(f"        {enum}::{text} => {row.opcode.code()}," for row, text in rows).split("\n")


def lane_rows(family, enum, form, definitions, found):
    """The lane of each operator that has one."""
    rows = [row for row in getattr(definitions, family) if row.arguments]
    return [f"        {enum}::{row.variant}{form}," for row in rows] + ["        _ => None,"]


def first_atomic_rows(definitions, found):
    return [f"        AtomicOp::{row.variant} => {row.right}," for row in definitions.atomics if row.function == "first_atomic"]


# ---- readers

def read_rows(prefix, enum, form, definitions, found):
    """An arm for each number of the range in the function's contract that has an operator; one before these for the others."""
    high = re.search(r"requires (?:high )?\{ \w+ ≤ (\w+) \}", found.head)
    low = re.search(r"requires low \{ (\w+) ≤ \w+ \}", found.head)
    numbers = range(int(low[1], 0) if low else 0, int(high[1], 0) + 1)
    rows = {row.opcode.key[1]: (row.opcode.number, text)
            for of, row, text in values(definitions) if of == enum and row.opcode.prefix == prefix}
    gaps = [str(number) for number in numbers if number not in rows]
    lines = [f"        {' | '.join(gaps)} => Err(ReadFault::UnknownOperator),"] if gaps else []
    arms = [rows[number] for number in numbers if number in rows]
    for number, text in arms:
        lines += f"        {'_' if number == arms[-1][0] else number} => {form.format(text)},".split("\n")
    return lines


def unread(definitions, files):
    """The operators that no reader has, since their opcodes are in no function's range."""
    text = "\n".join(new for path, (_, new) in files.items() if path.startswith(READERS))
    return [row for enum, row, value in values(definitions) if not re.search(rf"{enum}::{re.escape(value)}(?!\w)", text)]


def function(path, name, rows):
    """The arms of the `match` in a function."""
    return Part(path, (rf"\bfn {name}\(", r"^    match \w+ \{$"), r"^    \}$", rows)


def parts():
    for family, (enum, _) in OPERANDS.items():
        yield Part(f"{TYPES}{family}.rt", (rf"^pub enum {enum} \{{$",), r"^\}$", partial(enum_rows, family))
        for table in TABLES[family]:
            yield function(f"{ROWS}{family}_rows.rt", table, partial(opcode_rows, family, table))
    yield Part(TYPES + "memory.rt", (r"^pub enum LoadSimdKind \{$",), r"^\}$", partial(enum_rows, "vector_accesses"))
    yield function(ROWS + "access_rows.rt", "load_opcode", partial(access_opcode_rows, "LoadKind"))
    yield function(ROWS + "access_rows.rt", "store_opcode", partial(access_opcode_rows, "StoreKind"))
    yield function(ROWS + "vector_access_rows.rt", "vector_access_opcode", partial(access_opcode_rows, "LoadSimdKind"))
    yield function(ROWS + "atomic_rows.rt", "first_atomic", first_atomic_rows)
    yield function(ROWS + "unary_rows.rt", "extract_lane", partial(lane_rows, "unary", "UnaryOp", " { idx } => Some(idx)"))
    yield function(ROWS + "binary_rows.rt", "replace_lane", partial(lane_rows, "binary", "BinaryOp", " { idx } => Some(idx)"))
    yield function(ROWS + "vector_access_rows.rt", "access_lane",
                   partial(lane_rows, "vector_accesses", "LoadSimdKind", "(lane) => Some(lane)"))
    for file, prefix, enum, form, functions in RANGES:
        for name in functions:
            yield function(READERS + file, name, partial(read_rows, prefix, enum, form))
