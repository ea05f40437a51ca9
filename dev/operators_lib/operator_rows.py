"""All other operators: the enums `Op` and `ReferenceOp`, and the rows of their opcodes, readers and translations."""
from functools import partial

from .definitions import row_at
from .names import standard
from .parts import Part, merged

ROWS = "crates/wasm_operators/src/"
READERS = "crates/wasm_ops/src/"
# The field of an operator that has an immediate, and its type. Of an index or a number the definition says the name.
FIELDS = {
    "block": ("ty", "BlockType"), "label": ("label", "u32"), "handler": ("depth", "u32"), "outer": ("depth", "u32"),
    "local": ("local", "u32"), "value": ("ty", "RawValType"), "clauses": ("catches", "C"), "heap": ("heap_type", "RawHeapType"),
    "cast": ("cast", "RawCast"), "i32": ("value", "i32"), "i64": ("value", "i64"), "f32": ("bits", "u32"), "f64": ("bits", "u64"),
    "v128": ("bits", "u128"), "lanes": ("indices", "[u8; 16]"),
}
RENAMED = {"type": "ty", "data_segment": "data", "count": "len"}
# The function that reads an immediate.
READ = {"block": "read_block_type", "value": "read_selected", "i32": "read_s32", "i64": "read_s64", "f32": "read_f32", "f64": "read_f64"}
READ |= dict.fromkeys(("index", "label", "handler", "outer", "local"), "read_u32")
# What translates an immediate, if it can change.
CHANGE = {"value": "value_type(with, {name})", "index": "with.index(Space::{space}, {name})"}
CHANGE |= {kind: f"with.{kind}({{name}})" for kind in ("block", "label", "handler", "outer", "local")}
# What an immediate is in the rows of operators on references.
REFERENCE_KINDS = {"heap": "Null", "label": "Label", "number": "Number"}


def field(immediate):
    if immediate.kind in FIELDS:
        return FIELDS[immediate.kind]
    return RENAMED.get(immediate.name, immediate.name), "u32"


def fields(row):
    nullable = [("nullable", "bool")] if "nullable" in row.arguments else []
    return nullable + [field(x) for x in row.immediates if x.kind != "zero_byte"]


def pattern(row):
    """The operator with its fields, as the code has it."""
    names = ", ".join(name for name, _ in fields(row))
    return f"{row.variant} {{ {names} }}" if names else row.variant


def is_indices(definitions, row):
    """Whether it is one of `index_rows!`: it has indices alone, and an instruction of its own."""
    kinds = {immediate.kind for immediate in row.immediates}
    return row.is_operation and kinds == {"index"} and row.variant in definitions.instruction


def simple(definitions):
    """The operators that have rows of their own with no immediate, or with one of a kind that has a field."""
    return [row for row in definitions.operators
            if row.is_operation and not is_indices(definitions, row) and len(row.immediates) < 2 and "t" not in row.arguments]


def variants(rows):
    return {row.variant for row in rows}


# ---- enums

def enum_rows(all_rows, definitions, found):
    rows = {}
    for row in all_rows(definitions):
        if not row.is_operation or "t" in row.arguments:
            continue
        inside = [f"        {name}: {kind}," for name, kind in fields(row)]
        variant = [f"    {row.variant} {{", *inside, "    },"] if inside else [f"    {row.variant},"]
        rows[row.variant] = [f"    /// `{standard(row.variant)}`", *variant]
    return merged(found.old, rows, variants(all_rows(definitions)), r"(\w+)", keeps_comments=True)


# ---- rows that macros expand

def index_groups(definitions, found):
    lines = []
    for table, form in (("control_rows", "Byte"), ("variable_rows", "Byte"), ("constant_rows", "Byte"), ("bulk_rows", "Prefixed 0xfc")):
        lines.append(f"            ({form}) {{")
        for row in definitions.operators:
            if is_indices(definitions, row) and row_at(definitions.opcodes, row.opcode.key).table == table:
                lines.append(f"                {row.opcode.number} {row.variant} {{ {immediates(definitions, row)} }}")
        lines.append("            }")
    return lines


def immediates(definitions, row):
    """Each immediate: its name in the operator, its name in the instruction, and what it is."""
    return ", ".join(
        f"{field(ours)[0]} {theirs.name} {ours.space or REFERENCE_KINDS[ours.kind]}"
        for ours, theirs in zip(row.immediates, definitions.instruction[row.variant].immediates))


def block(rows):
    return ["            {", *(f"                {row}" for row in rows), "            }"]


def reference_groups(definitions, found):
    tests = [row for row in definitions.references if row.opcode_by_null]
    casts = [row for row in definitions.references if row.immediates and row.immediates[0].kind == "cast"]
    lines = block(f"{row.opcode.number} {row.opcode_by_null.number} {row.variant}" for row in tests)
    lines += block(f"{row.opcode.number} {row.variant}" for row in casts)
    for prefix, form in (("", "Byte"), ("0xfb", "Prefixed 0xfb")):
        rows = [row for row in definitions.references if row.opcode.prefix == prefix and row not in tests + casts]
        group = block(f"{row.opcode.number} {row.variant} {{ {immediates(definitions, row)} }}" for row in rows if row.immediates)
        plain = block(f"{row.opcode.number} {row.variant}" for row in rows if not row.immediates)
        lines += [f"            ({form}) {{"] + group[1:-1] + ["            } {"] + plain[1:]
    return lines


# ---- rows of operators without such a row

def part_rows(definitions, found):
    """The opcode and the immediates of each."""
    rows = {}
    for row in simple(definitions):
        shape = "Nothing"
        for immediate in row.immediates:
            shape = immediate.kind.title().replace("_", "")
            shape += f"($crate::Space::{immediate.space}, *{field(immediate)[0]})" if immediate.space else ""
            shape += f"(*{field(immediate)[0]})" if immediate.kind in FIELDS else ""
        rows[row.variant] = [f"            $crate::Op::{pattern(row)} => $each!($with $crate::Opcode::{row.opcode.code()}, "
                             f"$crate::Immediates::{shape}),"]
    return merged(found.old, rows, variants(definitions.operators), r"\$crate::Op::(\w+)")


def read_rows(table, last, definitions, found):
    """The reader's arm of each, by its opcode; `last` is the variant whose arm has no number."""
    rows, known = {}, {"_"}
    for row in definitions.operators:
        if not row.is_operation or is_indices(definitions, row) or row_at(definitions.opcodes, row.opcode.key).table != table:
            continue
        number = "_" if row.variant == last else row.opcode.number
        read = [READ.get(immediate.kind) for immediate in row.immediates]
        if not read:
            rows[number] = [f"            {number} => Ok((Operator::{row.variant}, $bytes)),"]
        elif len(read) == 1 and read[0]:
            rows[number] = [f"            {number} => made!({read[0]}($bytes), {fields(row)[0][0]} => Operator::{pattern(row)}),"]
        else:
            known.add(number)
    return merged(found.old, rows, known, r"(0x\w\w|\d+|_) =>")


def translated_rows(definitions, found):
    """The operator with its part translated, if it has one that can change."""
    rows = {}
    for row in simple(definitions):
        change = ""
        for immediate, (name, _) in zip(row.immediates, fields(row)):
            change = CHANGE.get(immediate.kind, "").format(name=name, space=immediate.space)
        if change:
            rows[row.variant] = [f"        Operator::{pattern(row)} => match {change} {{",
                                 f"            Ok({name}) => Ok(OutOp::{pattern(row)}),",
                                 "            Err(fault) => Err(fault),", "        },"]
        else:
            rows[row.variant] = [f"        Operator::{pattern(row)} => Ok(OutOp::{pattern(row)}),"]
    return merged(found.old, rows, variants(definitions.operators), r"Operator::(\w+)")


def parts():
    yield Part(ROWS + "operator.rt", (r"^pub enum Op<T, C> \{$",), r"^\}$", partial(enum_rows, lambda d: d.operators))
    yield Part(ROWS + "reference_operator.rt", (r"^pub enum ReferenceOp \{$",), r"^\}$", partial(enum_rows, lambda d: d.references))
    rows = ROWS + "operator_rows.rt"
    yield Part(rows, (r"^macro_rules! index_rows ", r"^            \(\$\(\$context\)\*\)$"), r"^        \}$", index_groups)
    yield Part(rows, (r"^macro_rules! reference_rows ", r"^            \(\$\(\$context\)\*\)$"), r"^        \}$", reference_groups)
    yield Part(rows, (r"^macro_rules! parts_of ", r"^        match \$op \{$"), r"^        \}$", part_rows)
    for name, last in (("control", ""), ("variable", ""), ("constant", "F64Const")):
        yield Part(READERS + "byte_reader.rt", (rf"^macro_rules! read_{name}_byte ", r"^        match \$byte \{$"), r"^        \}$",
                   partial(read_rows, f"{name}_rows", last))
    yield Part(READERS + "prefix_reader.rt", (r"^macro_rules! read_number ", r"^        match \$number \{$"), r"^        \}$",
               partial(read_rows, "bulk_rows", ""))
    yield Part("crates/wasm_renumber/src/operators.rt", (r"^pub fn translated<", r"^        translated_row, with operator,$"), r"^    \)$",
               translated_rows)
