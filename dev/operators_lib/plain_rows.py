"""Plain instructions, those that can be inserted anywhere: their enum, what each is as an instruction, and the opcode of each instruction."""
import re

from .names import standard
from .operator_rows import variants
from .parts import Part, merged, wrapped

CODE = "crates/walrus_insertion/src/plain_instr.rt"
DEFINITION = "crates/walrus_insertion/specs/PlainInstructions.antt"
METERING = "crates/walrus_metering/src/opcodes.rt"
# Immediates with types, and accesses to memory: instructions with these aren't inserted.
LEFT_OUT = re.compile(r"\b(?:load|store|vector_access|atomic|select)_operation\b|\bby_null\b|\bheap\b|\bcast\b")
# an instruction of a family, or of another form in the enum
BY_HAND = {"Select"}


def plain(definitions):
    """The instructions that can be inserted."""
    roles = definitions.roles()
    return [row for row in definitions.instructions
            if not LEFT_OUT.search(row.right) and (row.opcode is None or row.opcode.key not in roles)]


def shape(row):
    return "(x)" if row.arguments else ""


def enum_rows(definitions, found):
    rows = {row.variant: [f"    /// `{standard(row.variant)}`.", f"    {row.variant}{f'({row.variant})' if row.arguments else ''},"]
            for row in plain(definitions)}
    return merged(found.old, rows, BY_HAND, r"(\w+)", keeps_comments=True)


def arms(definitions, found):
    rows = {row.variant: [f"            PlainInstr::{row.variant}{shape(row)} => Instr::{row.variant}{shape(row)},"] for row in plain(definitions)}
    return merged(found.old, rows, BY_HAND, r"PlainInstr::(\w+)")


def equations(definitions, found):
    rows = {row.variant: [f"instr_of (plain.{row.variant} x) = instr.{row.variant} x" if row.arguments
                          else f"instr_of plain.{row.variant} = instr.{row.variant}"] for row in plain(definitions)}
    return merged(found.old, rows, BY_HAND, r"instr_of \(?plain\.(\w+)")


def imports(definitions, found):
    names = sorted({row.variant for row in plain(definitions) if row.arguments} | BY_HAND | {"Instr"})
    return wrapped("use walrus_ir::{", names, "};")


def opcodes(definitions, found):
    """The opcodes of instructions that are in no rows of code, and have one opcode."""
    references = variants(definitions.references)
    rows = {row.variant: [f"        Instr::{row.variant}{'(_)' if row.arguments else ''} => {row.opcode.code()},"] for row in definitions.instructions
            if row.opcode and row.variant not in references and not are_indices(row)}
    return merged(found.old, rows, variants(definitions.instructions), r"Instr::(\w+)")


def are_indices(row):
    return bool(row.immediates) and all(it.kind == "index" for it in row.immediates)


def parts():
    yield Part(CODE, (r"^ghost use Rattle\.walrus_insertion\.", r"^$"), r"^$", imports)
    yield Part(CODE, (r"^pub enum PlainInstr \{$",), r"^\}$", enum_rows)
    yield Part(CODE, (r"^        match self \{$",), r"^        \}$", arms)
    yield Part(DEFINITION, (r"^abbrev pub instr_of ",), "", equations)
    yield Part(METERING, (r"^pub\(crate\) fn opcode_of\(", r"^        with_references, instr,$"), r"^    \)$", opcodes)
