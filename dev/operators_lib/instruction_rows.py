"""Instructions: their enum, where it is imported and exported, and the lists that have one row for each."""
import re
from functools import partial

from .names import standard
from .operator_rows import variants
from .parts import Part, merged, wrapped

TREE = "crates/walrus_ir/src/"
WRITING = "crates/walrus_to_operators/"


def modules(definitions):
    """The modules of `walrus_ir`, with their texts."""
    return {path.stem: path.read_text() for path in sorted((definitions.top / TREE).glob("*.rt"))}


def structs(definitions):
    """The instructions that have a struct, with its module."""
    found = {name: module for module, text in modules(definitions).items() for name in re.findall(r"^pub struct (\w+)", text, re.M)}
    return {name: module for name, module in found.items() if name in definitions.instruction}


def enum_rows(definitions, found):
    rows = {row.variant: [f"    /// `{standard(row.variant)}`.", f"    {row.variant}{f'({row.variant})' if row.arguments else ''},"]
            for row in definitions.instructions}
    return merged(found.old, rows, set(), r"(\w+)", keeps_comments=True)


def imports(definitions, found):
    module_of = structs(definitions)
    lines = []
    for module in sorted(set(module_of.values()) - {"instr"}):
        names = sorted(name for name in module_of if module_of[name] == module)
        lines += wrapped(f"use crate::{module}::{{", names, "};") if len(names) > 1 else [f"use crate::{module}::{names[0]};"]
    return lines


def exports(definitions, found):
    """The instructions, among other names that a module has."""
    texts, lines = modules(definitions), [f"pub use {module}::{name};" for name, module in structs(definitions).items()]
    for line in found.old:
        module, name = re.findall(r"\w+", line)[2:]
        if name not in definitions.instruction and (module not in texts or re.search(rf"\b{name}\b", texts[module])):
            lines.append(line)
    return sorted(lines)


def shared(definitions):
    """The instructions without fields whose operator has no fields either, and isn't one on references."""
    operators = {row.variant for row in definitions.operators if not row.arguments}
    return [row.variant for row in definitions.instructions if not row.arguments and row.variant in operators]


def instruction_of_operator(definitions, found):
    rows = {name: [f"        Operator::{name} => Ok(Instr::{name}),"] for name in shared(definitions)}
    return merged(found.old, rows, variants(definitions.operators), r"Operator::(\w+)")


def operator_of_instruction(definitions, found):
    rows = {name: [f"        Instr::{name} => Ok(OutOp::{name}),"] for name in shared(definitions)}
    return merged(found.old, rows, variants(definitions.instructions), r"Instr::(\w+)")


def is_reference_rows(definitions, found):
    references = variants(definitions.references)
    rows = {row.variant: [f"is_reference {pattern(row)} = true"] for row in definitions.instructions if row.variant in references}
    return merged(found.old, rows, set(), r"is_reference \(?instr\.(\w+)")


def others_alone(definitions, found):
    """That an instruction for which no arm of `operator_of` is isn't one of these: a line for each that isn't on references."""
    references = variants(definitions.references)
    others = [row for row in definitions.instructions if row.variant not in references]
    rows = {row.variant: [f"    references_alone {pattern(row)} is = "
                          f"absurd (c.in_default.not-{row.variant}{' x' if row.arguments else ''} is)"] for row in others}
    return merged(found.old, rows, set(), r"references_alone \(?instr\.(\w+)")


def pattern(row):
    return f"(instr.{row.variant} x)" if row.arguments else f"instr.{row.variant}"


def parts():
    yield Part(TREE + "instr.rt", (r"^//! Instructions\.$", r"^$"), r"^use wasm_types::", imports)
    yield Part(TREE + "instr.rt", (r"^pub enum Instr \{$",), r"^\}$", enum_rows)
    yield Part(TREE + "lib.rt", (r"^mod walk;$", r"^$"), "", exports)
    yield Part("crates/walrus_from_operators/src/instructions.rt",
               (r"^pub fn instruction\(", r"^        instruction_row, indices operator,$"), r"^    \)$", instruction_of_operator)
    yield Part(WRITING + "src/operators.rt", (r"^pub fn operator_of<", r"^        operator_row, numbers instr scopes,$"), r"^    \)$",
               operator_of_instruction)
    yield Part(WRITING + "specs/TreeWriting/References.antt", (r"^abbrev pub is_reference ",), r"^is_reference _ = false$",
               is_reference_rows)
    yield Part(WRITING + "proofs/operators/operator_of/Answers.antt", (r"^    references_alone : ",),
               r"^    references_alone _ is = refl$", others_alone)
