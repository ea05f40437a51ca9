"""The list of all operators, for the scripts of crates/wbody_rows, and the table of docs/proof/OPCODES.md."""
import re

from .definitions import row_at
from .parts import Missing, Part

LIST = "dev/operators.tsv"
HEADINGS = "first byte\tnumber after a prefix\tname\timmediates"
# The kinds of immediates in the list, where they aren't those of `Opcodes.antt` or spaces of indices.
KINDS = {"handler": "rethrow_depth", "outer": "delegate_depth", "number": "u32", "branch_table": "labels", "access": "memarg",
         "value": "valtype", "i32": "s32", "i64": "s64", "zero_byte": "fence", "memorie": "memory"}


def kinds(definitions, name, opcode):
    """The kinds of an operator's immediates."""
    row = row_at(definitions.opcodes, opcode.key)
    if row is None:
        raise Missing(f"{name}: no row of Opcodes.antt is for {opcode.code()}")
    words = re.findall(r"an_index (\w+)|\b(?:a|an|some|sixteen)_(\w+)", row.contents)
    return [KINDS.get(word, word) for word in (space.lower().removesuffix("s") or kind for space, kind in words)]


def list_rows(definitions, found):
    rows = []
    for name, opcode, row in definitions.named():
        name = "select_t" if row.variant == "TypedSelect" else name + "_null" * (opcode == row.opcode_by_null)
        prefix, number = opcode.key
        first, after = (prefix[2:], str(number)) if prefix else (f"{number:02x}", "")
        rows.append((prefix != "", first, number, "\t".join((first, after, name, " ".join(kinds(definitions, name, opcode))))))
    return [HEADINGS] + [text for *_, text in sorted(rows)]


# ---- docs/proof/OPCODES.md

PAGE = "docs/proof/OPCODES.md"
# The kinds of immediates in the table, where they aren't those of the list.
WORDS = {"block": "block type", "rethrow_depth": "depth", "delegate_depth": "depth", "labels": "labels and the default",
         "func": "function", "valtype": "value type", "memarg": "memory argument", "heap": "heap type", "v128": "sixteen bytes",
         "lanes": "sixteen lanes", "fence": "a byte, 0", "field": "field", "count": "length"}
WORDS |= dict.fromkeys(("s32", "s64", "f32", "f64"), "the constant")


def immediates_in_words(definitions, name, opcode, row):
    words = kinds(definitions, name, opcode)
    ours = [immediate.name for immediate in row.immediates]
    text = ", ".join(WORDS.get(ours[number] if word == "u32" else word, word) for number, word in enumerate(words))
    return (text or "none") + (f" ({', '.join(ours)})" if len(words) == 2 and words[0] == words[1] else "")


def opcodes_of(text):
    """The opcodes of a row, by its first cell, such as `0xfd 0 to 11, 92, 93`. None if it is for the others after 0xfd."""
    found = re.match(r"(?:(0xf[b-e]) )?(\d\w*(?: to \w+)?(?:, \w+(?: to \w+)?)*)$", text)
    ranges = [item.split(" to ") for item in found[2].split(", ")] if found else []
    return [(found[1] or "", number) for ends in ranges for number in range(int(ends[0], 0), int(ends[-1], 0) + 1)] or None


def table_row(definitions, cells, operators):
    """A row of the table. Its first cell stays, and its second if it has more words than names."""
    names = ", ".join(dict.fromkeys(f"`{name}`" for name, _, _ in operators))
    names = names if re.fullmatch(r"`[^`]+`(?:, `[^`]+`)*", cells[1]) else cells[1]
    immediates = "; ".join(dict.fromkeys(immediates_in_words(definitions, *operator) for operator in operators))
    return f"| {cells[0]} | {names} | {immediates} |"


def opcode_table(definitions, found):
    """The table with names and immediates as they are defined. An opcode that no row has comes after the one before it."""
    operators = {opcode.key: (name, opcode, row) for name, opcode, row in definitions.named()}
    rows = [(cells, opcodes_of(cells[0])) for cells in (line.strip("| ").split(" | ") for line in found.old)]
    others = sorted(set(operators) - {key for _, keys in rows for key in keys or ()})
    for key in others:
        if key[0] != "0xfd":
            place = max((number for number, (_, keys) in enumerate(rows) if keys and keys[0] < key), default=-1)
            rows.insert(place + 1, ([f"{key[0]} {operators[key][1].number}".strip(), "`new`"], [key]))
    rest = [key for key in others if key[0] == "0xfd"]
    groups = [(cells, [operators[key] for key in keys or rest if key in operators]) for cells, keys in rows]
    return [table_row(definitions, cells, group) for cells, group in groups if group]


def counted(definitions, found):
    number = len(list(definitions.named()))
    return [re.sub(r"for \d+ operators", f"for {number} operators", line) for line in found.old]


def parts():
    yield Part(LIST, (), "", list_rows)
    yield Part(PAGE, (r"^\| Opcodes \| Operators \| Immediates \|$", r"^\| --- "), r"^$", opcode_table)
    yield Part(PAGE, (r"^Prefixes are 0xfb to 0xfe ",), r"^$", counted)
