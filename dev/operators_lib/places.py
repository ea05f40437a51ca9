"""The places of an operator: where it is by hand, and where dev/operators writes it."""
import re
from collections import defaultdict
from dataclasses import replace

from .definitions import row_at
from .families import access_variant

RULES_OF = "crates/wasm_typing/specs/Rules.antt"
TESTS = re.compile(r"^crates/(tests_\w+|examples|growths|wbody_rows|tool_\w+|left_modules|module_tools|removal_tools)/|/proofs/|^docs/")
COMMENT = re.compile(r"^\s*(//|--)|^\s*#\[derive")


def find(top, definitions, parts, name):
    """The places by hand, those that are written, and those in proofs and tests: each as a file and its lines. None for no operator."""
    named = [operator for operator in definitions.named() if name in (operator[0], operator[2].variant)]
    if not named:
        return None
    files = {path: (top / path).read_text().splitlines() for path in {*sources(top), *(part.path for part in parts)}}
    written_at = written_lines(parts, definitions, files)
    by_hand, written, tested = defaultdict(set), defaultdict(set), defaultdict(set)
    pattern = re.compile("|".join({as_written(name, row) for name, _, row in named}))
    for path, lines in files.items():
        for number in (number for number, line in enumerate(lines, 1) if pattern.search(line) and not COMMENT.match(line)):
            (written if number in written_at[path] else tested if TESTS.search(path) else by_hand)[path].add(number)
    for path, number in ranges(definitions, files, named):
        by_hand[path].add(number)
    return by_hand, written, tested


def sources(top):
    """The code, definitions and proofs, and the files that have parts."""
    for folder in ("src", "specs", "proofs"):
        for path in sorted(top.glob(f"crates/*/{folder}/**/*")):
            if path.suffix in (".rt", ".antt"):
                yield str(path.relative_to(top))


def written_lines(parts, definitions, files):
    """The lines of each file that are written. A row of a part that isn't written if the part is empty is by hand."""
    numbers = defaultdict(set)
    for part in parts:
        found = part.find(files[part.path])
        rows = found.old if part.path.startswith("docs/") else part.rows(definitions, replace(found, old=[]))
        numbers[part.path] |= {number for number, line in enumerate(found.old, found.begin + 1) if line in rows}
    return numbers


def as_written(name, row):
    """How code, definitions and documents name the operator of a row."""
    words = rf"`{re.escape(name)}`|\t{re.escape(name)}\t"
    if row.function in ("load_opcode", "store_opcode"):
        word = row.function.split("_")[0]
        first, _, more = access_variant(row).partition("\n")
        arguments = "".join(" " + x for x in row.arguments)
        words += rf"|^    {row.variant} \{{ (?:kind: ExtendedLoad|atomic: bool) \}},$"
        return rf"{words}|\b{word}\.{row.variant}{arguments}\b|{word.title()}Kind::{re.escape(first)}" + ("$" if more else "")
    if row.function in ("first_atomic", "atomic_opcode"):
        return rf"{words}|\bAtomic(?:Op|Kind)::{row.variant}\b|^{row.function} \(?{row.variant}\b|^    {row.variant},$"
    if row.function == "width_number":
        return words
    return rf"{words}|\b{row.variant}\b"


def ranges(definitions, files, named):
    """The rows of the tables of opcodes and of rules for the operator, and the definition of a rule that few rows have."""
    for _, opcode, _ in named:
        rows = [row_at(definitions.opcodes, opcode.key), row_at(definitions.rules, opcode.key)]
        yield from ((row.path, row.line) for row in rows if row)
        for word in re.findall(r"\w+", rows[1].contents if rows[1] else ""):
            if sum(bool(re.search(rf"\b{word}\b", other.contents)) for other in definitions.rules) < 3:
                for number, line in enumerate(files[RULES_OF], 1):
                    if line.startswith(f"abbrev pub {word} :"):
                        yield RULES_OF, number


def listed(top, definitions, parts, name):
    """The text that `--places` prints, or none."""
    found = find(top, definitions, parts, name)
    if found is None:
        return None
    lines = []
    for title, places in zip(("by hand", "written by dev/operators", "named in proofs, tests and documents"), found):
        lines.append(f"{name}: {len(places)} {'file' if len(places) == 1 else 'files'} {title}")
        lines += [f"    {path}:{','.join(map(str, sorted(numbers)))}" for path, numbers in sorted(places.items())]
    return "\n".join(lines)
