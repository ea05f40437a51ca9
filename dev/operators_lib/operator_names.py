"""The names of operators by which a table of costs has them: those of the standard's text format."""
from .parts import Part


def rows(definitions, found):
    """Prefix, number and name of each, by its opcode."""
    named = sorted((int(opcode.prefix or "0", 0), int(opcode.number, 0), name) for name, opcode, _ in definitions.named())
    return ["%d %d %s" % row for row in named]


def parts():
    yield Part("crates/walrus_metering/src/names.rt", (r"^pub\(crate\) const OPERATORS: ",), r'^";$', rows)
