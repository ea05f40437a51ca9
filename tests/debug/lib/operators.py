"""The operators of a body: where each begins and ends, and the local that it names. Written by the WebAssembly specification's chapter on
the binary format, with threads and both kinds of exceptions; without garbage collection, which no compiler of C writes."""
from dataclasses import dataclass

from wasm import read_number

BLOCKS = {0x02, 0x03, 0x04, 0x06}
LOCALS = {0x20, 0x21, 0x22}
# how many numbers come after the opcode
NUMBERS = {
    **{it: 1 for it in (*BLOCKS, *LOCALS, 0x07, 0x08, 0x09, 0x0C, 0x0D, 0x10, 0x12, 0x14, 0x15, 0x18)},
    **{it: 1 for it in (0x23, 0x24, 0x25, 0x26, 0x3F, 0x40, 0x41, 0x42, 0xD0, 0xD2, 0xD5, 0xD6)},
    **{it: 2 for it in (0x11, 0x13)},
}
# the same after the prefix 0xfc
NUMBERS_AFTER_FC = {8: 2, 9: 1, 10: 2, 11: 1, 12: 2, 13: 1, 14: 2, 15: 1, 16: 1, 17: 1}
BYTES = {0x43: 4, 0x44: 8}


@dataclass
class Operator:
    """An operator: its opcode, where it begins and ends, and the local that it names, or None."""

    opcode: int
    begin: int
    end: int
    local: int = None


def after_numbers(code, at, count):
    for _ in range(count):
        _, at = read_number(code, at)
    return at


def after_access(code, at):
    """The end of an alignment, which says whether a memory follows, and an offset."""
    return after_numbers(code, at, 2 + (code[at] >> 6 & 1))


def after_clauses(code, at):
    """The end of the type and the clauses of `try_table`."""
    count, at = read_number(code, after_numbers(code, at, 1))
    for _ in range(count):
        at = after_numbers(code, at, 3 if code[at] < 2 else 2)
    return at


def after_vector(code, at):
    """The end of what follows the prefix of vector operators."""
    opcode, at = read_number(code, at)
    if opcode <= 11 or opcode in (92, 93):
        return after_access(code, at)
    if opcode in (12, 13):
        return at + 16
    if 21 <= opcode <= 34:
        return at + 1
    return after_access(code, at) + 1 if 84 <= opcode <= 91 else at


def end_of(code, begin):
    """Where the operator ends that begins here."""
    opcode, at = code[begin], begin + 1
    if opcode == 0xFC:
        opcode, at = read_number(code, at)
        return after_numbers(code, at, NUMBERS_AFTER_FC.get(opcode, 0))
    if opcode == 0xFD:
        return after_vector(code, at)
    if opcode == 0xFE:
        opcode, at = read_number(code, at)
        return at + 1 if opcode == 3 else after_access(code, at)
    if 0x28 <= opcode <= 0x3E:
        return after_access(code, at)
    if opcode == 0x0E:
        count, at = read_number(code, at)
        return after_numbers(code, at, count + 1)
    if opcode == 0x1C:
        count, at = read_number(code, at)
        return after_numbers(code, at, count)
    if opcode == 0x1F:
        return after_clauses(code, at)
    return after_numbers(code, at, NUMBERS.get(opcode, 0)) + BYTES.get(opcode, 0)


def operators_of(code, begin, end):
    """The operators of the body that begins and ends here, and how many locals it declares."""
    runs, at = read_number(code, begin)
    declared = 0
    for _ in range(runs):
        count, at = read_number(code, at)
        declared += count
        # the type of these locals: the first byte of a reference is followed by a number
        at = after_numbers(code, at, 2 if code[at] in (0x63, 0x64) else 1)
    operators = []
    while at < end:
        it = Operator(code[at], at, end_of(code, at))
        if it.opcode in LOCALS:
            it.local = read_number(code, at + 1)[0]
        operators.append(it)
        at = it.end
    return operators, declared
