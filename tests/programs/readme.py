"""The function that the README shows: the bytes of both columns, which are written by hand, are those of the module that it names and of
what `wrewrite` writes of it."""
import re

from modules import PREAMBLE, read_number
from runs import TOP, case, same, stored

# In a line of both columns the second one begins here.
SECOND = 40
OPERATOR = re.compile(r"((?:[0-9a-f]{2} +)+)\| (\S+)")


def body_of(module):
    """The only body of a module."""
    at = len(PREAMBLE)
    while module[at] != 10:
        size, begin = read_number(module, at + 1)
        at = begin + size
    _, begin = read_number(module, at + 1)
    count, begin = read_number(module, begin)
    same(1, count)
    size, begin = read_number(module, begin)
    return module[begin : begin + size]


def body_that_is_shown(lines, is_second):
    """The body of a column: the number of its declarations, which isn't shown, and the bytes of its lines."""
    shown = [found for line in lines for found in OPERATOR.finditer(line) if (found.start() > SECOND) == is_second]
    declarations = sum(found[2].startswith("local[") for found in shown)
    return bytes([declarations]) + b"".join(bytes.fromhex(found[1]) for found in shown)


@case("README: the function that it shows, before and after")
def _(room):
    with open(f"{TOP}/README.md") as file:
        text = file.read()
    lines = [line for line in text.splitlines() if line.startswith("     ")]
    sizes = [int(it) for it in re.findall(r"\w+\.wasm, (\d+) bytes", text)]
    source = stored("bump.wasm")
    room.put("in.wasm", source)
    room.works("wrewrite", "in.wasm", "out.wasm")
    written = room.get("out.wasm")
    same(sizes, [len(source), len(written)])
    same(body_that_is_shown(lines, False), body_of(source))
    same(body_that_is_shown(lines, True), body_of(written))
