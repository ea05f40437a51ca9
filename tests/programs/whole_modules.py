"""What wrewrite writes and says of the modules of module_rows.py: sections of each kind, each operator, faults with their
places, warnings, and modules that are cut off."""
import re

import module_rows
from module_rows import FOLLOWED
from modules import PREAMBLE, read_number, section, sized, vector
from runs import case, same


@case("wrewrite writes these modules, and leaves what it wrote unchanged")
def _(room):
    for given, written in module_rows.REWRITTEN:
        for source in (given, written):
            # this module names a source map, which is true where no code is changed
            moves = given is FOLLOWED and source is given
            warned = "wrewrite: warning: source map is out of date: use --source-map or --strip-debug\n" if moves else ""
            room.put("in", bytes.fromhex(source))
            same((0, bytes.fromhex(written), warned), room.run("wrewrite", "in", "-"), source)


def module_of_operators(other):
    """A module with a function for each operator, and this body in the place of the one with only a `nop`."""
    before, storage, segments = map(bytes.fromhex, (module_rows.OPERATOR_TYPES, module_rows.OPERATOR_STORAGE, module_rows.OPERATOR_SEGMENTS))
    bodies = [sized(other if body == "00010b" else bytes.fromhex(body)) for body in module_rows.OPERATOR_BODIES.split()]
    return before + section(3, vector([b"\2"] * len(bodies))) + storage + section(10, vector(bodies)) + segments


@case("wrewrite writes each operator unchanged, but for `nop`, which is dropped")
def _(room):
    written = module_of_operators(b"\0\x0b")
    for given in (module_of_operators(b"\0\1\x0b"), written):
        room.put("in", given)
        same(written, room.works("wrewrite", "in", "-"))


@case("faults of sections and of bodies have their places")
def _(room):
    for rows, item in ((module_rows.FAULTS_OF_SECTIONS, ""), (module_rows.FAULTS_OF_BODIES, "function 0: ")):
        for given, name, place in rows:
            room.put("in", bytes.fromhex(given))
            # a rewrite names every fault on standard error, and --check that of a body on standard output
            status, out, err = room.run("wrewrite", "in", "out")
            same((1, b""), (status, out), given)
            assert re.fullmatch(rf"wrewrite: in: {place:#x}: {item}(?!function)[^\n]+ \({name}\)\n", err), f"{err!r} isn't {name} at {place:#x}, of {given}"
            said = ("", err) if item == "" else (err, "")
            status, out, err = room.run("wrewrite", "--check", "in")
            same((1, *said), (status, out.decode(), err), given)
    same(["in"], room.files())


@case("each section that is out of date once the code has changed has its warning")
def _(room):
    for given, warnings in module_rows.WARNED:
        room.put("in", bytes.fromhex(given))
        said = "".join(f"wrewrite: warning: {warning}\n" for warning in warnings)
        same((0, b"", said), room.run("wrewrite", "in", "out"), given)


@case("the location map of a module with names and hints; and all of its bodies are accepted")
def _(room):
    room.put("in", bytes.fromhex(FOLLOWED))
    same(0, room.run("wrewrite", "--map", "map", "in", "out")[0])
    same(module_rows.FOLLOWED_MAP, room.get("map").decode())
    same(b"", room.works("wrewrite", "--check", "in"))


@case("bodies that are refused, among others and after an import")
def _(room):
    room.put("in", bytes.fromhex(module_rows.TWO_REFUSED))
    said = "".join(f"wrewrite: in: {place:#x}: function {index}: {fault}\n" for place, index, fault in module_rows.FAULTS_OF_TWO)
    same((1, said.encode(), ""), room.run("wrewrite", "--check", "in"))


def ends(module):
    """Where the preamble and each section of a module end."""
    at = len(PREAMBLE)
    while at < len(module):
        yield at
        size, begin = read_number(module, at + 1)
        at = begin + size
    yield at


@case("a module that is cut off isn't read, unless it is cut after its preamble or a section")
def _(room):
    for given in (module_rows.EVERY_SECTION, FOLLOWED, module_rows.HANDLERS):
        whole = bytes.fromhex(given)
        for length in sorted(set(range(len(whole))) - set(ends(whole))):
            room.put("in", whole[:length])
            status, out, err = room.run("wrewrite", "--check", "in")
            # a body that is refused would be named on standard output
            same((1, b""), (status, out), f"{length} bytes of {given}")
            assert re.fullmatch(r"wrewrite: in: 0x[0-9a-f]+: [^:\n]+ \(\w+\)\n", err), f"{err!r}, of {length} bytes of {given}"
