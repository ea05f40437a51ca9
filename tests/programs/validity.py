"""Modules that are valid and that aren't, by the standard's rules: with `--validate` the first fault is named, and nothing is written."""
from modules import BAD_LABEL, GOOD, GOOD_WRITTEN, PREAMBLE, REFUSED, module, number, section, sized, vector
from runs import PROGRAMS, case, same

# Types: of functions from nothing to nothing, from an i32 to nothing, and from nothing to an i32; a struct that is open, with a subtype.
OPEN = b"\x50\0\x5f\0"
ALL_TYPES = section(1, vector([b"\x60\0\0", b"\x60\1\x7f\0", b"\x60\0\1\x7f", OPEN, b"\x50\1\3\x5f\1\x7f\0"]))
FUNCTION = section(3, vector([b"\0"]))
FUNCREF, NO_NULL = b"\x70", b"\x64\x70"
BODY = "the operator is not valid here (InvalidOperator)"


def takes(operand):
    """What is said of an operator that takes this operand."""
    return f"the operator is not valid here: expected {operand} (InvalidOperator)"


EMPTY = takes("i32, found nothing")
TYPE = "a type is not valid (InvalidType)"
LIMITS = "the limits are not valid (InvalidLimits)"
CONSTANT = "this operator is not allowed in a constant expression (BadConstant)"


def code(*operators):
    return section(10, vector([sized(b"\0" + b"".join(operators) + b"\x0b")]))


def at(sections, *more):
    """The place after these sections, and these bytes."""
    return len(PREAMBLE + b"".join(sections) + b"".join(more))


# A name, the sections, the place of the fault, and what is said of it.
ROWS = [
    ("a type that names one after its group", [section(1, vector([b"\x60\1\x64\1\0", b"\x60\0\0"]))], 11, TYPE),
    ("a supertype that is final", [section(1, vector([b"\x5f\0", b"\x50\1\0\x5f\0"]))], 10, TYPE),
    ("a supertype that isn't matched", [section(1, vector([b"\x50\0\x5f\1\x7f\0", b"\x50\1\0\x5f\0"]))], 10, TYPE),
    ("a memory whose minimum is greater than its maximum", [section(5, vector([b"\1\2\1"]))], 11, LIMITS),
    ("a memory with more pages than an address reaches", [section(5, vector([b"\0\x81\x80\4"]))], 11, LIMITS),
    ("a shared table", [section(4, vector([FUNCREF + b"\3\0\1"]))], 11, LIMITS),
    ("a table of references that aren't null", [section(4, vector([NO_NULL + b"\0\1"]))], 11, "a table whose elements have no default value has no initial value (NoInitialValue)"),
    ("a tag with results", [ALL_TYPES, section(13, vector([b"\0\2"]))], at([ALL_TYPES], b"\x0d\3\1"), "the type of a tag has results (TagResults)"),
    ("an imported tag with results", [ALL_TYPES, section(2, vector([b"\1m\1t\4\0\2"]))], at([ALL_TYPES], b"\2\x08\1"), "the type of a tag has results (TagResults)"),
    ("a start function with a parameter", [ALL_TYPES, section(3, vector([b"\1"])), section(8, b"\0"), code()], at([ALL_TYPES], b"\3\2\1\1", b"\x08\1"), "the start function has parameters or results (StartType)"),
    ("a name that is exported twice", [section(5, vector([b"\0\0"])), section(7, vector([b"\1a\2\0", b"\1a\2\0"]))], 20, 'export "a": an export has this name already (ExportTaken)'),
    ("a global that isn't of its type", [section(6, vector([b"\x7f\0\x42\0\x0b"]))], 15, BODY),
    ("a global that gets one that comes later", [section(6, vector([b"\x7f\0\x23\1\x0b", b"\x7f\0\x41\0\x0b"]))], 13, CONSTANT),
    ("a global that gets one that can be changed", [section(6, vector([b"\x7f\1\x41\0\x0b", b"\x7f\0\x23\0\x0b"]))], 18, CONSTANT),
    ("an expression that isn't constant", [section(6, vector([b"\x7f\0\x41\0\x45\x0b"]))], 15, CONSTANT),
    ("an active segment without a table", [section(9, vector([b"\0\x41\0\x0b\0"]))], 12, "index `0` is out of bounds for tables (IndexOutOfRange)"),
    ("elements of another kind than the table", [section(4, vector([b"\x6f\0\1"])), section(9, vector([b"\0\x41\0\x0b\0"]))], 21, "the elements of a segment do not match those of the table (SegmentType)"),
    ("an element that is no function", [section(9, vector([b"\1\0\1\5"]))], 14, "index `5` is out of bounds for funcs (IndexOutOfRange)"),
    ("an active data segment without a memory", [section(11, vector([b"\0\x41\0\x0b\0"]))], 12, "index `0` is out of bounds for memories (IndexOutOfRange)"),
    ("an offset of the wrong type", [section(5, vector([b"\4\1"])), section(11, vector([b"\0\x41\0\x0b\0"]))], 19, BODY),
    ("a local of a type that isn't there", [ALL_TYPES, FUNCTION, section(10, vector([sized(b"\1\1\x64\x09\x0b")]))], at([ALL_TYPES, FUNCTION], b"\x0a\7\1\5\1\1"), 'function 0: ' + TYPE),
    ("a sum of a number and nothing", [ALL_TYPES, FUNCTION, code(b"\x41\1\x6a\x1a")], at([ALL_TYPES, FUNCTION], b"\x0a\7\1\6\0\x41\1"), "function 0: " + EMPTY),
    ("a sum of two kinds", [ALL_TYPES, FUNCTION, code(b"\x41\1\x42\1\x6a\x1a")], at([ALL_TYPES, FUNCTION], b"\x0a\x09\1\7\0\x41\1\x42\1"), "function 0: " + takes("i32, found i64")),
    ("a sum of two kinds, the other way round", [ALL_TYPES, FUNCTION, code(b"\x42\1\x41\1\x6a\x1a")], at([ALL_TYPES, FUNCTION], b"\x0a\x09\1\7\0\x42\1\x41\1"), "function 0: " + takes("i32, found i64")),
    ("a sum of a number and a reference", [ALL_TYPES, FUNCTION, code(b"\x41\1\xd0\x70\x6a\x1a")], at([ALL_TYPES, FUNCTION], b"\x0a\x09\1\7\0\x41\1\xd0\x70"), "function 0: " + takes("i32, found a reference")),
    ("a call of a reference to something else", [ALL_TYPES, FUNCTION, code(b"\xd0\x6f\x14\0")], at([ALL_TYPES, FUNCTION], b"\x0a\x08\1\6\0\xd0\x6f"), "function 0: " + takes("a reference of another type")),
    ("a number that is called", [ALL_TYPES, FUNCTION, code(b"\x41\1\x14\0")], at([ALL_TYPES, FUNCTION], b"\x0a\x08\1\6\0\x41\1"), "function 0: " + takes("a reference, found i32")),
    ("a value that isn't there", [ALL_TYPES, FUNCTION, code(b"\x1a")], at([ALL_TYPES, FUNCTION], b"\x0a\5\1\3\0"), "function 0: " + takes("a value, found nothing")),
    ("a block that takes no operand of those around it", [ALL_TYPES, FUNCTION, code(b"\x41\1\x02\x40\x1a\x0b\x1a")], at([ALL_TYPES, FUNCTION], b"\x0a\x0a\1\x08\0\x41\1\x02\x40"), "function 0: " + takes("a value, found nothing")),
    ("a value that is left", [ALL_TYPES, FUNCTION, code(b"\x41\1")], at([ALL_TYPES, FUNCTION], b"\x0a\6\1\4\0\x41\1"), "function 0: " + BODY),
    ("a function that isn't declared", [ALL_TYPES, FUNCTION, code(b"\xd2\0\x1a")], at([ALL_TYPES, FUNCTION], b"\x0a\7\1\5\0"), "function 0: " + BODY),
    ("a segment that is used without a data count", [ALL_TYPES, FUNCTION, code(b"\xfc\x09\0"), section(11, vector([b"\1\0"]))], at([ALL_TYPES, FUNCTION], b"\x0a\7\1\5\0"), "function 0: " + BODY),
]


@case("--validate names the first fault of a module that isn't valid, and nothing is written")
def _(room):
    for name, sections, place, said in ROWS:
        room.put("in", PREAMBLE + b"".join(sections))
        room.refuses("wrewrite", "--validate", "in", "out", says=f"in: 0x{place:x}: {said}")
        room.refuses("wrewrite", "--check", "--validate", "in", says=f"in: 0x{place:x}: {said}")
        same(["in"], room.files())


@case("without --validate these modules are accepted, unless a body names what isn't there")
def _(room):
    for name, sections, place, said in ROWS:
        room.put("in", PREAMBLE + b"".join(sections))
        status, out, err = room.run("wrewrite", "--check", "in")
        same((1 if "a type that isn't there" in name or "a data count" in name else 0, ""), (status, err), of=name)


@case("--validate of a module that is valid changes nothing")
def _(room):
    room.put("in", GOOD)
    room.works("wrewrite", "--validate", "in", "out")
    same(GOOD_WRITTEN, room.get("out"))
    same(b"", room.works("wrewrite", "--check", "--validate", "in"))
    room.works("wcount", "--validate", "in", "counted")
    room.works("wrewrite", "--check", "--validate", "counted")


@case("all programs take --validate")
def _(room):
    room.put("in", module([b"\x6a"]))
    for program in PROGRAMS:
        more = ["0"] if program == "wsnip" else []
        room.refuses(program, "--validate", "in", "out", *more, says=f"in: 0x17: function 0: {EMPTY}")
    same(["in"], room.files())


@case("a branch that goes too far is no valid operator, and what isn't read is refused before")
def _(room):
    room.put("in", REFUSED)
    room.refuses("wrewrite", "--validate", "in", "out", says=f'in: 0x1d: function 1 "main": {BODY}')
    room.put("in", PREAMBLE + b"\x0e\0")
    room.refuses("wrewrite", "--validate", "in", "out", says="in: 0x8: no section has this id (UnknownSection)")
    room.put("in", module([BAD_LABEL]))
    room.refuses("wrewrite", "--check", "--validate", "in", says=f"in: 0x17: function 0: {BODY}")


def limited(kind, count, item):
    """A module of one section with so many items."""
    return [section(kind, number(count) + item * count)]


# A name, the sections, the place of the limit, and what is said of it. One item less is within it.
LIMITS_ROWS = [
    ("parameters", lambda n: [section(1, b"\1\x60" + number(1000 + n) + b"\x7f" * (1000 + n) + b"\0")], 11, "the type has more parameters, results or fields than engines accept"),
    ("results", lambda n: [section(1, b"\1\x60\0" + number(1000 + n) + b"\x7f" * (1000 + n))], 11, "the type has more parameters, results or fields than engines accept"),
    ("fields", lambda n: [section(1, b"\1\x5f" + number(10_000 + n) + b"\x7f\0" * (10_000 + n))], 12, "the type has more parameters, results or fields than engines accept"),
    ("supertypes", lambda n: [section(1, vector([OPEN] + [b"\x50\1" + number(at) + b"\x5f\0" for at in range(63 + n)]))], 11, "the type has more than 63 supertypes"),
    ("memories", lambda n: limited(5, 100 + n, b"\0\0"), 11, "the section has more items than engines accept"),
]


@case("--engine-limits refuses what is above a limit of engines, and --validate doesn't")
def _(room):
    for name, sections, place, said in LIMITS_ROWS:
        room.put("in", PREAMBLE + b"".join(sections(0)))
        room.works("wrewrite", "--check", "--engine-limits", "in")
        room.put("in", PREAMBLE + b"".join(sections(1)))
        room.works("wrewrite", "--check", "--validate", "in")
        room.refuses("wrewrite", "--check", "--engine-limits", "in", says=f"in: 0x{place:x}: {said} (EngineLimit)")
    room.put("in", module([b"\x6a"]))
    room.refuses("wrewrite", "--engine-limits", "in", "out", says=f"in: 0x17: function 0: {EMPTY}")
    same(["in"], room.files())


LONG = "the type has more parameters, results or fields than engines accept (EngineLimit)"


@case("--engine-limits refuses types with 50,000 results before bodies are validated, which would take minutes")
def _(room):
    # each call leaves its results on the operand stack; the last operator isn't valid
    results = section(1, b"\1\x60\0" + number(50_000) + b"\x7f" * 50_000)
    calls = section(10, vector([sized(b"\0" + b"\x10\0" * 25_000 + b"\x6a\x0b")]))
    room.put("in", PREAMBLE + results + FUNCTION + calls)
    room.refuses("wrewrite", "--check", "--engine-limits", "in", says=f"in: 0xc: {LONG}")
    # the limit comes before what isn't valid, and before what isn't so of a section before it
    memory = section(5, vector([b"\1\2\1"]))
    room.put("in", PREAMBLE + section(1, b"\1\x60\0" + number(1001) + b"\x7f" * 1001) + memory)
    room.refuses("wrewrite", "--check", "--engine-limits", "in", says=f"in: 0xb: {LONG}")
    room.put("in", PREAMBLE + memory + section(7, number(1_000_001)))
    room.refuses("wrewrite", "--check", "--engine-limits", "in", says="in: 0x13: the bytes end too early (Truncated)")


@case("--engine-limits: a fault that isn't a limit doesn't come before an earlier one")
def _(room):
    # a body with a local of a type that isn't there, after a global that isn't of its type
    sections = [ALL_TYPES, FUNCTION, section(6, vector([b"\x7f\0\x42\0\x0b"])), section(10, vector([sized(b"\1\1\x64\x09\x0b")]))]
    room.put("in", PREAMBLE + b"".join(sections))
    place = at(sections[:2], b"\6\6\1\x7f\0\x42\0")
    for option in ("--validate", "--engine-limits"):
        room.refuses("wrewrite", "--check", option, "in", says=f"in: 0x{place:x}: {BODY}")
