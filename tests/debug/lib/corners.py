"""Modules by hand, with what no compiler writes: each form of an address, a length, a list, a reference and a local, lists of each kind of item,
line programs with each operation. A module has two functions, whose operators have names: their places are what its sections are made of."""
from wasm import number, sized

TAGS = {
    "compile_unit": 0x11, "subprogram": 0x2E, "formal_parameter": 0x05, "variable": 0x34, "lexical_block": 0x0B, "label": 0x0A, "base_type": 0x24,
    "pointer_type": 0x0F, "call_site": 0x48, "inlined_subroutine": 0x1D, "GNU_call_site": 0x4109,
    "template_value_parameter": 0x30, "subroutine_type": 0x15,
}  # fmt: skip
ATTRIBUTES = {
    "sibling": 0x01, "location": 0x02, "name": 0x03, "byte_size": 0x0B, "stmt_list": 0x10, "low_pc": 0x11, "high_pc": 0x12, "encoding": 0x3E,
    "frame_base": 0x40, "type": 0x49, "entry_pc": 0x52, "ranges": 0x55, "addr_base": 0x73, "rnglists_base": 0x74, "loclists_base": 0x8C,
    "call_return_pc": 0x7D, "call_pc": 0x81, "abstract_origin": 0x31,
}  # fmt: skip
FORMS = {
    "addr": 0x01, "block2": 0x03, "block4": 0x04, "data2": 0x05, "data4": 0x06, "data8": 0x07, "string": 0x08, "block": 0x09, "block1": 0x0A,
    "data1": 0x0B, "sdata": 0x0D, "udata": 0x0F, "ref_addr": 0x10, "ref1": 0x11, "ref2": 0x12, "ref4": 0x13, "ref8": 0x14, "ref_udata": 0x15,
    "indirect": 0x16, "sec_offset": 0x17, "exprloc": 0x18, "addrx": 0x1B, "loclistx": 0x22, "rnglistx": 0x23, "addrx1": 0x29, "addrx2": 0x2A,
    "addrx4": 0x2C, "implicit_const": 0x21,
}  # fmt: skip
SIZES = {"data1": 1, "data2": 2, "data4": 4, "data8": 8, "ref1": 1, "ref2": 2, "ref4": 4, "ref8": 8, "addrx1": 1, "addrx2": 2, "addrx4": 4}
BLOCK_SIZES = {"block1": 1, "block2": 2, "block4": 4}
NOT_THERE = 0xFFFFFFFF


def fixed(value, size=4):
    return (value % (1 << 8 * size)).to_bytes(size, "little")


def padded(value, width):
    """An unsigned LEB128 of this many bytes."""
    return bytes(value >> 7 * it & 0x7F | (0x80 if it < width - 1 else 0) for it in range(width))


def signed(value):
    return padded(value % (1 << 35), 5)


# ---- code


class Code:
    """The code section, and the place of each operator that has a name."""

    def __init__(self, bodies):
        self.places, self.contents = {}, number(len(bodies))
        for name, declarations, operators in bodies:
            body = declarations + b"".join(it for _, it in operators)
            begin = len(self.contents) + len(number(len(body)))
            self.places[name], self.places[f"{name}_end"] = begin, begin + len(body)
            at = begin + len(declarations)
            for mark, it in operators:
                if mark:
                    self.places[mark] = at
                at += len(it)
            self.contents += sized(body)

    def at(self, name):
        return self.places[name]


CALL = b"\x10" + padded(1, 5)
# 64 of i64, and 70 of i32, which are written before them; the last is used where nothing is reached
GROWING, SHRINKING, GONE = 63, 130, 133


def standard_code():
    """A function that uses many locals, drops operators and calls, and another that it calls. After the call that is tried comes an operator that
    is in no map, so that the call's end and the next operator of the map are two places."""
    each = [("many" if not it else "", b"\x20" + number(it) + b"\x1a") for it in range(GONE)]
    rest = [
        ("nop", b"\1\1"), ("call", CALL), ("after", b"\2\x40"), ("branch", b"\x0c\0"), ("lost_call", CALL), ("lost_after", b"\x20" + number(GONE) + b"\x1a"),
        ("block_end", b"\x0b"), ("try", b"\6\x40"), ("tried_call", CALL), ("delegate", b"\x18\0"),
        ("constant", b"\x41" + padded(7, 5)), ("drop", b"\x1a"), ("end", b"\x0b"),
    ]  # fmt: skip
    second = [("small", b"\1"), ("small_constant", b"\x41" + padded(1, 5) + b"\x1a"), ("small_end", b"\x0b")]
    return Code([("work", b"\2\x40\x7e\xc6\0\x7f", each + rest), ("called", b"\0", second)])


def module(code, sections):
    """A module with this code and these sections of DWARF, by name."""
    parts = [b"\1\4\1\x60\0\0", b"\3\3\2\0\0", b"\7\5\1\1f\0\0", b"\x0a" + sized(code.contents)]
    parts += [b"\0" + sized(sized(name.encode()) + contents) for name, contents in sections.items()]
    return b"\0asm\1\0\0\0" + b"".join(parts)


# ---- entries


class Entries:
    """The sections `.debug_info` and `.debug_abbrev`. An entry is a label, a tag, attributes and entries below; an attribute is a name, a form and
    a value: a number, bytes, or the label of an entry."""

    def __init__(self):
        self.codes, self.labels, self.info, self.units = {}, {}, b"", []

    def add(self, entry, version, offset_size=4, address_size=4):
        """Adds a unit. It is made twice: labels may be of later entries."""
        for _ in range(2):
            made = self._unit(entry, version, offset_size, address_size)
        self.units.append(len(self.info))
        self.info += made

    def abbreviations(self):
        found = b""
        for (tag, has_children, attributes), code in self.codes.items():
            found += number(code) + number(TAGS[tag]) + bytes([has_children])
            found += b"".join(number(ATTRIBUTES[name]) + number(FORMS[form]) + constant for name, form, constant in attributes) + b"\0\0"
        return found + b"\0"

    def sections(self):
        return {".debug_info": self.info, ".debug_abbrev": self.abbreviations()}

    def _unit(self, entry, version, offset_size, address_size):
        self.begin, self.version, self.offset_size, self.address_size = len(self.info), version, offset_size, address_size
        table, address = fixed(0, offset_size), bytes([address_size])
        header = fixed(version, 2) + (b"\1" + address + table if version == 5 else table + address)
        length_size = 4 if offset_size == 4 else 12
        contents = header + self._entry(entry, self.begin + length_size + len(header))
        return (fixed(0xFFFFFFFF) if offset_size == 8 else b"") + fixed(len(contents), offset_size) + contents

    def _entry(self, entry, at):
        label, tag, attributes, below = entry
        self.labels[label] = at
        shape = tag, bool(below), tuple((name, form, signed(value) if form == "implicit_const" else b"") for name, form, value in attributes)
        made = number(self.codes.setdefault(shape, len(self.codes) + 1))
        for _, form, value in attributes:
            made += self._value(form, value)
        for it in below:
            made += self._entry(it, at + len(made))
        return made + (b"\0" if below else b"")

    def _value(self, form, value):
        if isinstance(value, str) and form != "string":
            value = self.labels.get(value, self.begin) - (0 if form == "ref_addr" else self.begin)
        if form == "implicit_const":
            return b""
        if form == "string":
            return value.encode() + b"\0"
        if form == "indirect":
            return number(FORMS[value[0]]) + self._value(*value)
        if form in SIZES:
            return fixed(value, SIZES[form])
        if form == "addr":
            return fixed(value, self.address_size)
        if form in ("ref_addr", "sec_offset"):
            return fixed(value, self.offset_size)
        if isinstance(value, bytes):
            return (fixed(len(value), BLOCK_SIZES[form]) if form in BLOCK_SIZES else padded(len(value), 2) if form == "block" else number(len(value))) + value
        return signed(value) if form == "sdata" else padded(value, 2) if form == "ref_udata" else number(value)


def local(index, width=0):
    """The location of a local, in an expression."""
    return b"\xed\0" + (padded(index, width) if width else number(index)) + b"\x9f"


def variable(label, form, expression):
    return label, "variable", [("name", "string", label), ("location", form, expression)], []


def base_type(label="int"):
    return label, "base_type", [("name", "string", label), ("byte_size", "data1", 4), ("encoding", "data1", 5)], []


# ---- the modules


def forms(version, offset_size=4, odd=()):
    """Each form of an address, a length, an expression and a reference. Of what no compiler writes there is what is named: the places of
    calls themselves, a length with a sign, or an argument of a template that is a function."""
    code = standard_code()
    at, entries = code.at, Entries()
    expression = "block1" if version < 4 else "exprloc"
    low, high = at("work"), at("work_end")
    below = [
        variable("grows", expression, local(GROWING)), variable("shrinks", "block2" if version < 4 else expression, local(SHRINKING)),
        variable("is_gone", "block4" if version < 4 else expression, local(GONE)), variable("is_padded", "block" if version < 4 else expression, local(GROWING, 3)),
        variable("global", expression, b"\xed\3" + fixed(0) + b"\x9f"), variable("stack", expression, b"\xed\2\0\x9f"),
        ("label", "label", [("name", "string", "label"), ("low_pc", "addr", at("constant"))], []),
        ("first", "lexical_block", [("low_pc", "addr", at("nop")), ("high_pc", "data1", at("after") - at("nop")), ("entry_pc", "data2", at("call") - at("nop"))], []),
        ("gone", "lexical_block", [("low_pc", "addr", at("lost_call")), ("high_pc", "data2", at("block_end") - at("lost_call"))], []),
        ("inlined", "inlined_subroutine", [("low_pc", "addr", at("after")), ("high_pc", "indirect", ("udata", at("drop") - at("after"))),
                                           ("abstract_origin", "ref1", "called"), ("entry_pc", "addr", at("block_end"))], []),
        ("eight", "lexical_block", [("low_pc", "addr", at("many")), ("high_pc", "data8", at("end") - at("many"))], []),
        ("call_one", "call_site", [("call_return_pc", "addr", at("after"))], []), ("call_two", "call_site", [("call_return_pc", "addr", at("lost_after"))], []),
        ("call_three", "GNU_call_site", [("low_pc", "addr", at("lost_after"))], []), ("tried", "GNU_call_site", [("low_pc", "addr", at("delegate"))], []),
        ("call_four", "call_site", [("call_return_pc", "addr", at("delegate"))], []),
    ]  # fmt: skip
    if "places" in odd:
        below += [(f"place of {it}", "call_site", [("call_pc", "addr", at(it))], []) for it in ("call", "lost_call", "tried_call")]
    if "sign" in odd:
        below.append(("signed", "lexical_block", [("low_pc", "addr", at("many")), ("high_pc", "sdata", at("nop") - at("many"))], []))
    work = ("work", "subprogram", [("low_pc", "addr", low), ("sibling", "ref_udata", "called"), ("high_pc", "udata", high - low), ("type", "ref2", "int")], below)
    called = ("called", "subprogram", [("low_pc", "addr", at("called")), ("high_pc", "addr", at("called_end")), ("type", "ref4", "int")], [])
    dead = ("dropped", "subprogram", [("low_pc", "addr", NOT_THERE), ("high_pc", "data4", 20), ("type", "ref8", "int")], [
        variable("of_dropped", expression, local(GROWING)),
        ("of_old_linkers", "lexical_block", [("low_pc", "addr", at("many")), ("high_pc", "data4", 7)], []),
    ])  # fmt: skip
    old = ("zero", "subprogram", [("low_pc", "addr", 0), ("high_pc", "data4", at("call"))], [variable("of_zero", expression, local(GROWING))])
    argument = ("argument", "template_value_parameter", [("type", "ref4", "pointer"), ("location", expression, b"\3" + fixed(at("called")) + b"\x9f")], [])
    memory = variable("memory", expression, b"\3" + fixed(at("called")))
    function = ("function", "subroutine_type", [("type", "ref_udata", "int")], [])
    rest = [*([argument] if "argument" in odd else []), memory, ("pointer", "pointer_type", [("type", "ref4", "function")], []), function, base_type(), variable("last", expression, local(3))]
    unit = ("unit", "compile_unit", [("name", "string", "forms"), ("low_pc", "addr", 0), ("sibling", "ref4", "unit")], [work, called, dead, old, *rest])
    entries.add(unit, version, offset_size)
    other = [("of_other", "pointer_type", [("type", "ref_addr", "int")], []), ("to_pointer", "pointer_type", [("type", "ref4", "of_other")], [])]
    entries.add(("other", "compile_unit", [("name", "string", "other"), ("low_pc", "addr", at("called")), ("high_pc", "addr", at("called_end"))], other), version)
    return module(code, {**entries.sections(), ".debug_aranges": ranges_of_units(code, entries)})


def ranges_of_units(code, entries):
    """`.debug_aranges`: of the second unit its own range, and one of memory that looks alike."""
    low, high = code.at("called"), code.at("called_end")
    pairs = [(low, high - low), (low, high - low - 1), (code.at("many"), 4), (NOT_THERE, 3), (0, 0)]
    contents = fixed(2, 2) + fixed(entries.units[1]) + b"\4\0" + bytes(4) + b"".join(fixed(one) + fixed(other) for one, other in pairs)
    return fixed(len(contents)) + contents


def old_lists():
    """`.debug_ranges` and `.debug_loc`: selections of a base, ranges that become empty, and two units that count from different bases."""
    code = standard_code()
    at, entries = code.at, Entries()
    low, lost, end = at("work"), at("lost_call"), at("work_end")
    # the first range has no operator that is written, and both its ends go where its base goes
    with_base = [(NOT_THERE, lost), (0, 6), (6, at("constant") - lost), (NOT_THERE, low), (at("nop") - low, at("nop") + 1 - low), (0, 0)]
    without = [(at("many"), at("nop")), (lost, at("lost_after")), (NOT_THERE - 1, NOT_THERE - 1), (at("called"), at("called_end")), (0, 0)]
    of_one = [(0, at("small_constant") - at("called")), (at("small_constant") - at("called"), at("called_end") - at("called")), (0, 0)]
    ranges = [b"".join(fixed(one) + fixed(other) for one, other in it) for it in (with_base, without, of_one)]
    items = [
        (at("many"), at("call"), local(GROWING)), (at("call"), at("after"), local(SHRINKING)), (lost, at("block_end"), local(3)),
        (at("block_end"), end, local(GONE)), (NOT_THERE - 1, NOT_THERE - 1, local(GROWING)), (at("end"), at("end"), b""),
    ]  # fmt: skip
    locations = b"".join(fixed(one) + fixed(other) + fixed(len(it), 2) + it for one, other, it in items) + bytes(8)
    unnamed = fixed(at("many")) + fixed(at("nop")) + fixed(3, 2) + local(GROWING)[:3] + bytes(8)
    below = [
        ("is_listed", "variable", [("location", "sec_offset", 0)], []), ("also", "variable", [("location", "sec_offset", 0)], []),
        ("block", "lexical_block", [("ranges", "sec_offset", 0)], []), ("other_block", "lexical_block", [("ranges", "sec_offset", 0)], []),
    ]  # fmt: skip
    work = ("work", "subprogram", [("low_pc", "addr", low), ("high_pc", "data4", end - low)], below)
    # of code that an old linker dropped: its addresses look like those of the first function
    of_dropped = fixed(at("many")) + fixed(at("nop")) + fixed(4, 2) + local(GROWING) + bytes(8)
    dropped = dropped_function("sec_offset", len(locations) + len(unnamed), sum(map(len, ranges)))
    unit = ("unit", "compile_unit", [("low_pc", "addr", 0), ("ranges", "sec_offset", len(ranges[0]))], [work, dropped])
    entries.add(unit, 4)
    one = ("one", "compile_unit", [("low_pc", "addr", at("called")), ("ranges", "sec_offset", len(ranges[0]) + len(ranges[1]))], [base_type()])
    entries.add(one, 4)
    ranges.append(fixed(at("many")) + fixed(at("nop")) + bytes(8))
    return module(code, {**entries.sections(), ".debug_ranges": b"".join(ranges), ".debug_loc": locations + unnamed + of_dropped})


def dropped_function(form, location, ranges):
    """A function that begins in no body, with a list of locations and one of ranges."""
    below = [("of_dropped", "variable", [("location", form, location)], []), ("block_of_dropped", "lexical_block", [("ranges", "sec_offset", ranges)], [])]
    return "dropped", "subprogram", [("low_pc", "addr", 0), ("high_pc", "data4", 500)], below


def list_table(offsets, lists):
    """A table of lists of DWARF 5, of which so many have an offset in it."""
    place, table = 4 * offsets, b""
    for it in lists[:offsets]:
        table += fixed(place)
        place += len(it)
    contents = fixed(5, 2) + b"\4\0" + fixed(offsets) + table + b"".join(lists)
    return fixed(len(contents)) + contents


def new_lists(code, first_item):
    """The lists of ranges and of locations, with each kind of item. The indices are those of `new_sections`."""
    at = code.at
    low, lost = at("work"), at("lost_call")
    # 126 bytes after the first: what is added makes that longer than 127; the others are padded
    near, far = at("many") + 120, at("many") + 126 - low
    ranges = [
        b"\5" + fixed(low) + b"\4" + number(at("many") - low) + number(near - low) + b"\4" + padded(far, 3) + padded(far + 9, 4) + b"\0",
        b"\6" + fixed(at("nop")) + fixed(at("after")) + b"\7" + fixed(lost) + number(at("block_end") - lost) + b"\0",
        b"\1\2\4\0\2\2\0\1\3\0\x7e\3\3\6\0",
        b"\6" + fixed(NOT_THERE) + fixed(NOT_THERE) + b"\7" + fixed(at("many")) + b"\x7e\0",
        b"\4" + number(at("many")) + number(at("nop")) + b"\0",
    ]
    locations = [
        first_item + b"\6" + fixed(low) + b"\4" + number(at("many") - low) + number(near - low) + sized(local(GROWING)) + b"\0",
        b"\7" + fixed(at("nop")) + fixed(at("after")) + sized(local(GONE)) + b"\x08" + fixed(lost) + b"\5" + padded(4, 2) + local(3) + b"\0",
        b"\1\2\4\0\2" + sized(b"\xed\2\0\x9f") + b"\2\0\1" + sized(local(GROWING)) + b"\3\0\x7e" + sized(local(6)) + b"\3\3\6" + sized(local(GROWING)) + b"\0",
        b"\4" + number(at("many")) + number(at("nop")) + sized(local(GROWING)) + b"\0",
    ]
    return ranges, locations


def new_sections(first_item=b"", has_argument=False):
    """DWARF 5: `.debug_addr` with entries of code and of memory, and with one that is of a call and of a block; lists with and without an index. The
    first list of locations begins with this item; there may be an argument of a template that is a function."""
    code = standard_code()
    at, entries = code.at, Entries()
    addresses = [at("work"), at("nop"), at("called"), NOT_THERE, at("lost_after"), at("many"), at("after")]
    contents = fixed(5, 2) + b"\4\0" + b"".join(map(fixed, addresses))
    ranges, locations = new_lists(code, first_item)
    # the lists without an index: the last but one of ranges, and the last of both, which are of code that isn't there
    loose = 12 + 12 + sum(map(len, ranges[:3]))
    of_dropped = [12 + 12 + sum(map(len, of[:-1])) for of in (locations, ranges)]
    below = [
        ("by_index", "variable", [("location", "loclistx", 0)], []), ("by_index_two", "variable", [("location", "loclistx", 1)], []),
        ("by_index_three", "variable", [("location", "loclistx", 2)], []), ("by_offset", "lexical_block", [("ranges", "sec_offset", loose)], []),
        *[(f"block_{it}", "lexical_block", [("ranges", "rnglistx", it)], []) for it in range(3)],
        ("block", "lexical_block", [("low_pc", "addrx1", 4), ("high_pc", "udata", at("block_end") - at("lost_after"))], []),
        ("call", "call_site", [("call_return_pc", "addrx", 4)], []), ("other_call", "call_site", [("call_return_pc", "addrx2", 6)], []),
    ]  # fmt: skip
    work = ("work", "subprogram", [("low_pc", "addrx4", 0), ("high_pc", "implicit_const", 0x7FFF), ("frame_base", "exprloc", b"\xed\3" + fixed(0))], below)
    work = (*work[:2], [work[2][0], ("high_pc", "data4", at("work_end") - at("work")), work[2][2]], below)
    argument = ("argument", "template_value_parameter", [("type", "ref4", "pointer"), ("location", "exprloc", b"\xa1\2\x9f")], [])
    types = [("pointer", "pointer_type", [("type", "ref4", "function")], []), ("function", "subroutine_type", [("type", "ref4", "int")], []), base_type()]
    bases = [("addr_base", "sec_offset", 8), ("rnglists_base", "sec_offset", 12), ("loclists_base", "sec_offset", 12)]
    unit = [("low_pc", "addr", 0), ("ranges", "rnglistx", 1), *bases]
    entries.add(("unit", "compile_unit", unit, [work, dropped_function("sec_offset", *of_dropped), *([argument] if has_argument else []), variable("memory", "exprloc", b"\xa1\5"), *types]), 5)
    sections = {".debug_addr": fixed(len(contents)) + contents, ".debug_rnglists": list_table(3, ranges), ".debug_loclists": list_table(3, locations)}
    return module(code, {**entries.sections(), **sections})


def line_table(version, program, opcode_base=13, line_base=-5, line_range=14):
    """A table of one file."""
    lengths = [0, 1, 1, 1, 1, 0, 0, 0, 1, 0, 0, 1, 2][: opcode_base - 1]
    header = b"\1" + (b"\1" if version >= 4 else b"") + b"\1" + bytes([line_base % 256, line_range, opcode_base, *lengths])
    header += b"\1\1\x08\1d\0\1\1\x08\1f.c\0" if version == 5 else b"\0f.c\0\0\0\0\0"
    contents = fixed(version, 2) + (b"\4\0" if version == 5 else b"") + fixed(len(header)) + header + program
    return fixed(len(contents)) + contents


def line_programs(code):
    """Sequences with each operation: one of all, one that goes back, one of code that isn't there, and one of an old linker."""
    at = code.at
    sets = lambda address: b"\0\5\2" + fixed(address)
    end = b"\0\1\1"
    distance = lambda one, other: number(at(other) - at(one))
    every = sets(at("work")) + b"\3\7\1" + b"\2" + distance("work", "many") + b"\4\1\5\3\6\7\x0a\x0b\x0c\2\1"
    every += b"\0\2\4\5\x08\1\x09" + fixed(at("nop") - at("many") - 17, 2) + b"\1\x13\x2f" + b"\2" + distance("call", "after") + b"\x14\x14"
    every += b"\0\3\x80\1\2" + b"\2" + distance("after", "lost_call") + b"\3\x7a\1\x6b\2\1\1\2" + distance("block_end", "work_end") + end
    back = sets(at("small_constant")) + b"\x13" + sets(at("called")) + b"\x14\2\3\1" + end
    dead = sets(NOT_THERE) + b"\x13\2\5\x20\1" + end
    old = sets(0) + b"\x13\2" + number(at("nop")) + b"\1" + end
    return every, back, dead, old


def tables_of_lines(code):
    """Tables of each version, and such as no compiler writes: with a sequence without an end, and without an operation that is often used."""
    every, back, dead, old = line_programs(code)
    few = b"\0\5\2" + fixed(code.at("called")) + b"\x0a\x0b\2\2\x30\1\0\1\1"
    # here the operations 8 and 9 are special ones: a line more, and two bytes or none further
    without_constant = b"\0\5\2" + fixed(code.at("called")) + b"\x0e\x2a\2\6\1\x0e\2\2\0\1\1"
    # further than a special operation reaches, but not further than one and a constant would
    without_constant += b"\0\5\2" + fixed(code.at("many")) + b"\x0e\2\x18\x0e\2\x1e\0\1\1"
    usual = [
        line_table(2, every + dead + back), line_table(3, dead + old + every), line_table(4, every + few, line_range=10), line_table(5, every + old),
        line_table(4, few, 10), line_table(4, b"\x0d\x81\0\3" + every, 14),
    ]  # fmt: skip
    without_end = line_table(5, every + b"\0\5\2" + fixed(code.at("called")) + b"\x13\x21")
    return {"usual": usual, "without end": [without_end], "without constant": [line_table(4, without_constant, 8)]}


def lines(kind):
    """The tables of a kind, each with a unit."""
    code = standard_code()
    tables = tables_of_lines(code)[kind]
    entries, at = Entries(), 0
    for number_of_table, it in enumerate(tables):
        entries.add((f"unit {number_of_table}", "compile_unit", [("stmt_list", "sec_offset", at)], []), 4)
        at += len(it)
    return module(code, {**entries.sections(), ".debug_line": b"".join(tables)})


def expressions(with_locals, with_entries):
    """Operations with locals inside others, and operations that name entries; these come after expressions that grow if there are locals."""
    code = standard_code()
    at, entries = code.at, Entries()
    inner = b"\xed\0" + number(GROWING)
    made = [b"\xa3" + sized(inner) + b"\x9f", b"\xf3" + sized(inner) + b"\x9f", b"\x30\x28\1\0\x31\x9f", local(GROWING)[:3] + b"\x93\4" + local(1)[:3] + b"\x93\4"]
    made += [b"\x9e\2\xed\0\x9f", b"\x0e" + bytes(8) + b"\x10\x80\1\x22\x9f", b"\x71\x7f", b"\x91\x78", b"\x92\1\2"]
    for _ in range(2):
        place = entries.labels.get("float", 0)
        named = [b"\x30\xa8" + padded(place, 4) + b"\x9f", b"\xa5\1" + padded(place, 2) + b"\x9f", b"\xa4" + padded(place, 2) + b"\4" + bytes(4), b"\x98" + fixed(place, 2)]
        values = (made if with_locals else made[2:3] + made[4:]) + (named if with_entries else [])
        below = [variable(f"value {it}", "exprloc", expression) for it, expression in enumerate(values)]
        work = ("work", "subprogram", [("low_pc", "addr", at("work")), ("high_pc", "data4", at("work_end") - at("work"))], below)
        entries.info = b""
        entries.units = []
        entries.add(("unit", "compile_unit", [("low_pc", "addr", 0)], [work, base_type("float"), base_type()]), 5)
    return module(code, entries.sections())


CORNERS = {
    "forms-2": lambda: forms(2), "forms-3": lambda: forms(3), "forms-4": lambda: forms(4), "forms-4-of-64-bits": lambda: forms(4, 8),
    "old-lists": old_lists, "new-lists": new_sections, "lines": lambda: lines("usual"), "expressions": lambda: expressions(True, False),
    "expressions-with-entries": lambda: expressions(False, True), "places-of-calls": lambda: forms(4, odd=["places"]),
    # what the programs may carry over as it is
    "odd-signed-length": lambda: forms(4, odd=["sign"]),
    "odd-argument-4": lambda: forms(4, odd=["argument"]), "odd-argument-5": lambda: new_sections(has_argument=True),
    "odd-default-location": lambda: new_sections(b"\5" + sized(local(SHRINKING))),
    "odd-lines-without-end": lambda: lines("without end"), "odd-lines-without-constant": lambda: lines("without constant"),
    "odd-expressions-with-entries": lambda: expressions(True, True),
}  # fmt: skip
