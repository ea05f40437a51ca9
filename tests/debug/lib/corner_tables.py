"""Modules by hand with tables that lead to entries and to tables of lines: indices of names (DWARF 5, section 6.1.1), and macros (section 6.3)."""
from corners import GONE, GROWING, SHRINKING, Entries, base_type, fixed, local, module, padded, standard_code, tables_of_lines, variable
from wasm import number

COMPILE_UNIT, TYPE_UNIT, OFFSET, PARENT, HASH = 1, 2, 3, 4, 5
DATA1, DATA2, DATA4, DATA8, UDATA, REF1, REF2, REF4, REF8, REF_UDATA = 0x0B, 0x05, 0x06, 0x07, 0x0F, 0x11, 0x12, 0x13, 0x14, 0x15
SIZES = {DATA1: 1, DATA2: 2, DATA4: 4, DATA8: 8, REF1: 1, REF2: 2, REF4: 4, REF8: 8}
# abbreviations by their codes, of which none is in order: the tag, and the attributes with their forms
ABBREVIATIONS = {
    7: (0x2E, [(COMPILE_UNIT, DATA1), (OFFSET, REF4)]),
    2: (0x34, [(OFFSET, REF_UDATA), (COMPILE_UNIT, UDATA), (PARENT, DATA4)]),
    300: (0x34, [(COMPILE_UNIT, DATA2), (HASH, DATA8), (OFFSET, REF8)]),
    4: (0x24, [(OFFSET, REF2)]),
    5: (0x24, [(TYPE_UNIT, DATA1), (OFFSET, REF1), (COMPILE_UNIT, DATA1)]),
}


def value(form, it):
    return fixed(it, SIZES[form]) if form in SIZES else padded(it, 2)


def index(compile_units, names, type_units=(), foreign=(), gap=b""):
    """An index. A name is a list of entries, each the code of its abbreviation and its values; or the number of the name whose entries it has.
    Between the entries of two names are these bytes, which no name leads to."""
    abbreviations = b""
    for code, (tag, attributes) in ABBREVIATIONS.items():
        abbreviations += number(code) + number(tag) + b"".join(number(one) + number(form) for one, form in attributes) + b"\0\0"
    abbreviations += b"\0"
    pool, places = b"", []
    for it in names:
        if isinstance(it, int):
            places.append(places[it])
            continue
        places.append(len(pool))
        for code, values in it:
            pool += number(code) + b"".join(value(form, one) for (_, form), one in zip(ABBREVIATIONS[code][1], values, strict=True))
        pool += b"\0" + gap
    counts = [len(compile_units), len(type_units), len(foreign), 0, len(names), len(abbreviations), 4]
    contents = fixed(5, 2) + fixed(0, 2) + b"".join(map(fixed, counts)) + b"hand" + b"".join(map(fixed, [*compile_units, *type_units]))
    contents += b"".join(fixed(it, 8) for it in foreign) + b"".join(fixed(2 * it) for it in range(len(names))) + b"".join(map(fixed, places))
    contents += abbreviations + pool
    return fixed(len(contents)) + contents


def names():
    """Two units, of which entries change their sizes: indices of both, and of one, and one with units of types."""
    code = standard_code()
    at, entries = code.at, Entries()
    offset = {}
    for it in range(2):
        below = [variable(f"grows {it}", "exprloc", local(GROWING)), variable(f"shrinks {it}", "exprloc", local(SHRINKING)), variable(f"is_gone {it}", "exprloc", local(GONE))]
        work = (f"work {it}", "subprogram", [("low_pc", "addr", at("work")), ("high_pc", "data4", at("work_end") - at("work"))], below)
        entries.add((f"unit {it}", "compile_unit", [("low_pc", "addr", 0)], [work, base_type(f"int {it}")]), 5)
        offset.update({label: place - entries.units[it] for label, place in entries.labels.items() if label.endswith(str(it))})
    both = index(
        entries.units,
        [
            [(7, [0, offset["work 0"]]), (7, [1, offset["work 1"]])],
            [(2, [offset["shrinks 0"], 0, 3]), (2, [offset["shrinks 1"], 1, 3])],
            [(300, [1, 1 << 60, offset["is_gone 1"]]), (300, [0, 1, offset["grows 0"]])],
            0,
        ],
        gap=b"\x99",
    )
    one = index(entries.units[1:], [[(4, [offset["int 1"]])], [(7, [0, offset["grows 1"]])]])
    # an entry of a unit of another file keeps its offset
    types = index(entries.units[:1], [[(5, [0, offset["int 1"], 0]), (5, [1, 50, 0])]], entries.units[1:], [1 << 40])
    return module(code, {**entries.sections(), ".debug_str": b"a\0b\0c\0d\0", ".debug_names": both + one + types})


def macros():
    """Units of macros of both versions, with each kind of entry that the tables of lines matter for, or that `llvm-dwarfdump` reads."""
    code = standard_code()
    tables = tables_of_lines(code)["usual"]
    entries, at, places = Entries(), 0, []
    for number_of_table, it in enumerate(tables):
        entries.add((f"unit {number_of_table}", "compile_unit", [("stmt_list", "sec_offset", at)], []), 4)
        places.append(at)
        at += len(it)
    inner = b"\1\3ONE 1\0\2\x80\1ONE\0\4\5\7" + fixed(0) + b"\6\x08" + fixed(6) + b"\0"
    made = b"".join(fixed(4 + number_of_table % 2, 2) + b"\2" + fixed(place) + b"\3\0\1" + inner for number_of_table, place in enumerate(places))
    # one without a table of lines, and one that imports it
    made += fixed(5, 2) + b"\0\1\1TWO 2\0\0" + fixed(5, 2) + b"\2" + fixed(places[1]) + b"\7" + fixed(len(made)) + b"\0"
    return module(code, {**entries.sections(), ".debug_line": b"".join(tables), ".debug_str": b"THREE\0FOUR\0", ".debug_macro": made})


CORNERS = {"names": names, "macros": macros}
