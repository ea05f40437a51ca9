"""Compares `.debug_addr`, `.debug_aranges`, and the sections that name units, entries or tables of lines by their offsets."""
import re

from tables import range_tables

UNIT_INDEX = re.compile(r"^ *DW_IDX_(compile|type)_unit: 0x([0-9a-f]+)$")
DIE_OFFSET = re.compile(r"^( *DW_IDX_die_offset: )0x([0-9a-f]+)$")
UNIT_OF_NAMES = re.compile(r"^( *(C|LocalT)U\[\d+\]: )0x([0-9a-f]+)$")
UNIT_OF_PUBLIC = re.compile(r"^length = 0x[0-9a-f]+, (.*)unit_offset = 0x([0-9a-f]+), unit_size = 0x([0-9a-f]+)$")
PUBLIC = re.compile(r"^0x([0-9a-f]+) (.*)$")
LINE_OFFSET = re.compile(r"debug_line_offset = 0x([0-9a-f]+)")
OWN_SIZE, OTHER_SIZE = "size: right", "size: wrong"
PUBLIC_NAMES = (".debug_pubnames", ".debug_pubtypes", ".debug_gnu_pubnames", ".debug_gnu_pubtypes")


def judge(judge):
    judge_addresses(judge)
    judge_ranges(judge)
    for name in PUBLIC_NAMES:
        both = [public_names(read.dump.lines(name), read.info) for read in (judge.old, judge.new)]
        judge_lines(judge, "names", name, *both)
    judge_lines(judge, "names", ".debug_names", *[names(read.dump.lines(".debug_names"), read.info) for read in (judge.old, judge.new)])
    judge_lines(judge, "macros", ".debug_macro", *[macros(read.dump.lines(".debug_macro"), read.lines) for read in (judge.old, judge.new)])


def judge_lines(judge, kind, name, old, new):
    judge.found.same(kind, len(old), len(new), f"{name}: how many lines")
    for before, after in zip(old, new):
        # a size that was none of the unit's may be any
        if not before.endswith(OTHER_SIZE) or before[: -len(OTHER_SIZE)] != after[: -len(OTHER_SIZE)]:
            judge.found.same(kind, before, after, name)


def judge_addresses(judge):
    """Entries without a use as code stay. Those of code have been compared where they are used."""
    old, new = judge.old.addresses.all, judge.new.addresses.all
    judge.found.same("addresses", [it.header for it in old], [it.header for it in new], ".debug_addr: headers")
    for before, after in zip(old, new):
        where = f".debug_addr {before.offset:#x}"
        if len(after.entries) < len(before.entries):
            judge.found.add("addresses", f"{where}: {len(before.entries)} became {len(after.entries)}")
        for index, (address, other) in enumerate(zip(before.entries, after.entries)):
            if (before.base(), index) not in judge.used_as_code:
                judge.found.same("addresses", address, other, f"{where}: {index}, which isn't of code")


def ranges_in(entry):
    """The ranges of code that an entry has."""
    ranges, low, high = (entry.get(it) for it in ("DW_AT_ranges", "DW_AT_low_pc", "DW_AT_high_pc"))
    if ranges:
        return {(int(one, 16), int(other, 16)) for one, other in re.findall(r"\[0x([0-9a-f]+), 0x([0-9a-f]+)\)", ranges.text)}
    begin, end = low and low.address(), high and (high.address() if high.is_address() else high.number())
    if begin is None or end is None:
        return set()
    return {(begin, end if high.is_address() else begin + end)}


def code_ranges(unit):
    """The ranges of code of a unit: by its first entry, and by those of its functions. In a module that isn't damaged both are the same."""
    functions = [it for it in unit.entries if it.tag == "DW_TAG_subprogram"]
    return ranges_in(unit.entries[0]) if unit.entries else set(), {one for it in functions for one in ranges_in(it)}


def judge_ranges(judge):
    """A range that is one of its unit's own moves. All others are of memory, or of code that isn't there."""
    old, new = (range_tables(read.dump.lines(".debug_aranges")) for read in (judge.old, judge.new))
    judge.found.same("aranges", [it.header for it in old], [it.header for it in new], "headers")
    for before, after in zip(old, new):
        number = judge.old.info.unit_at(before.unit)
        judge.found.same("aranges", number, judge.new.info.unit_at(after.unit), f"the unit at {before.unit:#x}")
        judge.found.same("aranges", len(before.ranges), len(after.ranges), f"how many of the unit at {before.unit:#x}")
        own, of_functions = code_ranges(judge.old.info.units[number]) if number is not None else (set(), set())
        for it, other in zip(before.ranges, after.ranges):
            is_own, is_of_function = it in own, it in of_functions
            if it == other and not (is_own and is_of_function):
                continue
            if is_own or is_of_function:
                judge.goes("aranges", it[0], other[0], f"[{it[0]:#x}, {it[1]:#x})")
                judge.goes("aranges", it[1], other[1], f"[{it[0]:#x}, {it[1]:#x})")
            else:
                judge.found.same("aranges", it, other, "a range that isn't its unit's")


def named(entries, offset):
    """An entry by its number. What names none says nothing, and may be any."""
    entry = entries.at(offset)
    return f"entry {entry.index}" if entry else "no entry"


def public_names(lines, info):
    """The lines of names of a unit, with numbers of units and entries for offsets."""
    found, unit = [], 0
    for line in lines:
        header, name = UNIT_OF_PUBLIC.match(line), PUBLIC.match(line)
        if header:
            unit = int(header[2], 16)
            number = info.unit_at(unit)
            size = info.units[number + 1].offset - unit if number is not None and number + 1 < len(info.units) else None
            line = f"{header[1]}unit {number}, " + (OWN_SIZE if size in (None, int(header[3], 16)) else OTHER_SIZE)
        elif name:
            line = f"{named(info, unit + int(name[1], 16))} {name[2]}"
        found.append(line)
    return found


def unit_of_entry(entry, units):
    """The offset of the unit that an entry of an index is in, or None if that is in another file. entry: the numbers of its units."""
    types, compiled = units["LocalT"], units["C"]
    if "type" in entry:
        return types[entry["type"]] if entry["type"] < len(types) else None
    number = entry.get("compile", 0)
    return compiled[number] if number < len(compiled) else 0


def names(lines, info):
    """The lines of `.debug_names`, with numbers of units and entries for offsets. An entry's offset is counted from its unit, which may be named
    after it."""
    found, units, entry = [], {"C": [], "LocalT": []}, {}
    for line in lines:
        unit, index, offset = UNIT_OF_NAMES.match(line), UNIT_INDEX.match(line), DIE_OFFSET.match(line)
        if line.startswith("Name Index"):
            units = {"C": [], "LocalT": []}
        if unit:
            units[unit[2]].append(int(unit[3], 16))
            line = f"{unit[1]}unit {info.unit_at(int(unit[3], 16))}"
        elif index:
            entry[index[1]] = int(index[2], 16)
        elif offset:
            entry["offset"] = len(found), offset[1], int(offset[2], 16)
        elif line.strip() in ("{", "}") and "offset" in entry:
            at, text, number = entry["offset"]
            start = unit_of_entry(entry, units)
            found[at] = text + (f"{number:#x}" if start is None else named(info, start + number))
        if line.strip().startswith("Entry @"):
            entry = {}
        found.append(line)
    return found


def macros(lines, tables):
    """The lines of `.debug_macro`, with the number of a table of lines for its offset."""
    return [LINE_OFFSET.sub(lambda it: f"table {tables.number_at(int(it[1], 16))}", line) for line in lines]
