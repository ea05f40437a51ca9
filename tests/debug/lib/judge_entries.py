"""Compares the entries of `.debug_info` or `.debug_types`, and notes the lists and the addresses of `.debug_addr` that they name."""
import re
from dataclasses import dataclass

from differences import hexadecimal

LOCAL = re.compile(r"DW_OP_WASM_location 0x0 \+?0x([0-9a-f]+)")
OPERAND_ENTRY = re.compile(r"(?<=\()0x([0-9a-f]+)(?: -> 0x[0-9a-f]+)?(?=\))|(?<=DW_OP_call[24] )0x([0-9a-f]+)|<invalid base_type ref: 0x([0-9a-f]+)>")
CODE_ADDRESS = re.compile(r"DW_OP_addr 0x([0-9a-f]+)")
CODE_INDEX = re.compile(r"DW_OP_(?:addrx|GNU_addr_index) 0x([0-9a-f]+)")
EMPTY = "<empty>"
# from here on llvm-dwarfdump couldn't read an expression
UNREAD = "<decoding error>"
CALL_ENDS = {("DW_AT_low_pc", "DW_TAG_GNU_call_site")}
LIST_FORMS = ("DW_FORM_sec_offset", "DW_FORM_rnglistx", "DW_FORM_loclistx", "DW_FORM_data4", "DW_FORM_data8")
# attributes that are lists of locations, where they are no expressions
LOCATIONS = """DW_AT_location DW_AT_frame_base DW_AT_string_length DW_AT_return_addr DW_AT_data_member_location DW_AT_static_link DW_AT_use_location
    DW_AT_vtable_elem_location DW_AT_segment DW_AT_GNU_call_site_value DW_AT_call_value""".split()
# the sections that have tables, which units name by the offset after a header: these don't move, or only with their section
BASES = "DW_AT_addr_base DW_AT_rnglists_base DW_AT_loclists_base DW_AT_str_offsets_base DW_AT_GNU_addr_base DW_AT_GNU_ranges_base".split()


@dataclass
class Context:
    """Of what code an entry is: the body of the function around it, or None; and whether the function isn't there."""

    body: object
    is_dead: bool


@dataclass
class Use:
    """A list that is named, with what it is counted from, and of what code it is."""

    section: str
    old_offset: int
    new_offset: int
    old_unit: object
    new_unit: object
    context: Context
    where: str


def judge(judge, old, new):
    """Compares each entry with that of the same number."""
    found = judge.found
    found.same("units", [it.plain_header() for it in old.units], [it.plain_header() for it in new.units])
    found.same("entries", len(old.all), len(new.all), "how many")
    for before, after in zip(old.units, new.units):
        judge_type_offset(judge, before, after, old, new)
    contexts = {}
    for before, after in zip(old.all, new.all):
        where = f"{before.offset:#x} {before.tag}"
        if not found.same("entries", shape(before), shape(after), where):
            continue
        contexts[before.index] = context = context_of(judge, before, contexts)
        pair = Pair(judge, before, after, old, new, context, where)
        for it, other in zip(before.attributes, after.attributes):
            pair.judge(it, other)


def judge_ends(judge, name, old, new):
    """What a unit has from its last entry on, the mark of the end, of which the value isn't printed."""
    for before, after in zip(old.units, new.units):
        if before.entries and after.entries and before.entries[-1].tag == "NULL":
            rest = [read.bytes.get(name, b"")[it.entries[-1].offset : it.end()] for read, it in ((judge.old, before), (judge.new, after))]
            judge.found.same("entries", *rest, f"the end of the unit at {before.offset:#x}")


def shape(entry):
    return entry.depth, entry.tag, entry.code, [(it.name, it.form) for it in entry.attributes]


def judge_type_offset(judge, before, after, old, new):
    """The entry of the type that a unit of types is for."""
    offsets = before.number_in_header("type_offset"), after.number_in_header("type_offset")
    if offsets[0] is None or offsets[1] is None:
        return
    named = [entries.at(unit.offset + offset) for entries, unit, offset in zip((old, new), (before, after), offsets)]
    judge.found.same("references", *(it and it.index for it in named), f"the type of the unit at {before.offset:#x}")


def first_address(entry):
    """The address with which the code of a function begins, or None if the entry has no code."""
    low = entry.get("DW_AT_low_pc")
    if low:
        return low.address()
    ranges = entry.get("DW_AT_ranges")
    first = re.search(r"\[0x([0-9a-f]+), ", ranges.text) if ranges else None
    return int(first[1], 16) if first else None


def context_of(judge, entry, contexts):
    """The context of an entry: that of the function that it is, or of the entry around it."""
    has_code = entry.tag == "DW_TAG_subprogram" and (entry.get("DW_AT_low_pc") or entry.get("DW_AT_ranges"))
    if has_code:
        first = first_address(entry)
        body = judge.moves.body_at(first) if first is not None else None
        return Context(body, body is None)
    around = contexts.get(entry.parent.index) if entry.parent else None
    return around or Context(None, False)


def moved_expression(text, body):
    """The expression with the new numbers of locals: the empty one if a local is gone."""
    if body is None:
        return text
    numbers = [body.new_local(int(it, 16)) for it in LOCAL.findall(text)]
    if None in numbers:
        return EMPTY
    rest = iter(numbers)
    return LOCAL.sub(lambda it: f"DW_OP_WASM_location 0x0 0x{next(rest):x}", text)


def named_by_number(text, entries, unit):
    """The expression with the number of each entry that it names in the place of its offset."""

    def number(found):
        entry = entries.at(unit.offset + int(found[1] or found[2] or found[3], 16))
        return f"entry {entry.index}" if entry else "no entry"

    return OPERAND_ENTRY.sub(number, text)


def lists_before(lists, offset):
    """How many lists begin before this offset, or None if it is none."""
    return None if offset is None else sum(it.offset < offset for it in lists.all)


def are_alike(wanted, found):
    """Whether two expressions are the same, up to where one of both couldn't be read."""
    return wanted.split(UNREAD)[0] == found.split(UNREAD)[0] and (UNREAD in wanted) == (UNREAD in found)


class Pair:
    """An entry before and after."""

    def __init__(self, judge, before, after, old, new, context, where):
        self.of, self.before, self.after, self.old, self.new, self.context, self.where = judge, before, after, old, new, context, where
        self.found = judge.found

    def judge(self, it, other):
        """Compares an attribute."""
        name, form = it.name, it.form
        where = f"{self.where} {name}"
        if it.is_address():
            self._address(it, other, where)
        elif name in ("DW_AT_high_pc", "DW_AT_entry_pc"):
            self._length(it, other, where)
        elif form in LIST_FORMS and name == "DW_AT_ranges":
            self._list(".debug_ranges", ".debug_rnglists", it, other, where)
        elif form in LIST_FORMS and name in LOCATIONS and self._is_list(it):
            self._list(".debug_loc", ".debug_loclists", it, other, where)
        elif form == "DW_FORM_exprloc" or form.startswith("DW_FORM_block"):
            self._expression(it, other, where)
        elif form.startswith("DW_FORM_ref") and form != "DW_FORM_ref_sig8" or name == "DW_AT_sibling":
            self._reference(it, other, where)
        else:
            self._number(it, other, where)

    def _is_list(self, it):
        return it.form in ("DW_FORM_loclistx", "DW_FORM_sec_offset") or (self.before.unit.version() < 4 and "\n" in it.text)

    def _address(self, it, other, where):
        """An address of code, in the entry or in `.debug_addr`."""
        address, new = it.address(), other.address()
        if it.index() is not None:
            base = self.before.unit.number_of("DW_AT_addr_base")
            self.of.used_as_code.add((base, it.index()))
            self._same_index(it, other, base, where)
        if address is None or new is None or self.context.is_dead:
            self.found.same("addresses", hexadecimal(address), hexadecimal(new), where)
        elif it.name in ("DW_AT_call_return_pc", "DW_AT_call_pc") or (it.name, self.before.tag) in CALL_ENDS:
            self._call(it, address, new, where)
        else:
            self.of.goes("addresses", address, new, where)

    def _same_index(self, it, other, base, where):
        """An index stays, unless it is that of an address that is added after the table."""
        number = self.of.old.addresses.number_at(base)
        known = len(self.of.old.addresses.all[number].entries) if number is not None else 0
        if it.index() != other.index() and (other.index() is None or other.index() < known):
            self.found.add("addresses", f"{where}: the index {it.index()} became {other.index()}")

    def _call(self, it, address, new, where):
        """The end of a call, or the call itself: -1 if it isn't written."""
        body = self.of.moves.body_at(address)
        if body is None:
            return self.found.same("calls", hexadecimal(address), hexadecimal(new), where)
        wanted = body.own(address) if it.name == "DW_AT_call_pc" else body.return_place(address)
        none = (1 << 8 * self.before.unit.address_size()) - 1
        wanted = none if wanted is None else wanted
        # no call ends inside an operator
        is_inside = address not in body.ends and self.of.moves.allows(address, new)
        if new != wanted and not is_inside:
            self.found.add("calls", f"{where}: {address:#x} became {new:#x}, not {wanted:#x}")

    def _length(self, it, other, where):
        """The end of code, or where it is entered, counted from its beginning."""
        low, new_low = (entry.get("DW_AT_low_pc") for entry in (self.before, self.after))
        low, new_low = low and low.address(), new_low and new_low.address()
        length, new_length = it.number(), other.number()
        if low is None or new_low is None or length is None or new_length is None:
            return self.found.same("lengths", it.text, other.text, where)
        if self.context.is_dead or self.of.moves.body_at(low) is None:
            return self.found.same("lengths", length, new_length, where)
        self.of.goes("lengths", low + length, new_low + new_length, where)

    def _list(self, section, section_of_5, it, other, where):
        """A list, which is compared where lists are."""
        name = section_of_5 if self.before.unit.version() >= 5 else section
        if "indexed" in it.text:
            self.found.same("lists", it.text.split(" ")[1], other.text.split(" ")[1], f"{where}: the index")
        units = self.before.unit, self.after.unit
        self.of.uses.append(Use(name, it.offset_of_list(), other.offset_of_list(), *units, self.context, where))

    def _expression(self, it, other, where):
        """An expression, with the numbers of locals, or bytes that are none."""
        if self._is_code():
            return self._code_as_value(it, other, where)
        if self.context.is_dead:
            wanted = it.text
        else:
            wanted = moved_expression(it.text.rstrip(")"), self.context.body) + ")"
        wanted = named_by_number(wanted, self.old, self.before.unit)
        found = named_by_number(other.text, self.new, self.after.unit)
        if not are_alike(wanted.rstrip(")"), found.rstrip(")")):
            self.found.add("expressions", f"{where}: {it.text} became {other.text}, not {wanted}")

    def _is_code(self):
        """Whether the entry is the argument of a template that is a function."""
        if self.before.tag != "DW_TAG_template_value_parameter":
            return False
        pointer = self.before.target("DW_AT_type", self.old)
        of = pointer.target("DW_AT_type", self.old) if pointer and ("pointer" in pointer.tag or "reference" in pointer.tag) else None
        return of is not None and of.tag == "DW_TAG_subroutine_type"

    def _code_as_value(self, it, other, where):
        """The address of a function, in an expression or in `.debug_addr`."""
        self.found.same("expressions", CODE_ADDRESS.sub("", it.text), CODE_ADDRESS.sub("", other.text), where)
        old, new = (CODE_ADDRESS.search(of.text) for of in (it, other))
        if old and new:
            self.of.goes("expressions", int(old[1], 16), int(new[1], 16), where)
        index = CODE_INDEX.search(it.text)
        if index:
            base, number = self.before.unit.number_of("DW_AT_addr_base"), int(index[1], 16)
            self.of.used_as_code.add((base, number))
            both = self.of.old.addresses.address(base, number), self.of.new.addresses.address(base, number)
            if None not in both:
                self.of.goes("expressions", *both, where)

    def _reference(self, it, other, where):
        """Another entry, by its number."""
        # a reference to no entry says nothing, and may be any
        target, new = (entries.at(attribute.target()) for entries, attribute in ((self.old, it), (self.new, other)))
        self.found.same("references", target and target.index, new and new.index, where)

    def _number(self, it, other, where):
        """All else: the same text, but for the offset of a table of lines, which is named by its number."""
        if it.name == "DW_AT_stmt_list":
            old, new = (of.lines.number_at(attribute.number()) for of, attribute in ((self.of.old, it), (self.of.new, other)))
            return self.found.same("references", old, new, where)
        if it.name in BASES and it.name != "DW_AT_str_offsets_base":
            return self._base(it, other, where)
        self.found.same("attributes", it.text, other.text, where)

    def _base(self, it, other, where):
        """The base of a table: the number of lists or addresses before it stays."""
        name = {"DW_AT_rnglists_base": ".debug_rnglists", "DW_AT_loclists_base": ".debug_loclists"}.get(it.name)
        if name is None:
            old, new = (of.addresses.number_at(attribute.number()) for of, attribute in ((self.of.old, it), (self.of.new, other)))
        else:
            old, new = (lists_before(of.lists[name], attribute.number()) for of, attribute in ((self.of.old, it), (self.of.new, other)))
        self.found.same("references", old, new, where)
