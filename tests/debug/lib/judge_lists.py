"""Compares lists of ranges and of locations, each as often as entries name it, by what it is counted from there."""
from differences import hexadecimal
from judge_entries import EMPTY, are_alike, moved_expression, named_by_number
from lists import BASE, END, PAIR

# kinds of items, by what their first two numbers are
BASES_BY_INDEX = ("DW_RLE_base_addressx", "DW_LLE_base_addressx")
BASES = (BASE, "DW_RLE_base_address", "DW_LLE_base_address")
OFFSETS = (PAIR, "DW_RLE_offset_pair", "DW_LLE_offset_pair")
ENDS = ("DW_RLE_start_end", "DW_LLE_start_end")
LENGTHS = ("DW_RLE_start_length", "DW_LLE_start_length")
INDEX_AND_LENGTH = ("DW_RLE_startx_length", "DW_LLE_startx_length")
INDICES = ("DW_RLE_startx_endx", "DW_LLE_startx_endx")
# how many of an item's numbers are indices of addresses
INDICES_IN = {**{it: 1 for it in (*BASES_BY_INDEX, *INDEX_AND_LENGTH)}, **{it: 2 for it in INDICES}}
WITHOUT_CODE = (END, "DW_RLE_end_of_list", "DW_LLE_end_of_list", "DW_LLE_default_location", "DW_LLE_view_pair")
# an empty range of an old list, which must not be two zeros
NOT_THE_END = (1, 1)


def judge(judge):
    """Compares what is named, once for each way in which it is named, and then whether all that isn't named is the same."""
    named, seen = {}, set()
    for use in judge.uses:
        old, new = judge.old.lists[use.section].at(use.old_offset), judge.new.lists[use.section].at(use.new_offset)
        if old is None:
            judge.found.same("lists", use.old_offset, use.new_offset, use.where)
            continue
        if not judge.found.same("lists", old.number, new and new.number, f"{use.where}: the number of the list"):
            continue
        named.setdefault(use.section, set()).add(old.number)
        key = (use.section, old.number, use.old_unit.offset, use.context.is_dead, use.context.body and use.context.body.begin)
        if key not in seen:
            seen.add(key)
            Named(judge, use, old, new).judge()
    for section in judge.old.lists:
        judge_section(judge, section, named.get(section, set()))


def judge_section(judge, section, named):
    """Headers, and the lists that nothing names, which stay."""
    old, new = judge.old.lists[section], judge.new.lists[section]
    judge.found.same("lists", len(old.all), len(new.all), f"{section}: how many")
    judge.found.same("lists", old.offsets_by_number(), new.offsets_by_number(), f"{section}: headers")
    for before, after in zip(old.all, new.all):
        if before.number not in named:
            judge.found.same("lists", before.items, after.items, f"{section} {before.offset:#x}, which nothing names")


class Named:
    """A list before and after, as an entry names it."""

    def __init__(self, judge, use, old, new):
        self.of, self.use, self.old, self.new = judge, use, old, new
        self.found, self.where = judge.found, f"{use.section} {old.offset:#x}"
        self.bases = [unit.number_of("DW_AT_low_pc") or 0 for unit in (use.old_unit, use.new_unit)]
        self.mask = (1 << 8 * use.old_unit.address_size()) - 1

    def judge(self):
        kinds = [[it.kind for it in of.items] for of in (self.old, self.new)]
        if not self.found.same("lists", *kinds, f"{self.where}: kinds of items"):
            return
        for it, other in zip(self.old.items, self.new.items):
            if it.kind in BASES_BY_INDEX or it.kind in BASES:
                self._base(it, other)
            elif it.kind in WITHOUT_CODE:
                self.found.same("lists", it.numbers, other.numbers, self.where)
                # a location for all code of the function
                self._expression(it, other, None if self.use.context.is_dead else self.use.context.body)
            else:
                self._range(it, other)

    def _address(self, item, place, side):
        """The address that an index of an item names."""
        unit, read = (self.use.old_unit, self.of.old) if side == 0 else (self.use.new_unit, self.of.new)
        base, index = unit.number_of("DW_AT_addr_base"), item.numbers[place]
        if side == 0:
            self.of.used_as_code.add((base, index))
        return read.addresses.address(base, index)

    def _base(self, it, other):
        """What the next ranges are counted from."""
        if it.kind in BASES_BY_INDEX:
            self.found.same("lists", it.numbers, other.numbers, f"{self.where}: the index of a base")
            addresses = [self._address(item, 0, side) for side, item in enumerate((it, other))]
        else:
            addresses = [it.numbers[0], other.numbers[0]]
        self.bases = [0 if address is None else address for address in addresses]
        if None in addresses or self.use.context.is_dead or self.of.moves.body_at(addresses[0]) is None:
            self.found.same("lists", *map(hexadecimal, addresses), f"{self.where}: a base")
        else:
            self.of.goes("lists", *addresses, f"{self.where}: a base")

    def _ends(self, item, side):
        """The addresses where a range begins and ends: None if they can't be read."""
        kind = item.kind
        if kind in OFFSETS:
            return [(self.bases[side] + number) & self.mask for number in item.numbers]
        if kind in ENDS:
            return list(item.numbers)
        if kind in LENGTHS:
            return [item.numbers[0], (item.numbers[0] + item.numbers[1]) & self.mask]
        low = self._address(item, 0, side)
        if kind in INDEX_AND_LENGTH:
            return [low, None if low is None else (low + item.numbers[1]) & self.mask]
        return [low, self._address(item, 1, side)] if kind in INDICES else [None, None]

    def _range(self, it, other):
        """A range, and its expression."""
        ends, new_ends = self._ends(it, 0), self._ends(other, 1)
        low = ends[0]
        body = None if low is None or self.use.context.is_dead else self.of.moves.body_at(low)
        indices = INDICES_IN.get(it.kind, 0)
        self.found.same("lists", it.numbers[:indices], other.numbers[:indices], f"{self.where}: indices of addresses")
        if body is None or None in ends or None in new_ends:
            # what is counted from a base that moves may stay as a number, and an entry of `.debug_addr` is compared by itself
            stays = it.numbers == other.numbers and it.kind in (*OFFSETS, *INDICES)
            if ends[0] != new_ends[0] and it.kind in INDICES or ends != new_ends and not stays:
                self.found.add("lists", f"{self.where}: {it.numbers} became {other.numbers}")
        elif not self._is_empty(it, other, ends):
            for address, new in zip(ends, new_ends):
                self.of.goes("lists", address, new, self.where)
        self._expression(it, other, body)

    def _is_empty(self, it, other, ends):
        """Whether an empty range is written so that it doesn't end the list, and both its ends may be where it is counted from."""
        return it.kind == PAIR and other.numbers == NOT_THE_END and all(self.of.moves.allows(address, self.bases[1]) for address in ends)

    def _expression(self, it, other, body):
        wanted = named_by_number(moved_expression(it.expression, body), self.of.old.info, self.use.old_unit)
        found = named_by_number(other.expression, self.of.new.info, self.use.new_unit)
        if not are_alike(wanted, found or EMPTY if wanted == EMPTY else found):
            self.found.add("expressions", f"{self.where}: {it.expression} became {other.expression}, not {wanted}")
