"""Where each address of the code may go, by the location map that a program writes and by both modules, and which number a local gets.

An address is an offset from the contents of the code section. Of the first operator at or after it that is written, `own` is the new place,
and `gap` that where the operator before it ends that is written, or where operators begin. An address goes to one of both, or between them."""
import bisect
from dataclasses import dataclass, field

from operators import operators_of
from wasm import bodies_of, code_begin, contents_of, counts_of_parameters, CODE

# The first address of no code: those of functions that are left out, two for each.
NO_CODE = 0xF0000000


@dataclass
class Kept:
    """An operator that is written: where it begins and ends in the source, and in what is written."""

    old: int
    old_end: int
    new: int
    new_end: int
    # where the operator before it ends in what is written
    gap: int = 0


@dataclass
class Body:
    """The body of a function, before and after."""

    begin: int
    end: int
    new_begin: int
    new_end: int
    parameters: int
    kept: list = field(default_factory=list)
    # where its operators begin, before and after
    first: int = 0
    # where the operators of the source end
    ends: set = field(default_factory=set)
    # the new number of each local that an operator names
    locals: dict = field(default_factory=dict)

    def next_kept(self, address):
        """The index of the first operator at or after this address that is written."""
        return bisect.bisect_left(self.kept, address, key=lambda it: it.old)

    def interval(self, address):
        """The least and the greatest address to which one of this body may go."""
        if address == self.begin:
            return self.new_begin, self.new_begin
        index = self.next_kept(address)
        before = self.kept[index - 1] if index else None
        own, gap = (self.kept[index].new, self.kept[index].gap) if index < len(self.kept) else (self.new_end, self.new_end)
        # no compiler names the inside of an operator
        is_inside = before and before.old < address < before.old_end
        return (before.new if is_inside else gap), own

    def return_place(self, address):
        """Where a call returns to that returned to this address, or None if it isn't written."""
        index = self.next_kept(address)
        before = self.kept[index - 1] if index else None
        return before.new_end if before and before.old_end == address else None

    def own(self, address):
        """The new place of the operator that begins at this address, or None if it isn't written."""
        index = self.next_kept(address)
        return self.kept[index].new if index < len(self.kept) and self.kept[index].old == address else None

    def new_local(self, local):
        """The new number of a local, or None if nothing that is written uses it."""
        return local if local < self.parameters else self.locals.get(local)


def pairs_of(text):
    """The pairs of a location map: places in the source and in what is written."""
    return [tuple(int(number, 16) for number in line.split()) for line in text.splitlines()]


def kept_operators(old, new, pairs, new_first):
    """The operators that pairs are of. One that isn't after all those before it in the source is passed over."""
    kept, gap = [], new_first
    for source, written in sorted(pairs, key=lambda it: it[1]):
        if not kept or source > kept[-1].old:
            kept.append(Kept(source, old[source].end, written, new[written].end, gap))
            gap = kept[-1].new_end
    return kept


def numbers_of_locals(kept, old, new):
    """The new number of each local, as the operators show that are written."""
    found = {}
    for it in kept:
        before, after = old[it.old].local, new[it.new].local
        if before is not None and found.setdefault(before, after) != after:
            raise ValueError(f"the local {before} at {it.old:#x} has two new numbers, {found[before]} and {after}")
    return found


class Moves:
    """The bodies of a module, before and after, with what is written of them."""

    def __init__(self, old_module, new_module, map_text):
        old_begin, new_begin = code_begin(old_module), code_begin(new_module)
        self.pairs = [(old - old_begin, new - new_begin) for old, new in pairs_of(map_text)]
        code, new_code = (it[slice(*contents_of(it, CODE))] for it in (old_module, new_module))
        parameters = counts_of_parameters(old_module)
        both = zip(*self._places(bodies_of(old_module), bodies_of(new_module)), parameters, strict=True)
        self.bodies = [self._body(code, new_code, *of) for of in both]
        self.begins = [it.begin for it in self.bodies]

    def _places(self, old, new):
        """The places of the bodies, before and after. If some are left out, none of their operators is written."""
        if len(old) == len(new):
            return old, new
        written = sorted(source for source, _ in self.pairs)
        is_left = [bisect.bisect_left(written, begin) < bisect.bisect_left(written, end) for begin, end in old]
        if sum(is_left) != len(new):
            raise ValueError(f"{len(new)} bodies are written, and operators of {sum(is_left)}")
        places, first = iter(new), NO_CODE
        after = []
        for it in is_left:
            after.append(next(places) if it else (first, first + 1))
            first += 0 if it else 2
        return old, after

    def _body(self, code, new_code, place, new_place, parameters):
        begin, end = place
        listed, _ = operators_of(code, *place)
        if new_place[0] >= NO_CODE:
            return Body(begin, end, *new_place, parameters, [], listed[0].begin, {it.end for it in listed})
        new_listed, _ = operators_of(new_code, *new_place)
        old, new = ({it.begin: it for it in of} for of in (listed, new_listed))
        low = bisect.bisect_left(self.pairs, new_place[0], key=lambda it: it[1])
        high = bisect.bisect_left(self.pairs, new_place[1], key=lambda it: it[1])
        pairs = [it for it in self.pairs[low:high] if begin <= it[0] < end]
        kept = kept_operators(old, new, pairs, new_listed[0].begin)
        ends = {it.end for it in listed}
        return Body(begin, end, *new_place, parameters, kept, listed[0].begin, ends, numbers_of_locals(kept, old, new))

    def body_at(self, address):
        """The body that an address is of: from its first byte up to its end, or None."""
        index = bisect.bisect_right(self.begins, address) - 1
        return self.bodies[index] if index >= 0 and address <= self.bodies[index].end else None

    def allows(self, address, new):
        """Whether an address may go here: one that is of no body stays."""
        body = self.body_at(address)
        low, high = body.interval(address) if body else (address, address)
        return low <= new <= high

    def is_still(self):
        """Whether the code is the same."""
        return all((it.begin, it.end) == (it.new_begin, it.new_end) and all(at.old == at.new for at in it.kept) for it in self.bodies)


def identity_map(module):
    """The map of a module whose code stays as it is."""
    begin = code_begin(module)
    code = module[slice(*contents_of(module, CODE))]
    places = [it.begin + begin for body in bodies_of(module) for it in operators_of(code, *body)[0]]
    return "".join(f"{place:x} {place:x}\n" for place in places)
