"""The time that wrewrite takes is nearly linear in what it reads: many types, long types, and many locals."""
import math
import resource

from modules import PREAMBLE, number, section, signed, sized, vector
from runs import case


def lists_of(index):
    """Parameters that no function type of another index has: a value type for each digit of it in base 4, from 1 on."""
    index, made = index + 1, b""
    while index:
        index, made = index >> 2, made + bytes([0x7F - (index & 3)])
    return sized(made)


def many_types(count):
    """So many function types, all different, and one function with a block of each."""
    types = vector([b"\x60" + lists_of(index) + b"\0" for index in range(count)])
    body = b"\0" + b"".join(b"\x02" + signed(index) + b"\x0b" for index in range(count)) + b"\x0b"
    return PREAMBLE + section(1, types) + section(3, vector([b"\0"])) + section(10, vector([sized(body)]))


def seconds(room, *words, program="wrewrite"):
    """The least processor time of three runs of a program."""
    def once():
        before = resource.getrusage(resource.RUSAGE_CHILDREN)
        room.works(program, *words)
        after = resource.getrusage(resource.RUSAGE_CHILDREN)
        return after.ru_utime + after.ru_stime - before.ru_utime - before.ru_stime
    return min(once() for _ in range(3))


def is_nearly_linear(room, make, few, many, *words, program="wrewrite"):
    """Ten times as much takes at most forty times the time, on a machine that does other work too: in an ordered map a look-up takes the
    logarithm, and more memory is slower; the square would be a hundred times. What a program takes that has nothing to do is left out.
    Where it seems to take longer it is run again, since other work makes both times longer, and the least counts."""
    least = seconds(room, "--check", room.put("none"))
    short = long = math.inf
    for _ in range(3):
        once = (seconds(room, *words, room.put("in", make(count)), *(() if words else ("out",)), program=program) for count in (few, many))
        short, long = (min(pair) for pair in zip((short, long), once))
        if long <= 40 * max(short, least, 0.01):
            return
    raise AssertionError(f"{few}: {short:.3f} s, {many}: {long:.3f} s")


@case("a block of each of 10,000 to 100,000 types takes time nearly in proportion")
def _(room):
    is_nearly_linear(room, many_types, 10_000, 100_000, "--check")
    is_nearly_linear(room, many_types, 10_000, 100_000)


def long_type(count):
    """A function type with so many parameters and results, and one function with so many blocks of it."""
    lists = number(count) + b"\x7f" * count
    body = b"\0" + b"\x02\1\x0b" * count + b"\x0b"
    return PREAMBLE + section(1, vector([b"\x60\0\0", b"\x60" + lists + lists])) + section(3, vector([b"\0"])) + section(10, vector([sized(body)]))


@case("1,000 to 10,000 blocks of a type with as many parameters and results take time nearly in proportion")
def _(room):
    is_nearly_linear(room, long_type, 1_000, 10_000, "--check")
    is_nearly_linear(room, long_type, 1_000, 10_000)


def many_locals(count):
    """A function that names so many locals, and after it as many functions that name one."""
    names = lambda it: b"\x20" + number(it) + b"\x1a"
    first = b"\1" + number(count) + b"\x7f" + b"".join(map(names, range(count))) + b"\x0b"
    bodies = [sized(first)] + [sized(b"\1\1\x7f" + names(0) + b"\x0b")] * count
    functions = section(3, number(count + 1) + b"\0" * (count + 1))
    return PREAMBLE + section(1, vector([b"\x60\0\0"])) + functions + section(10, vector(bodies))


@case("a function that names 4,000 to 40,000 locals, and as many small ones after it, take time nearly in proportion")
def _(room):
    is_nearly_linear(room, many_locals, 4_000, 40_000)
