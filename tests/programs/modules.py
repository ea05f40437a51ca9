"""Makes modules byte by byte, and has those that the cases of several files use."""

PREAMBLE = b"\0asm\1\0\0\0"


def number(value):
    """A number in LEB128."""
    low, high = value & 0x7F, value >> 7
    return bytes([low | 0x80]) + number(high) if high else bytes([low])


def signed(value):
    """A number that isn't negative in signed LEB128."""
    low, high = value & 0x7F, value >> 7
    return bytes([low | 0x80]) + signed(high) if high or low & 0x40 else bytes([low])


def read_number(contents, at):
    """The number in LEB128 at this place, and the place after it."""
    value = shift = 0
    while True:
        byte = contents[at]
        value, shift, at = value | (byte & 0x7F) << shift, shift + 7, at + 1
        if byte < 0x80:
            return value, at


def sized(contents):
    return number(len(contents)) + contents


def vector(items):
    return number(len(items)) + b"".join(items)


def section(kind, contents):
    return bytes([kind]) + sized(contents)


def custom(name, contents=b""):
    return section(0, sized(name) + contents)


TYPES = section(1, vector([b"\x60\0\0"]))


def functions(bodies):
    """Functions that take and give nothing, with these operators between no locals and the last `end`."""
    return section(3, vector([b"\0"] * len(bodies))), section(10, vector([sized(b"\0" + body + b"\x0b") for body in bodies]))


def names(pairs):
    """A name section with the names of these functions."""
    return custom(b"name", b"\1" + sized(vector([number(index) + sized(name) for index, name in pairs])))


def exports(pairs):
    return section(7, vector([sized(name) + b"\0" + number(index) for name, index in pairs]))


def module(bodies, exported=b"", after=b"", imported=b""):
    declared, code = functions(bodies)
    return PREAMBLE + TYPES + imported + declared + exported + code + after


NOP, TRAP, BAD_LABEL, BAD_LOCAL, BAD_CALL = b"\1", b"\0", b"\x0c\1", b"\x20\0\x1a", b"\x10\x09"
GOOD = module([NOP])
GOOD_WRITTEN = module([b""])
GOOD_MAP = b"18 17\n"
REFUSED = module([NOP, BAD_LABEL, BAD_LOCAL], after=names([(1, b"main"), (2, b"e\x1b[1m")]))
NAMED = module([NOP, NOP, NOP], exported=exports([(b"out", 2)]), after=names([(0, b"first"), (1, b"second")]))
DEBUG = custom(b".debug_line", b"x") + custom(b".debug_str", b"y") + custom(b"sourceMappingURL", b"\1z") + custom(b"other", b"o")
# As it is written where the code changes: its debug information, which can't be read, is after the other sections.
DEBUG_WRITTEN = custom(b"sourceMappingURL", b"\1z") + custom(b"other", b"o") + custom(b".debug_line", b"x") + custom(b".debug_str", b"y")
