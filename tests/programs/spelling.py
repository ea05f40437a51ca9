"""Reads the bodies of a module, by the binary format of the WebAssembly specification 3.0 (section 5) and the proposal for legacy
exceptions, and says how long each is with every number in its shortest spelling. Nothing of it is taken from this repository's crates."""

U, S, BYTE, FOUR, EIGHT, SIXTEEN = "u", "s", 1, 4, 8, 16
MEMORY = "memory"
TYPE = "type"


class Body:
    """A body that is read from its front: `at` is the place of the next byte, `length` that of what was read, in shortest spelling."""

    def __init__(self, contents):
        self.contents, self.at, self.length = contents, 0, 0

    def byte(self, count=1):
        self.at, self.length = self.at + count, self.length + count
        return self.contents[self.at - 1]

    def unsigned(self):
        value = shift = 0
        while True:
            byte = self.contents[self.at]
            value, shift, self.at = value | (byte & 0x7F) << shift, shift + 7, self.at + 1
            if byte < 0x80:
                break
        self.length += max(1, -(-value.bit_length() // 7))
        return value

    def signed(self):
        value = shift = 0
        while True:
            byte = self.contents[self.at]
            value, shift, self.at = value | (byte & 0x7F) << shift, shift + 7, self.at + 1
            if byte < 0x80:
                break
        value -= (value >> shift - 1 & 1) << shift
        self.length += (value if value >= 0 else ~value).bit_length() // 7 + 1
        return value

    def value_type(self):
        if self.byte() in (0x63, 0x64):
            self.signed()

    def block_type(self):
        if self.contents[self.at] in (0x63, 0x64):
            self.value_type()
        else:
            self.signed()

    def memory_argument(self):
        if self.unsigned() & 0x40:
            self.unsigned()
        self.unsigned()

    def vector(self, item):
        for _ in range(self.unsigned()):
            item()

    def clause(self):
        if self.byte() < 2:
            self.unsigned()
        self.unsigned()

    def immediates(self, kinds):
        for kind in kinds:
            {"u": self.unsigned, "s": self.signed, MEMORY: self.memory_argument, TYPE: self.block_type}.get(kind, lambda: self.byte(kind))()

    def operator(self):
        opcode = self.byte()
        if opcode == 0x0E:
            self.vector(self.unsigned)
            self.unsigned()
        elif opcode == 0x1C:
            self.vector(self.value_type)
        elif opcode == 0x1F:
            self.block_type()
            self.vector(self.clause)
        elif opcode in (0xFC, 0xFD):
            self.immediates((after_fc if opcode == 0xFC else after_fd)(self.unsigned()))
        else:
            self.immediates(after_byte(opcode))


def after_byte(opcode):
    """The immediates of an operator of one byte."""
    if opcode in (0x02, 0x03, 0x04, 0x06):
        return (TYPE,)
    if opcode in (0x11, 0x13):
        return U, U
    if opcode in (0x07, 0x08, 0x09, 0x0C, 0x0D, 0x10, 0x12, 0x14, 0x15, 0x18, 0x3F, 0x40, 0xD2, 0xD5, 0xD6) or 0x20 <= opcode <= 0x26:
        return (U,)
    if 0x28 <= opcode <= 0x3E:
        return (MEMORY,)
    if opcode in (0x41, 0x42, 0xD0):
        return (S,)
    if opcode in (0x43, 0x44):
        return (FOUR if opcode == 0x43 else EIGHT,)
    if opcode in (0x00, 0x01, 0x05, 0x0A, 0x0B, 0x0F, 0x19, 0x1A, 0x1B, 0xD1, 0xD3, 0xD4) or 0x45 <= opcode <= 0xC4:
        return ()
    raise ValueError(f"opcode {opcode:#x} isn't read here")


def after_fc(opcode):
    """The immediates of an operator after 0xfc: conversions, and those of memories and tables."""
    if opcode > 17:
        raise ValueError(f"opcode 0xfc {opcode:#x} isn't read here")
    return (U,) * (0 if opcode < 8 else 2 if opcode in (8, 10, 12, 14) else 1)


def after_fd(opcode):
    """The immediates of an operator after 0xfd: vectors."""
    if opcode in (12, 13):
        return (SIXTEEN,)
    if opcode < 12 or opcode in (92, 93):
        return (MEMORY,)
    if 21 <= opcode <= 34:
        return (BYTE,)
    return (MEMORY, BYTE) if 84 <= opcode <= 91 else ()


def bodies(module):
    """The bytes of each body of a module, in order."""
    whole = Body(module)
    whole.at = 8
    while whole.at < len(module):
        kind = whole.byte()
        size = whole.unsigned()
        if kind == 10:
            for _ in range(whole.unsigned()):
                length = whole.unsigned()
                whole.at += length
                yield module[whole.at - length : whole.at]
            return
        whole.at += size


def shortest(contents):
    """The length of a body with each of its numbers in the shortest spelling, all else as it is."""
    body = Body(contents)
    for _ in range(body.unsigned()):
        body.unsigned()
        body.value_type()
    while body.at < len(contents):
        body.operator()
    return body.length
