"""No body that is written is longer than its source in the shortest spelling, which spelling.py reads, and a body is rewritten
alike by its tree and without it: in the modules of programs, and in valid bodies at random. What is changed in these at random is
refused alike, and by a check, too."""
import random
import re

import spelling
from modules import PREAMBLE, number, section, signed, sized, vector
from runs import DATA, TOGETHER, case, same


class Bodies:
    """Valid bodies at random: what is in them is chosen, and how many bytes each number has more than it needs."""

    def __init__(self, seed):
        self.random = random.Random(seed)

    def padded(self, shortest, value):
        """A number in up to five bytes."""
        spelled = shortest(value)
        more = self.random.randrange(6 - len(spelled)) if self.random.randrange(2) else 0
        return spelled if not more else spelled[:-1] + bytes([spelled[-1] | 0x80]) + b"\x80" * (more - 1) + b"\0"

    def constant(self):
        return b"\x41" + self.padded(signed, self.random.choice((0, 1, 63, 64, 8191, 8192, 1 << 20, 0x7FFFFFFF)))

    def plain(self):
        local = self.padded(number, self.random.randrange(12))
        return self.random.choice((b"\1", self.constant() + b"\x1a", self.constant() + b"\x21" + local, b"\x20" + local + b"\x1a"))

    def leaving(self, labels):
        """An operator after which nothing is reached, or which may go on: there are so many labels that take nothing, the outermost
        of them the body's."""
        label = lambda: self.padded(number, self.random.randrange(labels))
        table = self.constant() + b"\x0e" + self.padded(number, 2) + label() + label() + label()
        return self.random.choice((b"\0", b"\x0f", b"\x0c" + label(), self.constant() + b"\x0d" + label(), table))

    def block(self, labels, depth):
        inner = lambda: self.statements(labels + 1, depth - 1)
        kind = self.random.randrange(6)
        if kind < 2:
            return (b"\2\x40", b"\3\x40")[kind] + inner() + b"\x0b"
        if kind == 2:
            return self.constant() + b"\4\x40" + inner() + b"\x0b"
        if kind == 3:
            # often with an alternative that says nothing
            return self.constant() + b"\4\x40" + inner() + b"\5" + self.random.choice((b"", b"\1", inner())) + b"\x0b"
        if kind == 4:
            return self.constant() + b"\4\x7f" + self.constant() + b"\5" + self.constant() + b"\x0b\x1a"
        # of type 1, which takes what it gives: it needs no alternative
        other = self.random.choice((b"", b"\5", b"\5\1"))
        return self.constant() * 2 + b"\4" + self.padded(signed, 1) + b"\x45" + other + b"\x0b\x1a"

    def statements(self, labels, depth):
        made = b""
        for _ in range(self.random.randrange(5)):
            kind = self.random.randrange(8)
            made += self.block(labels, depth) if kind < 3 and depth else self.leaving(labels) if kind == 3 else self.plain()
        return made

    def body(self):
        # twelve locals of one type, in three runs
        declared = vector([self.padded(number, 4) + b"\x7f"] * 3)
        return sized(declared + self.statements(1, 5) + b"\x0b")


def random_module(seed, count):
    made = Bodies(seed)
    types = section(1, vector([b"\x60\0\0", b"\x60\1\x7f\1\x7f"]))
    return PREAMBLE + types + section(3, vector([b"\0"] * count)) + section(10, vector([made.body() for _ in range(count)]))


def no_body_grows(room, source):
    """What wrewrite writes of each body is in the shortest spelling, and not longer than the source's body in it."""
    with open(room.path(source), "rb") as file:
        before = list(spelling.bodies(file.read()))
    room.works("wrewrite", source, "out")
    after = list(spelling.bodies(room.get("out")))
    same(len(before), len(after))
    for index, (old, new) in enumerate(zip(before, after)):
        same(spelling.shortest(new), len(new), f"function {index}")
        assert len(new) <= spelling.shortest(old), f"function {index}: {len(new)} bytes, and {spelling.shortest(old)} of the source"
    return sum(map(spelling.shortest, before)) - sum(map(len, after))


@case("the reading of shortest spellings that the next cases use")
def _(room):
    for body, length in (
        (b"\0\x0b", 2),
        (b"\x80\0\x0b", 2),
        (b"\1\x85\0\x7f\x0b", 4),
        (b"\0\x41\x87\x80\0\x1a\x0b", 5),
        (b"\0\x41\xff\xff\x7f\x1a\x0b", 5),
        (b"\0\x41\xc0\0\x1a\x0b", 6),
        (b"\0\x0c\x80\0\x0b", 4),
        (b"\0\xfc\x80\0\x0b", 4),
        (b"\0\2\xc0\x7f\x0b\x0b", 5),
        (b"\0\x28\x82\0\x80\1\x0b", 6),
        (b"\0\x0e\x82\0\0\x80\0\0\x0b", 7),
    ):
        same(length, spelling.shortest(body), body)


@case("no body is longer than its source in shortest spelling: the modules of programs")
def _(room):
    for name in ("sample.wasm", "fib.wasm"):
        assert no_body_grows(room, f"{DATA}/{name}") >= 0


@case("no body is longer than its source in shortest spelling: 4,000 valid bodies at random")
def _(room):
    for seed in range(20):
        assert no_body_grows(room, room.put("in", random_module(seed, 200))) > 0


@case("bodies are rewritten alike by their tree and without it: the modules of programs, and 4,000 valid bodies at random")
def _(room):
    for name in [f"{DATA}/sample.wasm", f"{DATA}/fib.wasm", *range(100, 120)]:
        source = name if isinstance(name, str) else room.put("in", random_module(name, 200))
        said = room.works(TOGETHER, "wbench", "compare", "1", source).decode()
        # the sum counts the bodies of which bytes or location pairs differ
        assert re.fullmatch(r"[1-9]\d* bodies, [1-9]\d* bytes, sum 0\n", said), said


def refused_alike(room, module):
    """Whether a module is refused; if it is, then by the check, by the rewriting without a tree and by the parse for the same fault: that
    of the first function that a check names, or one of reading the module."""
    room.put("in", module)
    status, checked, err = room.run("wrewrite", "--check", "in")
    first = (checked.decode() + err).splitlines()[:1]
    for program in ("wrewrite", "wcount"):
        found, _out, err = room.run(program, "in", "out")
        same((status, first), (found, [line.replace(program, "wrewrite", 1) for line in err.splitlines()]), module)
    return status != 0


@case("bodies are refused alike by the check, by the rewriting without a tree and by the parse: 300 modules with changed bytes")
def _(room):
    choice = random.Random(7)
    refused = 0
    for seed in range(300):
        module = bytearray(random_module(seed, 3))
        # in the last two thirds, of which nearly all is bodies
        for _ in range(choice.randrange(1, 4)):
            module[choice.randrange(len(module) // 3, len(module))] = choice.randrange(256)
        refused += refused_alike(room, bytes(module))
    assert 150 < refused < 300, refused
