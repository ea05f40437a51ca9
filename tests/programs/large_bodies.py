"""Bodies of more than 64 KB, which are written in pieces: the bytes are the same, and a file stays as it was if a write fails."""
from modules import BAD_LABEL, NOP, TRAP, module, number
from runs import case, few_bytes, holds, same

# i32.const 1 in one byte more than it needs, and drop; and as they are written
LONG, SHORT = b"\x41\x81\0\x1a", b"\x41\1\x1a"


def large_body(size):
    """The operators of a body of so many bytes with its declarations, and what is written of them."""
    count, rest = divmod(size - 2, len(LONG))
    return LONG * count + NOP * rest, SHORT * count


def map_lines(given, expected, body, written):
    """The lines of the location map: each constant and each `drop` of both large bodies, and the `end` of each function."""
    for old, new in ((given.index(body), expected.index(written)), (given.rindex(body), expected.rindex(written))):
        # the end of the function before it comes before its size and its declarations
        yield "%x %x" % (old - 2 - len(number(len(body) + 2)), new - 2 - len(number(len(written) + 2)))
        for i in range(len(written) // len(SHORT)):
            yield "%x %x" % (old + i * len(LONG), new + i * len(SHORT))
            yield "%x %x" % (old + i * len(LONG) + 3, new + i * len(SHORT) + 2)
        yield "%x %x" % (old + len(body), new + len(written))


@case("bodies of 64 KB, a byte more, and a megabyte: the same bytes with a map and without, in a file and on standard output")
def _(room):
    for size in (0x10000, 0x10001, 1_000_000):
        body, written = large_body(size)
        room.put("in", module([NOP, body, NOP, body]))
        expected = module([b"", written, b"", written])
        room.works("wrewrite", "in", "out")
        same(True, expected == room.get("out"), size)
        room.works("wrewrite", "--map", "map", "in", "mapped")
        same(True, expected == room.get("mapped"), size)
        lines = room.get("map").decode().splitlines()
        same(True, list(map_lines(room.get("in"), expected, body, written)) == lines, size)
        same(True, expected == room.works("wrewrite", "in", "-"), size)
        room.works("wsnip", "in", "snipped", "0")
        same(True, module([TRAP, written, b"", written]) == room.get("snipped"), size)


@case("a write that fails within a large body, and a fault at its end, leave the file as it was")
def _(room):
    body, _ = large_body(1_000_000)
    room.put("out", b"old")
    room.put("in", module([body]))
    room.refuses("wrewrite", "in", "out", says="out: can't be written: File too large (os error 27)", preexec_fn=few_bytes)
    room.refuses("wrewrite", "in", "/dev/full", says="/dev/full: can't be written: No space left on device (os error 28)")
    room.put("in", module([body + BAD_LABEL]))
    status, out, err = room.run("wrewrite", "in", "out")
    same((1, b""), (status, out))
    # before the operator are the preamble, three sections' heads, and the body's size and declarations
    holds("in: 0x%x: function 0: " % room.get("in").rindex(BAD_LABEL), err)
    same(b"old", room.get("out"))
    same(["in", "out"], room.files())
