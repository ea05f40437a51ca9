"""Bodies that nest deeply or run long, with a stack of a megabyte. A word of a command line has 131,071 bytes at most, in which
some 20,000 constructs fit."""
import resource

from modules import module
from runs import BODIES, TOGETHER, case, same

DEEP, DEEP_WORD = 100_000, 20_000


def small_stack():
    """A stack of a megabyte: ten bytes for each of the constructs in a file, and 52 for each of those in a word."""
    resource.setrlimit(resource.RLIMIT_STACK, (1 << 20, 1 << 20))


def nested(opening, depth, inside=b""):
    """So many nested constructs that begin with these bytes, with these operators in the innermost."""
    return opening * depth + inside + b"\x0b" * depth


@case("100,000 nested blocks, and 100,000 nested `try`, are written unchanged, by their tree and without it")
def _(room):
    for opening in (b"\2\x40", b"\6\x40"):
        deep = module([nested(opening, DEEP)])
        room.put("in", deep)
        room.works("wrewrite", "in", "out", preexec_fn=small_stack)
        same(True, deep == room.get("out"), opening)
        # Without a tree, as above, or by it: nothing differs. The body has a byte for its locals, three for each construct, and the last `end`.
        said = room.works(TOGETHER, "wbench", "compare", "1", "in", preexec_fn=small_stack)
        same(b"1 bodies, %d bytes, sum 0\n" % (1 + 3 * DEEP + 1), said, opening)
        word = (nested(opening, DEEP_WORD) + b"\x0b").hex()
        same(True, f"{word}\n".encode() == room.works(BODIES, "rewrite", word, preexec_fn=small_stack), opening)


@case("a million turns of a loop that always branches back, inside 20,000 nested blocks: the run ends because no turns remain")
def _(room):
    turns = 1_000_000
    body = nested(b"\2\x40", DEEP_WORD, b"\3\x40\x0c\0\x0b") + b"\x0b"
    found = room.works(BODIES, "trace", str(turns), "-", body.hex(), preexec_fn=small_stack).decode()
    # An event for each block and for the loop, and one for each time that the branch is reached, of which the last finds no turn.
    entered = [f"{place} 0240" for place in range(0, 2 * DEEP_WORD, 2)] + [f"{2 * DEEP_WORD} 0340"]
    events = entered + [f"{2 * DEEP_WORD + 2} 0c00"] * (turns + 1)
    same(1_020_002, len(events))
    lines = found.splitlines()
    same((len(events) + 1, "turns-out"), (len(lines), lines[-1]))
    same(True, "".join(f"{line}\n" for line in [*events, "turns-out"]) == found)
