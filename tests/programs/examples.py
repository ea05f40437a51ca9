"""What the examples wone, wgrow, wloops, wtrace and wvalid print; and node runs the modules before and after."""
from modules import BAD_LABEL, BAD_LOCAL, GOOD, PREAMBLE, TYPES, exports, functions, module, section, vector
from runs import TOP, case, holds, node, same, stored


def example(name):
    """The bytes of a file of an example: `examples/stdout`."""
    with open(f"{TOP}/crates/{name}", "rb") as file:
        return file.read()


# `called` is what the script gives of the exports of an instance, `logged` what it logged, and `traced` the functions that it said
# it calls.
RUN_MODULE = """
const bytes = require("fs").readFileSync(process.argv[1]);
const logged = [];
const traced = [];
const imports = { m: { log: (number) => logged.push(number), tick: () => logged.push(0) }, host: { trace: (index) => traced.push(index), grow: () => logged.push("grow") } };
const exported = new WebAssembly.Instance(new WebAssembly.Module(bytes), imports).exports;
const called = (SCRIPT)(exported);
console.log(JSON.stringify({ called, logged, traced }));
"""


def engine(room, name, script):
    """What node gives for a module and a function of its exports."""
    return node(room, RUN_MODULE.replace("SCRIPT", script), name)


def runs_alike(room, before, after, script):
    want, found = (engine(room, name, script) for name in (before, after))
    same((want["called"], want["logged"]), (found["called"], found["logged"]), script)


# an i32 and 100 numbers for it
SEEDS = "(exports) => Array.from({ length: 100 }, (_, seed) => String(exports.run(seed)))"


@case("wone: the new body, and the old place of each operator")
def _(room):
    # local.get 0, i32.const 1 in three bytes, call 0, i32.add, end
    same(example("examples/data/body.wone.txt"), room.works("wone", "200041810010006a0b"))
    # nop, local.get 0, call 1, return, two nop that can't be reached, end
    same(b"0010002000" + b"10020f0b\n1 added\n3 from 1\n5 from 3\n7 from 5\n8 from 8\n", room.works("wone", "0120001001" + "0f01010b"))


@case("wone: a body that is refused, and words that are wrong")
def _(room):
    # a second local, a third function, a label that isn't open, no `end`; half a byte, and nothing
    for words in (["20010b"], ["10020b"], ["0c010b"], ["2000"], ["200"], []):
        status, out, err = room.run("wone", *words)
        same((1, b""), (status, out), words)
        holds("Error: ", err)


@case("wgrow, wloops, wtrace: a body that names what is added is refused as by wrewrite")
def _(room):
    # a global and a type that the module doesn't have, in a body with a loop; and a call through a type that it doesn't have
    table = section(4, vector([b"\x70\0\0"]))
    for body, place, says in (
        (b"\x03\x40\x0b\x23\0\x1a", 0x1A, "index `0` is out of bounds for globals (OutOfRange)"),
        (b"\x41\7\x41\7\x11\1\0", 0x21, "index `1` is out of bounds for types (OutOfRange)"),
    ):
        declared, code = functions([body])
        room.put("in", PREAMBLE + TYPES + declared + (table if body[0] == 0x41 else b"") + code)
        room.refuses("wrewrite", "in", "out", says=f"in: {place:#x}: function 0: {says}")
        for program in ("wgrow", "wloops", "wtrace"):
            same((1, b"", f"{program}: in: {place:#x}: {says}\n"), room.run(program, "in"))


@case("wgrow, wloops, wtrace: a body that is refused, and words that are wrong")
def _(room):
    # Both bodies are looked at, in order.
    room.put("in", module([BAD_LABEL, BAD_LOCAL], exported=exports([(b"out", 1)])))
    label = "in: 0x21: a label is not open (NoSuchLabel)\n"
    for program in ("wgrow", "wloops", "wtrace"):
        same((1, b"", f"{program}: {label}"), room.run(program, "in"))
        room.put("other", b"\0asm\2\0\0\0")
        status, out, err = room.run(program, "other")
        same((1, b""), (status, out), program)
        holds(f"{program}: other: 0x", err)
        for words in ([], ["in", "in"]):
            same((2, b"", f"usage: {program} IN.wasm >OUT.wasm\n"), room.run(program, *words))
        same((1, b""), room.run(program, "none")[:2])
    for words in ([], ["wnone", "in"]):
        usage = "usage: examples wgrow|wloops|wtrace IN.wasm >OUT.wasm, examples wone HEX, or examples wvalid IN.wasm\n"
        same((2, b"", usage), room.run("examples", *words))


@case("wvalid: a module that is valid, one that isn't, and what is no module")
def _(room):
    room.put("in", GOOD)
    same(b"", room.works("wvalid", "in"))
    # two functions: one of an i32, and one that adds an i64 to one
    room.put("in", module([b"\x41\1\x1a", b"\x41\1\x42\1\x6a\x1a"]))
    says = "the operator is not valid here: expected i32, found i64 (InvalidOperator)"
    same((1, b"", f"Error: 0x22: {says}\n"), room.run("wvalid", "in"))
    room.put("in", PREAMBLE + b"\x0e\0")
    status, out, err = room.run("wvalid", "in")
    same((1, b""), (status, out))
    holds("Error: 0x8: no section has this id (UnknownSection)", err)
    for words in ([], ["none"]):
        same((1, b""), room.run("wvalid", *words)[:2])


@case("wloops: each loop counts its turns")
def _(room):
    room.put("in", example("examples/data/loops.wasm"))
    room.put("out", room.works("wloops", "in"))
    same(example("examples/data/loops.wloops.wasm"), room.get("out"))
    # 1 + .. + 10 in 10 turns; then 4 * 5 in 4 turns of the outer loop and 20 of the inner one; then 3 and 1 * 1 more
    counters = "[0, 1, 2].map((it) => Number(exports[`loop_${it}`].value))"
    found = engine(room, "out", f"(exports) => [exports.triangle(10), exports.product(4, 5), {counters}, exports.triangle(3), exports.product(1, 1), {counters}]")
    same([55, 20, [10, 4, 20], 6, 1, [13, 5, 21]], found["called"])
    runs_alike(room, "in", "out", "(exports) => [1, 2, 3].map((it) => exports.triangle(it) + exports.product(it, 7))")


@case("wloops: a real program runs as before, and has a counter for each loop")
def _(room):
    room.put("in", stored("sample.wasm"))
    room.put("out", room.works("wloops", "in"))
    says = "wloops: out: 0x%x: an export has this name already (ExportTaken)\n" % (room.get("out").index(b"loop_0") - 1)
    same((1, b"", says), room.run("wloops", "out"))
    runs_alike(room, "in", "out", SEEDS)


@case("wtrace: each call is told to the host, with the index in the source")
def _(room):
    room.put("in", example("examples/data/calls.wasm"))
    room.put("out", room.works("wtrace", "in"))
    same(example("examples/stdout"), room.get("out"))
    # The start function 3; 5! in 6 calls of 1; and 2, which calls 1 by the table, and that itself three times.
    found = engine(room, "out", "(exports) => [exports.factorial(5), exports.doubled(3)]")
    same({"called": [120, 12], "logged": [0], "traced": [3] + [1] * 6 + [2] + [1] * 4}, found)
    runs_alike(room, "in", "out", "(exports) => [exports.tick(), exports.doubled(4), exports.factorial(6)]")
    # a second time the type is there; the first import is traced as every other function, by its new index, but has no body
    room.put("again", room.works("wtrace", "out"))
    found = engine(room, "again", "(exports) => [exports.doubled(1)]")
    same({"called": [2], "logged": [0], "traced": [4, 3, 3, 2, 2, 1, 2, 1]}, found)


@case("wgrow: each growth of a memory is told to the host before it")
def _(room):
    room.put("in", example("examples/data/grows.wasm"))
    room.put("out", room.works("wgrow", "in"))
    same(example("examples/data/grows.wgrow.wasm"), room.get("out"))
    # from 1 page by 2; by 1 and 1, from 3 and 4; and by 0 from 5
    script = "(exports) => [exports.grow(2), exports.twice(1), exports.twice(0), exports.memory.buffer.byteLength / 65536]"
    same([1, 3 + 4, 5 + 5, 5], engine(room, "in", script)["called"])
    found = engine(room, "out", script)
    same(([1, 3 + 4, 5 + 5, 5], ["grow"] * 4), (found["called"], found["logged"]))
