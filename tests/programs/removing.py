"""What wgc and `wsnip --gc` leave out: items that nothing reaches go from each section, and every index follows; node runs the modules before
and after. What follows the code: location maps, source maps and debug information."""
import glob
import os

from linear_time import is_nearly_linear
from modules import PREAMBLE, custom, number, read_number, section, signed, sized, vector
from runs import DATA, TOP, case, holds, node, same
from source_map_texts import mappings, source_map

# What node logs and returns for `run` of a module, which imports `m.log`; and whether it is valid.
RUN = """
const bytes = require("fs").readFileSync(process.argv[1]);
const logged = [];
const imports = { m: new Proxy({}, { get: (_, name) => (value) => { logged.push([name, value]); } }) };
const exported = new WebAssembly.Instance(new WebAssembly.Module(bytes), imports).exports;
const results = [1, 10, 255].map((value) => { try { return exported.run(value); } catch (error) { return String(error); } });
const taken = Object.entries(exported).map(([name, it]) => [name, it instanceof WebAssembly.Table ? it.length : typeof it]);
console.log(JSON.stringify({ logged, results, taken }));
"""

LOG, V, II = 0, 1, 2
# (func (param i32)), (func), (func (param i32) (result i32)), and one that no function has
SIGNATURES = [b"\x60\1\x7f\0", b"\x60\0\0", b"\x60\1\x7f\1\x7f", b"\x60\1\x7e\0"]


def constant(value):
    return b"\x41" + signed(value)


def call(index):
    return b"\x10" + number(index)


def import_of(name, what):
    return sized(b"m") + sized(name) + what


def export(name, kind, index):
    return sized(name) + bytes([kind]) + number(index)


def made(sections):
    """A module with these sections, each a kind and its items; those without items are left out."""
    order = [1, 2, 3, 4, 5, 13, 6, 7, 8, 9, 12, 10, 11]
    whole = PREAMBLE
    for kind in order:
        if sections.get(kind):
            contents = sections[kind]
            whole += section(kind, contents if isinstance(contents, bytes) else vector(contents))
    return whole


def counts(module):
    """The number of items of each section, by its kind; of a start section the function."""
    at, found = len(PREAMBLE), {}
    while at < len(module):
        size, begin = read_number(module, at + 1)
        if module[at]:
            found[module[at]] = read_number(module, begin)[0]
        at = begin + size
    return found


def collected(room, module, *words):
    room.put("in", module)
    room.works("wgc", *words, "in", "out")
    return room.get("out")


def runs_alike(room, module, *words):
    """What wgc makes of a module, which node runs as before."""
    written = collected(room, module, *words)
    before, after = (node(room, RUN, name) for name in ("in", "out"))
    same(before, after)
    assert before["logged"] or before["results"], "nothing was run"
    return written


def body(operators, locals_=b"\0"):
    return sized(locals_ + operators + b"\x0b")


@case("wgc: unreached imports and functions go, and calls follow")
def _(room):
    imports = [import_of(b"unused", b"\0\3"), import_of(b"log", b"\0\0"), import_of(b"other", b"\0\0")]
    # 3: unused; 4: run; 5: called by run; 6: unused, calls 3
    bodies = [body(b""), body(b"\x20\0" + call(5) + b"\x20\0" + constant(2) + b"\x6c"), body(b"\x20\0" + call(1)), body(call(3))]
    types = [b"\1", b"\2", b"\0", b"\1"]
    written = runs_alike(room, made({1: SIGNATURES, 2: imports, 3: types, 7: [export(b"run", 0, 4)], 10: bodies}))
    same({1: 2, 2: 1, 3: 2, 7: 1, 10: 2}, counts(written))
    # nothing more goes the second time
    same(written, collected(room, written))


@case("wgc: a table's active segments stay with the table, and passive ones with what names them")
def _(room):
    # table 0 is named by nothing, and table 1 by call_indirect; segment 0 is of table 0, 1 of table 1, 2 passive, 3 unused
    tables = [b"\x70\0\2", b"\x70\0\4"]
    segments = [
        b"\0" + constant(0) + b"\x0b" + vector([b"\5"]),
        b"\2\1" + constant(0) + b"\x0b\0" + vector([b"\2", b"\3"]),
        b"\1\0" + vector([b"\4"]),
        b"\1\0" + vector([b"\5"]),
    ]
    indirect = lambda at: b"\x20\0" + constant(at) + b"\x11\2\1" + call(0)
    run = constant(2) + constant(0) + constant(1) + b"\xfc\x0c\2\1" + b"\xfc\x0d\2" + indirect(0) + indirect(1) + indirect(2) + constant(7)
    # 1: run, which drops its segment, so that the second call of it fails; 2, 3, 4: in segments; 5: unused
    adds = [body(b"\x20\0" + constant(it) + b"\x6a") for it in (1, 2, 3, 4)]
    sections = {1: SIGNATURES, 2: [import_of(b"log", b"\0\0")], 3: [b"\2"] * 5, 4: tables, 7: [export(b"run", 0, 1)], 9: segments, 10: [body(run), *adds]}
    written = runs_alike(room, made(sections))
    same({1: 2, 2: 1, 3: 4, 4: 1, 7: 1, 9: 2, 10: 4}, counts(written))


@case("wgc: data segments that nothing names go, and the data count follows")
def _(room):
    # 0: active in the memory; 1: unused; 2: passive, named by memory.init
    segments = [b"\0" + constant(16) + b"\x0b" + sized(b"hello"), b"\1" + sized(b"unused"), b"\1" + sized(b"passive")]
    run = constant(100) + constant(0) + constant(7) + b"\xfc\x08\2\0" + constant(101) + b"\x2d\0\0" + constant(16) + b"\x2d\0\0\x6a"
    written = runs_alike(room, made({1: SIGNATURES, 3: [b"\2"], 5: [b"\0\1"], 7: [export(b"run", 0, 0)], 12: number(3), 10: [body(run)], 11: segments}))
    same({1: 1, 3: 1, 5: 1, 7: 1, 12: 2, 10: 1, 11: 2}, counts(written))


@case("wgc: globals follow, and functions that a global names stay")
def _(room):
    # 0: unused, names function 2; 1: exported, names function 1; 2: changed by run
    globals_ = [b"\x70\0\xd2\2\x0b", b"\x70\0\xd2\1\x0b", b"\x7f\1" + constant(5) + b"\x0b"]
    run = b"\x23\2" + b"\x20\0\x6a\x24\2\x23\2"
    sections = {1: SIGNATURES, 3: [b"\2", b"\1", b"\1"], 6: globals_, 7: [export(b"run", 0, 0), export(b"f", 3, 1)], 10: [body(run), body(b"\1"), body(b"")]}
    written = runs_alike(room, made(sections))
    same({1: 2, 3: 2, 6: 2, 7: 2, 10: 2}, counts(written))


@case("wgc: a tag that a handler names stays, and its type; another one goes")
def _(room):
    # tag 0 is unused, tag 1 is thrown by function 0 and caught by run
    tags = [b"\0\3", b"\0\0"]
    # try (result i32): call 0, i32.const 1; catch 1; end
    run = b"\x06\x7f\x20\0" + call(0) + constant(1) + b"\x07\1\x0b"
    written = runs_alike(room, made({1: SIGNATURES, 3: [b"\0", b"\2"], 13: tags, 7: [export(b"run", 0, 1)], 10: [body(b"\x20\0\x08\1"), body(run)]}))
    same({1: 2, 3: 2, 13: 1, 7: 1, 10: 2}, counts(written))


@case("wgc: the start function stays with what it calls")
def _(room):
    imports = [import_of(b"log", b"\0\0")]
    bodies = [body(b""), body(constant(42) + call(0)), body(b"\x20\0")]
    written = runs_alike(room, made({1: SIGNATURES, 2: imports, 3: [b"\1", b"\1", b"\2"], 7: [export(b"run", 0, 3)], 8: number(2), 10: bodies}))
    same({1: 3, 2: 1, 3: 2, 7: 1, 8: 1, 10: 2}, counts(written))


@case("wgc: a function of which a reference is taken is declared where its segment goes")
def _(room):
    # run puts a reference to function 1 into its table, which only segment 0 of an unused table names
    tables = [b"\x70\0\2", b"\x70\0\1"]
    run = constant(0) + b"\xd2\1\x26\1" + b"\x20\0" + constant(0) + b"\x11\2\1"
    segments = [b"\0" + constant(0) + b"\x0b" + vector([b"\1", b"\2"])]
    bodies = [body(run), body(b"\x20\0" + constant(3) + b"\x6c"), body(b"\x20\0")]
    written = runs_alike(room, made({1: SIGNATURES, 3: [b"\2"] * 3, 4: tables, 7: [export(b"run", 0, 0)], 9: segments, 10: bodies}))
    same({1: 1, 3: 2, 4: 1, 7: 1, 9: 1, 10: 2}, counts(written))


@case("wgc: a segment that may be out of bounds stays, and so does one in an imported memory")
def _(room):
    # the table has one element, and the segment needs two: the module can't be instantiated, before and after
    sections = {1: SIGNATURES, 3: [b"\2"], 4: [b"\x70\0\1"], 7: [export(b"run", 0, 0)], 9: [b"\0" + constant(1) + b"\x0b" + vector([b"\0"])], 10: [body(b"\x20\0")]}
    same({1: 1, 3: 1, 4: 1, 7: 1, 9: 1, 10: 1}, counts(collected(room, made(sections))))
    sections = {1: SIGNATURES, 2: [import_of(b"memory", b"\2\0\1")], 3: [b"\2"], 7: [export(b"run", 0, 0)], 10: [body(b"\x20\0")], 11: [b"\0" + constant(0) + b"\x0b" + sized(b"x")]}
    same({1: 1, 2: 1, 3: 1, 7: 1, 10: 1, 11: 1}, counts(collected(room, made(sections))))


@case("wgc: a recursive group goes or stays whole, and later types follow")
def _(room):
    # a group of two structs that nothing names; a group of two, of which one is named; two function types
    field = lambda index: b"\x5f\1\x63" + signed(index) + b"\0"
    types = [b"\x4e" + vector([field(0), field(1)]), b"\x4e" + vector([field(3), field(2)]), SIGNATURES[V], SIGNATURES[II]]
    # run has a local of type (ref null 3), and drops it
    run = body(b"\x20\1\x1a\x20\0", b"\1\1\x63" + signed(3))
    written = collected(room, made({1: types, 3: [b"\5"], 7: [export(b"run", 0, 0)], 10: [run]}))
    # the local that is read is left: a group and a function type
    same({1: 2, 3: 1, 7: 1, 10: 1}, counts(written))
    same(section(1, vector([b"\x4e" + vector([field(1), field(0)]), SIGNATURES[II]])), written[8 : 8 + 2 + written[9]])


@case("wgc: a recursive group without types is left out")
def _(room):
    written = collected(room, made({1: [b"\x4e\0", SIGNATURES[II]], 3: [b"\0"], 7: [export(b"run", 0, 0)], 10: [body(b"\x20\0")]}))
    same(section(1, vector([SIGNATURES[II]])), written[8 : 8 + 2 + written[9]])


@case("wgc: a block of a type is written with the first type alike, which stays")
def _(room):
    pair = b"\x60\0\2\x7f\x7f"
    # types 1 and 2 are alike, and only 2 is named, by a block
    run = b"\x02\2" + constant(3) + constant(4) + b"\x0b\x6a"
    written = runs_alike(room, made({1: [SIGNATURES[II], pair, pair], 3: [b"\0"], 7: [export(b"run", 0, 0)], 10: [body(run)]}))
    same({1: 3, 3: 1, 7: 1, 10: 1}, counts(written))


@case("wgc: names follow, --keep keeps a function, and --list says which go")
def _(room):
    map_of = lambda pairs: vector([number(index) + sized(name) for index, name in pairs])
    names = custom(b"name", b"\0" + sized(sized(b"mod")) + b"\1" + sized(map_of([(0, b"dead"), (1, b"run"), (2, b"spare")])) + b"\7" + sized(map_of([(0, b"g")])))
    module = made({1: SIGNATURES, 3: [b"\1", b"\2", b"\1"], 6: [b"\x7f\0" + constant(1) + b"\x0b"], 7: [export(b"run", 0, 1)], 10: [body(b""), body(b"\x20\0"), body(b"")]}) + names
    left = custom(b"name", b"\0" + sized(sized(b"mod")) + b"\1" + sized(map_of([(0, b"run")])) + b"\7" + sized(map_of([])))
    written = collected(room, module)
    same(left, written[-len(left) :])
    same({1: 1, 3: 1, 7: 1, 10: 1}, counts(written))
    same(b"0 2 dead\n2 2 spare\n", room.works("wgc", "--list", "in"))
    same({1: 2, 3: 2, 7: 1, 10: 2}, counts(collected(room, module, "--keep", "spare")))
    same({1: 2, 3: 3, 7: 1, 10: 3}, counts(collected(room, module, "--pattern", "^(dead|spare)$")))


@case("wgc: branch hints and names of locals follow")
def _(room):
    # The body declares an i64 that isn't used and an i32, and begins with a nop. Its `if` is at 5 + 1 + 6, and is written at 3 + 6.
    operators = lambda local: b"\x20\0\x21" + local + b"\x20" + local + b"\x04\x40\x0b\x20" + local
    hints = lambda func, at: custom(b"metadata.code.branch_hint", vector([number(func) + vector([number(at) + sized(b"\1")])]))
    locals_ = lambda func, pairs: custom(b"name", b"\2" + sized(vector([number(func) + vector([number(at) + sized(name) for at, name in pairs])])))
    sections = {1: SIGNATURES, 3: [b"\1", b"\2"], 7: [export(b"run", 0, 1)]}
    before = made(sections) + hints(1, 12) + section(10, vector([body(b""), body(b"\1" + operators(b"\2"), b"\2\1\x7e\1\x7f")]))
    after = made({1: [SIGNATURES[II]], 3: [b"\0"], 7: [export(b"run", 0, 0)]}) + hints(0, 9) + section(10, vector([body(operators(b"\1"), b"\1\1\x7f")]))
    same(after + locals_(0, [(0, b"x"), (1, b"kept")]), collected(room, before + locals_(1, [(0, b"x"), (1, b"gone"), (2, b"kept")])))


@case("wgc: words that are wrong, and a module that is refused")
def _(room):
    room.wrong_use("wgc", says="no file to read is given")
    room.wrong_use("wgc", "in", "--keep", says="option '--keep' requires a value")
    room.wrong_use("wgc", "in", "out", "more", says="unexpected word 'more'")
    room.wrong_use("wgc", "--other", "in", says="unknown option '--other'")
    room.put("in", PREAMBLE + b"\x63\0")
    status, out, err = room.run("wgc", "in", "out")
    same((1, b""), (status, out))
    holds("UnknownSection", err)
    same(["in"], room.files())


# What is called `run` is function 1 of two, and is written as function 0: its operators before and after.
RUN_BEFORE = b"\1\x20\0\1\1\x41\7\x6a\x0b"
RUN_AFTER = b"\x20\0\x41\7\x6a\x0b"
ONE_DEAD = made({1: [SIGNATURES[V], SIGNATURES[II]], 3: [b"\0", b"\1"], 7: [export(b"run", 0, 1)], 10: [body(b"\x41\5\x1a"), sized(b"\0" + RUN_BEFORE)]})
ONE_LEFT = made({1: [SIGNATURES[II]], 3: [b"\0"], 7: [export(b"run", 0, 0)], 10: [sized(b"\0" + RUN_AFTER)]})
# The places of local.get, i32.const, i32.add and end, before and after, and of the operators of the function that goes.
OLD = [ONE_DEAD.index(RUN_BEFORE) + at for at in (1, 5, 7, 8)]
NEW = [ONE_LEFT.index(RUN_AFTER) + at for at in (0, 2, 4, 5)]
DEAD = [ONE_DEAD.index(b"\x41\5\x1a\x0b") + at for at in (0, 2, 3)]


@case("wgc: --map has a line for each operator that is left, and none of a function that goes")
def _(room):
    same(ONE_LEFT, collected(room, ONE_DEAD, "--map", "map"))
    same("".join(f"{old:x} {new:x}\n" for old, new in zip(OLD, NEW)).encode(), room.get("map"))
    room.works("wgc", "-o", "other", "in")
    same(ONE_LEFT, room.get("other"))


@case("wgc: mappings of a source map follow, but for those of a function that goes")
def _(room):
    room.put("in.map", source_map(mappings([[place, 0, line, 0] for line, place in enumerate([*DEAD, *OLD])])))
    words = ("--source-map", "in.map", "--output-source-map", "out.map", "--source-map-url", "there")
    written = collected(room, ONE_DEAD, *words)
    same(ONE_LEFT + custom(b"sourceMappingURL", sized(b"there")), written)
    same(source_map(mappings([[place, 0, line, 0] for line, place in enumerate(NEW, len(DEAD))])), room.get("out.map"))


def four(value):
    return value.to_bytes(4, "little")


def debug_of(functions):
    """`.debug_abbrev` and `.debug_info` of DWARF 4 that say the first address and the length of each function."""
    # a unit with entries in it and without attributes; a function with DW_AT_low_pc (addr) and DW_AT_high_pc (data4)
    abbreviations = b"\1\x11\1\0\0" + b"\2\x2e\0\x11\1\x12\6\0\0" + b"\0"
    entries = b"\1" + b"".join(b"\2" + four(low) + four(length) for low, length in functions) + b"\0"
    unit = b"\4\0" + four(0) + b"\4" + entries
    return custom(b".debug_abbrev", abbreviations) + custom(b".debug_info", four(len(unit)) + unit)


def address(module, operators):
    """The address of a body with these operators and no locals, from the contents of the code section on."""
    at = module.index(section(10, b"")[:1], module.index(b"run"))
    return module.index(b"\0" + operators) - read_number(module, at + 1)[1]


@case("wgc: debug information follows, and a function that goes has addresses of no code")
def _(room):
    dead, run = b"\x41\5\x1a\x0b", address(ONE_DEAD, RUN_BEFORE)
    before = debug_of([(address(ONE_DEAD, dead), 5), (run, 1 + len(RUN_BEFORE))])
    after = debug_of([(0xF0000000, 1), (address(ONE_LEFT, RUN_AFTER), 1 + len(RUN_AFTER))])
    same(ONE_LEFT + after, collected(room, ONE_DEAD + before))
    # where no function goes, no address is one of no code
    one = made({1: [SIGNATURES[II]], 3: [b"\0"], 7: [export(b"run", 0, 0)], 10: [sized(b"\0" + RUN_BEFORE)]})
    same(ONE_LEFT + debug_of([(address(ONE_LEFT, RUN_AFTER), 1 + len(RUN_AFTER))]), collected(room, one + debug_of([(address(one, RUN_BEFORE), 1 + len(RUN_BEFORE))])))
    # what is left out, and what stays as it is
    same(ONE_LEFT, collected(room, ONE_DEAD + before, "--strip-debug"))
    status, _, err = room.run("wgc", "--keep-debug", "in", "out")
    same((0, "wgc: warning: debug information is out of date (.debug_info): use --strip-debug\n"), (status, err))
    same(ONE_LEFT + before, room.get("out"))
    same("", room.run("wgc", "-q", "--keep-debug", "in", "out")[2])


@case("wgc: debug information that can't follow, and a source map that isn't given, are carried over with a warning")
def _(room):
    after = custom(b".debug_line", b"\1") + custom(b"sourceMappingURL", sized(b"old"))
    room.put("in", ONE_DEAD + after)
    status, _, err = room.run("wgc", "in", "out")
    want = (
        "wgc: warning: debug information is out of date (.debug_line), since it can't follow the code (.debug_line: the section ends inside a value): use --strip-debug\n"
        "wgc: warning: source map is out of date: use --source-map or --strip-debug\n"
    )
    same((0, want), (status, err))
    same(ONE_LEFT + custom(b"sourceMappingURL", sized(b"old")) + custom(b".debug_line", b"\1"), room.get("out"))
    # code that doesn't change is where it was
    room.put("in", ONE_LEFT + after)
    room.works("wgc", "in", "out")


@case("wgc: custom sections that are left out, and those that are kept all the same")
def _(room):
    names = custom(b"name", b"\0" + sized(sized(b"mod")))
    more = custom(b"producers", b"\0") + custom(b"other", b"x")
    same(ONE_LEFT, collected(room, ONE_DEAD + names + more, "--strip"))
    same(ONE_LEFT + more, collected(room, ONE_DEAD + names + more, "--strip-names"))
    same(ONE_LEFT + names, collected(room, ONE_DEAD + names + more, "--strip", "--keep-section", "name"))
    same(ONE_LEFT + names + custom(b"producers", b"\0"), collected(room, ONE_DEAD + names + more, "--remove-section", "other"))


# `run` calls function 2, which calls function 1 and is taken away; function 0 is called by none.
CHAIN = made(
    {
        1: [SIGNATURES[II], SIGNATURES[V]],
        3: [b"\1", b"\0", b"\0", b"\0"],
        7: [export(b"run", 0, 3)],
        10: [body(b""), body(b"\x20\0"), body(b"\x20\0" + call(1)), body(b"\x20\0" + call(2))],
    }
)
TRAPS = made({1: [SIGNATURES[II]], 3: [b"\0", b"\0"], 7: [export(b"run", 0, 1)], 10: [body(b"\0"), body(b"\x20\0" + call(0))]})


@case("wsnip --gc takes a body away, and leaves out what only it reached")
def _(room):
    room.put("in", CHAIN)
    room.works("wsnip", "--gc", "--map", "map", "in", "out", "2")
    same(TRAPS, room.get("out"))
    old, new = CHAIN.index(b"\x20\0" + call(2)), TRAPS.index(b"\x20\0" + call(0))
    same("".join(f"{old + at:x} {new + at:x}\n" for at in (0, 2, 4)).encode(), room.get("map"))
    room.works("wsnip", "--gc", "--keep", "1", "in", "out", "2")
    same({1: 1, 3: 3, 7: 1, 10: 3}, counts(room.get("out")))


@case("wsnip --gc warns of what doesn't follow the code, also where nothing is left out after all")
def _(room):
    both = lambda operators, more: made({1: [SIGNATURES[II]], 3: [b"\0", b"\0"], 7: [export(b"run", 0, 0), export(b"f", 0, 1)], 10: [body(b"\x20\0"), body(operators)]}) + more
    url, lines = custom(b"sourceMappingURL", sized(b"old")), custom(b".debug_line", b"\1")
    room.put("in", both(b"\x20\0", lines + url))
    status, _, err = room.run("wsnip", "--gc", "in", "out", "f")
    want = (
        "wsnip: warning: debug information is out of date (.debug_line), since it can't follow the code (.debug_line: the section ends inside a value): use --strip-debug\n"
        "wsnip: warning: source map is out of date: use --source-map or --strip-debug\n"
    )
    same((0, want), (status, err))
    same(both(b"\0", url + lines), room.get("out"))
    # what follows the code is no reason to warn
    whole = made({1: [SIGNATURES[II]], 3: [b"\0", b"\0"], 7: [export(b"run", 0, 0), export(b"f", 0, 1)], 10: [body(b"\x20\0"), body(b"\x20\0")]})
    room.put("in", whole + debug_of([(address(whole, b"\x20\0\x0b"), 4)]))
    room.works("wsnip", "--gc", "in", "out", "f")


def composed(first, second):
    """The location map of two runs, one after the other."""
    read = lambda text: [tuple(int(it, 16) for it in line.split()) for line in text.decode().splitlines()]
    sources = {new: old for old, new in read(first)}
    return "".join(f"{sources[old]:x} {new:x}\n" for old, new in read(second) if old in sources).encode()


@case("wsnip --gc does what wsnip and wgc do, one after the other, byte for byte")
def _(room):
    paths = [*(f"{DATA}/{it}.wasm" for it in ("mapped", "sample", "fib")), *sorted(glob.glob(f"{TOP}/tests/debug/modules/*.wasm"))]
    for path in paths:
        listed = [it.split() for it in room.works("wsnip", "--list", path).decode().splitlines()]
        largest = max(listed, key=lambda it: int(it[1]))[0]
        for options in ([], ["--strip-debug"], ["--keep", "0"] if listed[0][0] == "0" else []):
            room.run("wsnip", "--map", "first", path, "between", largest)
            room.run("wgc", *options, "--map", "second", "between", "two")
            status, _, err = room.run("wsnip", "--gc", *options, "--map", "map", path, "one", largest)
            same(0, status, err)
            of = f"{os.path.basename(path)} {options}"
            assert room.get("one") == room.get("two"), f"another module is written of {of}"
            assert composed(room.get("first"), room.get("second")) == room.get("map"), f"another map is written of {of}"


@case("wsnip --gc: words that are wrong")
def _(room):
    room.put("in", CHAIN)
    room.wrong_use("wsnip", "--keep", "1", "in", "out", "2", says="option '--keep' requires '--gc'")
    room.wrong_use("wsnip", "--gc", "in", "out", says="no function is given")
    room.wrong_use("wsnip", "--gc", "--list", "in", says="option '--gc' can't be used with '--list', which writes no module")
    room.wrong_use("wrewrite", "--gc", "in", "out", says="unknown option '--gc'")
    room.wrong_use("wgc", "--map", "map", "--list", "in", says="option '--map' can't be used with '--list', which writes no module")
    same(["in"], room.files())


def half_unused(count):
    """So many functions, of which each second one is called by the next second one, and the others by none."""
    bodies = [body(call(index + 2) if index % 2 == 0 and index + 2 < count else b"") for index in range(count)]
    return made({1: [SIGNATURES[V]], 3: [b"\0"] * count, 7: [export(b"run", 0, 0)], 10: bodies})


@case("wgc: 10,000 to 100,000 functions, of which half go, take time nearly in proportion")
def _(room):
    same({1: 1, 3: 5_000, 7: 1, 10: 5_000}, counts(collected(room, half_unused(10_000))))
    is_nearly_linear(room, half_unused, 10_000, 100_000, program="wgc")
