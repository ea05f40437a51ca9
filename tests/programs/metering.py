"""wmeter: what it writes, byte by byte; what it refuses; and node runs what it writes. What is charged there is compared with a module that is
made here, which adds up the cost of each operator by itself, just before it is executed."""
import json

from modules import PREAMBLE, exports, functions, module, number, read_number, section, signed, sized, vector
from real_modules import LEX, PARSE, appended, kinds_of_imports, of_node, sections_of
from runs import case, node, same, stored

# ---- bytes

CHARGED = section(1, vector([b"\x60\0\0", b"\x60\1\x7e\0"]))
IMPORTED = section(2, vector([sized(b"wmeter") + sized(b"charge") + b"\0\1"]))


def by_call(bodies, types=CHARGED, imported=IMPORTED):
    declared, code = functions(bodies)
    return PREAMBLE + types + imported + declared + code


def call(cost):
    """i64.const, call 0"""
    return b"\x42" + signed(cost) + b"\x10\0"


def add(cost):
    """global.get 0, i64.const, i64.add, global.set 0"""
    return b"\x23\0\x42" + signed(cost) + b"\x7c\x24\0"


DROP = b"\x41\0\x1a"  # i32.const 0, drop
# Bodies, and what is written of each, where `c` charges: each operator costs 1.
BODIES = [
    (b"", lambda c: b""),
    (b"\1", lambda c: b""),
    (DROP, lambda c: c(2) + DROP),
    (DROP + b"\1" + DROP, lambda c: c(4) + DROP + DROP),
    # a call is in the piece where it is; a block's operators are another, and what comes after it a third
    (b"\x10\0" + b"\x02\x40" + DROP + b"\x0b" + DROP, lambda c: c(2) + b"\x10\1" + b"\x02\x40" + c(2) + DROP + b"\x0b" + c(2) + DROP),
    # each turn of a loop, and what comes after the branch back
    (b"\x03\x40" + DROP + b"\x41\0\x0d\0" + DROP + b"\x0b", lambda c: c(1) + b"\x03\x40" + c(4) + DROP + b"\x41\0\x0d\0" + c(2) + DROP + b"\x0b"),
    # each arm by itself; what can't be reached is not there
    (
        b"\x41\1\x04\x40" + DROP + b"\x0c\1" + DROP + b"\x05\x0f\x0b\x00",
        lambda c: c(2) + b"\x41\1\x04\x40" + c(3) + DROP + b"\x0c\1" + b"\x05" + c(1) + b"\x0f\x0b" + c(1) + b"\x00",
    ),
    (b"\x02\x40\x41\0\x0e\1\0\1\x0b", lambda c: c(1) + b"\x02\x40" + c(2) + b"\x41\0\x0e\1\0\1\x0b"),
]


@case("wmeter: before each straight piece it charges what that costs, by a call or in a global")
def _(room):
    bodies = [body for body, _ in BODIES]
    room.put("in", module(bodies))
    calls = [wanted(call) for _, wanted in BODIES]
    same(by_call(calls), room.works("wmeter", "in"))
    same(by_call(calls), room.works("wmeter", "--import", "wmeter", "charge", "in"))
    other = section(2, vector([sized(b"m") + sized(b"") + b"\0\1"]))
    same(by_call(calls, imported=other), room.works("wmeter", "--import=m", "", "in"))
    # in a global no function has another index
    declared, code = functions([wanted(add).replace(b"\x10\1", b"\x10\0") for _, wanted in BODIES])
    counter, used = section(6, vector([b"\x7e\1\x42\0\x0b"])), section(7, vector([sized(b"used") + b"\3\0"]))
    types = section(1, vector([b"\x60\0\0"]))
    same(PREAMBLE + types + declared + counter + used + code, room.works("wmeter", "--global", "used", "in"))


@case("wmeter --costs: what operators cost; a piece that costs nothing has no charge")
def _(room):
    room.put("in", module([DROP, b"\x02\x40" + DROP + b"\x0b" + DROP]))
    for costs, first, block in (
        ({"drop": 0}, 1, 1), ({"i32.const": 7, "drop": 5}, 12, 1), ({"drop": 0, "i32.const": 0}, 0, 1), ({"block": 0}, 2, 0),
        ({"i32.const": 2147483647, "drop": 2147483647, "nop": 9, "end": 9}, 4294967294, 1), ({}, 2, 1),
    ):
        room.put("costs", json.dumps(costs).encode())
        piece = call(first) if first else b""
        want = [piece + DROP, (call(block) if block else b"") + b"\x02\x40" + piece + DROP + b"\x0b" + piece + DROP]
        same(by_call(want), room.works("wmeter", "--costs", "costs", "in"), costs)
        with open(room.path("costs"), "rb") as file:
            same(by_call(want), room.works("wmeter", "--costs=-", "in", "-", stdin=file), costs)


@case("wmeter: names of operators with two opcodes")
def _(room):
    # `select` without and with a type
    select, typed = b"\x41\0" * 3 + b"\x1b\x1a", b"\x41\0" * 3 + b"\x1c\1\x7f\x1a"
    room.put("in", module([select, typed]))
    room.put("costs", b'{"select": 100}')
    same(by_call([call(104) + select, call(104) + typed]), room.works("wmeter", "--costs", "costs", "in"))


@case("wmeter: tables of costs that are refused")
def _(room):
    room.put("in")
    for text, says in (
        (b"", "this is no JSON text (NotJson)"), (b'{"call": 1', "this is no JSON text (NotJson)"), (b'{"\xff": 1}', "this is no JSON text (NotJson)"),
        (b"[]", "a table of costs is a JSON object (NotATable)"), (b"7", "a table of costs is a JSON object (NotATable)"),
        (b'{"call": 1, "call": 1}', "an operator is given twice (GivenTwice)"),
        (b'{"calls": 1}', "no operator is named 'calls' (NoOperator)"), (b'{"": 1}', "no operator is named '' (NoOperator)"),
        (b'{"Call": 1}', "no operator is named 'Call' (NoOperator)"), (b'{"a\\u001b": 1}', "no operator is named 'a\\u{1b}' (NoOperator)"),
        *((b'{"call": %s}' % it, "the cost of 'call' isn't an integer from 0 to 2147483647 (NotACost)")
          for it in (b"-1", b"1.5", b"1e3", b"2147483648", b"18446744073709551616", b'"1"', b"null", b"[1]")),
    ):
        room.put("costs", text)
        room.refuses("wmeter", "--costs", "costs", "in", "out", says=f"costs: {says}")
    room.refuses("wmeter", "--costs", "none", "in", "out", says="none: can't be opened: No such file or directory (os error 2)")
    same(["costs", "in"], room.files())


@case("wmeter: words that are wrong, and names that are taken")
def _(room):
    room.put("in", module([b""], exported=exports([(b"used", 0)])))
    room.wrong_use("wmeter", "--import", "m", "n", "--global", "g", "in", "out", says="option '--import' can't be used with '--global'")
    room.wrong_use("wmeter", "--import", "m", "n", "--import", "m", "n", "in", "out", says="option '--import' is given twice")
    room.wrong_use("wmeter", "in", "--import", says="option '--import' requires a value")
    room.wrong_use("wmeter", "in", "--import", "m", says="option '--import' requires a value")
    room.wrong_use("wmeter", "in", "--import=m", says="option '--import' requires a value")
    room.wrong_use("wmeter", "--costs=", "in", "out", says="option '--costs' requires a value")
    room.wrong_use("wmeter", "--costs", "-", "-", "out", says="'-' and '-' are the same file")
    for program, more in (("wcount", []), ("wrewrite", []), ("wsnip", ["0"])):
        for option in ("--costs", "--import", "--global"):
            room.wrong_use(program, option, "a", "in", "out", *more, says=f"unknown option '{option}'")
    room.refuses("wmeter", "--global", "used", "in", "out", says='in: 0x15: export "used": an export has this name already (ExportTaken)')
    same(["in"], room.files())


# ---- node

COSTS = {"local.get": 0, "call": 11, "call_indirect": 13, "i32.add": 3, "if": 5, "loop": 2, "br_if": 7, "br_table": 17, "memory.grow": 1000}
OPCODES = {0x20: 0, 0x10: 11, 0x11: 13, 0x6A: 3, 0x04: 5, 0x03: 2, 0x0D: 7, 0x0E: 17, 0x40: 1000}
# Operators that aren't executed, or do nothing: nop, else, catch, end, delegate, catch_all.
UNCHARGED = {0x01, 0x05, 0x07, 0x0B, 0x18, 0x19}


class Body:
    """A body whose operators are read, one after the other, in the encodings of the modules that are tried here."""

    def __init__(self, contents):
        self.contents, self.at = contents, 0
        runs = self.number()
        for _ in range(runs):
            self.number()
            self.number()

    def number(self):
        value, self.at = read_number(self.contents, self.at)
        return value

    def skip(self, opcode):
        """Skips the immediates of an operator."""
        if opcode in (0x02, 0x03, 0x04, 0x06, 0x07, 0x08, 0x09, 0x0C, 0x0D, 0x10, 0x12, 0x18, 0x3F, 0x40, 0x41, 0x42, 0xD0, 0xD2) or 0x20 <= opcode <= 0x26:
            self.number()
        elif opcode in (0x11, 0x13):
            self.number()
            self.number()
        elif opcode == 0x0E:
            for _ in range(self.number() + 1):
                self.number()
        elif 0x28 <= opcode <= 0x3E:
            assert self.number() < 64, "a memory is named"
            self.number()
        elif opcode in (0x43, 0x44):
            self.at += 4 if opcode == 0x43 else 8
        elif opcode == 0xFC:
            number_after = self.number()
            assert number_after in (*range(8), 10, 11), number_after
            for _ in range({10: 2, 11: 1}.get(number_after, 0)):
                self.number()
        elif opcode == 0x1F:
            self.number()
            for _ in range(self.number()):
                kind = self.number()
                for _ in range(2 if kind < 2 else 1):
                    self.number()
        else:
            assert opcode in (0x00, 0x01, 0x05, 0x0A, 0x0B, 0x0F, 0x19, 0x1A, 0x1B, 0xD1) or 0x45 <= opcode <= 0xC4, hex(opcode)

    def added_up(self, counter, costs):
        """The body, in which each operator is preceded by an addition of its cost."""
        made = [self.contents[: self.at]]
        while self.at < len(self.contents):
            begin, opcode = self.at, self.contents[self.at]
            self.at += 1
            self.skip(opcode)
            cost = 0 if opcode in UNCHARGED else costs.get(opcode, 1)
            made.append((b"\x23" + counter + b"\x42" + signed(cost) + b"\x7c\x24" + counter if cost else b"") + self.contents[begin : self.at])
        return sized(b"".join(made))


def adding_up(module, costs):
    """A module that adds up the cost of each operator, in a global that it exports as `used`."""
    contents = dict(sections_of(module))
    kinds = list(kinds_of_imports(contents.get(2, b"\0")))
    counter = number(kinds.count(3) + read_number(contents.get(6, b"\0"), 0)[0])
    count, at = read_number(contents[10], 0)
    bodies = []
    for _ in range(count):
        size, at = read_number(contents[10], at)
        bodies.append(Body(contents[10][at : at + size]).added_up(counter, costs))
        at += size
    parts = [(kind, other) for kind, other in sections_of(module) if kind not in (6, 10)]
    globals_made = appended(contents.get(6, b"\0"), [b"\x7e\1\x42\0\x0b"])
    parts = [(kind, appended(other, [sized(b"used") + b"\3" + counter]) if kind == 7 else other) for kind, other in parts]
    before = max(place for place, (kind, _) in enumerate(parts) if kind in (1, 2, 3, 4, 5, 13)) + 1
    parts.insert(before, (6, globals_made))
    last = max(place for place, (kind, _) in enumerate(parts) if kind in (7, 8, 9, 12, 6)) + 1
    parts.insert(last, (10, vector(bodies)))
    return PREAMBLE + b"".join(section(kind, other) for kind, other in parts)


# What the work gives, what was logged, and what was charged: of the imported function, or what the global says.
WORK = """
const compiled = new WebAssembly.Module(require("fs").readFileSync(process.argv[1]));
let charged = 0n;
const logged = [];
const imports = { wmeter: { charge: (cost) => { charged += cost; } } };
for (const { module, name, kind } of WebAssembly.Module.imports(compiled)) {
  imports[module] ??= {};
  if (module !== "wmeter") imports[module][name] = kind === "function" ? (...values) => { logged.push([name, ...values.map(String)]); return 0; } : undefined;
}
const exported = new WebAssembly.Instance(compiled, imports).exports;
const results = (WORK)(exported);
if (exported.used) charged = exported.used.value;
console.log(JSON.stringify({ results, logged, charged: String(charged) }));
"""
SEEDS = "(exports) => Array.from({ length: 20 }, (_, seed) => String(exports.run(seed)))"


def charged_alike(room, source, work):
    """Runs a module with both charges, and one that adds up each operator, and compares. Returns what was charged."""
    room.put("in", source)
    room.put("costs", json.dumps(COSTS).encode())
    charges = []
    for words, costs in (([], {}), (["--costs", "costs"], OPCODES)):
        room.put("adding", adding_up(source, costs))
        room.works("wmeter", "--validate", *words, "in", "called")
        room.works("wmeter", *words, "--global", "used", "in", "counted")
        plain, adding, called, counted = (node(room, WORK.replace("WORK", work), name) for name in ("in", "adding", "called", "counted"))
        for other in (adding, called, counted):
            same((plain["results"], plain["logged"]), (other["results"], other["logged"]))
        same((adding["charged"],) * 2, (called["charged"], counted["charged"]))
        charges.append(int(adding["charged"]))
    return charges


@case("wmeter: a real program is charged what its operators cost")
def _(room):
    plain, costly = charged_alike(room, stored("sample.wasm"), SEEDS)
    assert plain > 1000 and costly != plain, (plain, costly)


@case("wmeter: recursion")
def _(room):
    charged_alike(room, stored("fib.wasm"), "(exports) => Array.from({ length: 15 }, (_, it) => String(exports.fib(it)))")


@case("wmeter: node's lexer, and node's parser of HTTP, which has a table and imports")
def _(room):
    plain, _ = charged_alike(room, of_node(room, 0), LEX)
    assert plain > 1000000, plain
    charged_alike(room, of_node(room, 1), PARSE)


# (i32) -> i32, () -> (), (i32) -> ()
ONE_TYPES = section(1, vector([b"\x60\1\x7f\1\x7f", b"\x60\0\0", b"\x60\1\x7f\0"]))


def one(bodies, before=b"", after=b""):
    """A module of functions of type 0, of which the first is exported as `run`."""
    declared = section(3, vector([b"\0"] * len(bodies)))
    return PREAMBLE + ONE_TYPES + declared + before + exports([(b"run", 0)]) + after + section(10, vector([sized(b"\0" + body + b"\x0b") for body in bodies]))


ANY = "(exports) => [0, 1, 2, 3, 4, 7, -1].map((it) => { try { return String(exports.run(it)); } catch (error) { return String(error.constructor.name); } })"


@case("wmeter: br_table, and branches out of nested blocks")
def _(room):
    get, one_more = b"\x20\0", b"\x41\1\x6a"
    # the operand chooses one of three blocks to leave, after each of which 1 is added
    blocks = b"\x02\x40\x02\x40\x02\x40" + get + b"\x0e\2\0\1\2\x0b" + get + one_more + b"\x21\0\x0b" + get + one_more + b"\x21\0\x0b" + get
    # a loop that counts down from the operand, or leaves where it is negative
    loop = b"\x02\x40\x03\x40" + get + b"\x41\0\x4c\x0d\1" + get + b"\x41\1\x6b\x21\0\x0c\0\x0b\x0b" + get
    for body in (blocks, loop):
        charged_alike(room, one([body]), ANY)


@case("wmeter: tail calls")
def _(room):
    # counts down by tail calls of itself
    body = b"\x20\0\x45\x04\x40\x41\7\x0f\x0b\x20\0\x41\1\x6b\x12\0"
    work = "(exports) => [0, 1, 1000].map((it) => String(exports.run(it)))"
    charged_alike(room, one([body]), work)


@case("wmeter: exceptions: of what isn't executed the rest of the piece that throws is charged, and nothing else")
def _(room):
    tags = section(13, vector([b"\0\1"]))
    # Function 1 throws where its operand is at least 3, as it is three times. Function 0 catches that, and gives 9.
    throws = b"\x20\0\x41\3\x4e\x04\x40\x08\0\x0b\x20\0"
    # The call is the last operator of its piece, or has `return` after it; or `drop`, `i32.const` and `return`.
    for catching, unused in (
        (b"\x06\x7f\x20\0\x10\1\x07\0\x41\x09\x0b", 0),
        (b"\x06\x40\x20\0\x10\1\x0f\x19\x0b\x41\x09", 1),
        (b"\x06\x40\x20\0\x10\1\x1a\x41\1\x0f\x07\0\x0b\x41\x09", 3),
    ):
        source = one([catching, throws], before=tags)
        room.put("in", source)
        room.put("adding", adding_up(source, {}))
        room.works("wmeter", "in", "called")
        plain, adding, called = (node(room, WORK.replace("WORK", ANY), name) for name in ("in", "adding", "called"))
        same((plain["results"],) * 2, (adding["results"], called["results"]))
        same(int(adding["charged"]) + 3 * unused, int(called["charged"]))


REFUSING = """
const bytes = require("fs").readFileSync(process.argv[1]);
const told = [];
for (let limit = 0; limit < 60; limit += 7) {
  let left = limit;
  const charge = (cost) => { if (BigInt(left) < cost) throw new Error("no more"); left -= Number(cost); };
  const exported = new WebAssembly.Instance(new WebAssembly.Module(bytes), { wmeter: { charge } }).exports;
  let ended = "returned";
  try { exported.run(4); } catch (error) { ended = error.message; }
  told.push([ended, exported.state.value, limit - left]);
}
console.log(JSON.stringify(told));
"""


@case("wmeter: a host that refuses in the middle leaves the state that the source has there")
def _(room):
    # A loop of as many turns as the operand adds 1 to a global in each: local.get 0, i32.const 1, i32.sub, local.set 0, global.get 0,
    # i32.const 1, i32.add, global.set 0, local.get 0, br_if 0 are ten operators, after one for the loop; one for the result.
    turn = b"\x20\0\x41\1\x6b\x21\0" + b"\x23\0\x41\1\x6a\x24\0" + b"\x20\0\x0d\0"
    body = b"\x03\x40" + turn + b"\x0b\x20\0"
    declared, counter = section(3, vector([b"\0"])), section(6, vector([b"\x7f\1\x41\0\x0b"]))
    exported = section(7, vector([sized(b"run") + b"\0\0", sized(b"state") + b"\3\0"]))
    room.put("in", PREAMBLE + ONE_TYPES + declared + counter + exported + section(10, vector([sized(b"\0" + body + b"\x0b")])))
    room.works("wmeter", "in", "out")
    # with so much to spend the loop is entered for 1, each of four turns is 10, and the end is 1
    want = []
    for limit in range(0, 60, 7):
        turns = max(min((limit - 1) // 10, 4), 0)
        spent = (limit > 0) + 10 * turns + (limit >= 42)
        want.append(["returned" if limit >= 42 else "no more", turns, spent])
    same(want, node(room, REFUSING, "out"))
