"""Two modules that node contains: wtrace tells of as many calls of each function as that function counts itself, in a module
that is made here."""
import base64

from modules import PREAMBLE, number, read_number, section, sized, vector
from runs import Skipped, case, node, same

# The modules of node's own lexer of CommonJS and of its parser of HTTP, in base64, if it contains them.
NODE_MODULES = """
const sources = process.binding("natives");
const module = (name) => (sources[name] ?? "").match(/AGFzbQ[A-Za-z0-9+/=]*/)?.[0] ?? null;
console.log(JSON.stringify(["internal/deps/cjs-module-lexer/dist/lexer", "internal/deps/undici/undici"].map(module)));
"""

# What is done with the exports of an instance: node's own sources are lexed, and some messages parsed.
LEX = """({ memory, sa, parseCJS, e, rre, ru, re, __heap_base }) =>
  Object.values(process.binding("natives")).filter((it) => typeof it === "string").map((source) => {
    const missing = __heap_base.value + 4 * (source.length + 1) - memory.buffer.byteLength;
    if (missing > 0) memory.grow(Math.ceil(missing / 65536));
    const at = sa(source.length + 1);
    const codes = new Uint16Array(memory.buffer, at, source.length);
    for (let it = 0; it < source.length; it++) codes[it] = source.charCodeAt(it);
    const result = [parseCJS(at, source.length, 0, 0, 0), e()];
    for (const next of [rre, ru, re]) {
      let count = 0;
      while (next()) count++;
      result.push(count);
    }
    return result;
  })
"""
PARSE = r"""(exports) =>
  [
    [1, "GET /a?b=c HTTP/1.1\r\nHost: h\r\nAccept: */*\r\n\r\n"],
    [1, "POST / HTTP/1.1\r\nContent-Length: 3\r\n\r\nabcPUT /x HTTP/1.0\r\n\r\n"],
    [2, "HTTP/1.1 200 OK\r\nTransfer-Encoding: chunked\r\n\r\n4\r\nWiki\r\n3\r\nend\r\n0\r\n\r\n"],
    [2, "HTTP/1.1 2x0 OK\r\n\r\n"],
  ].map(([type, text]) => {
    const parser = exports.llhttp_alloc(type);
    const at = exports.malloc(text.length);
    new Uint8Array(exports.memory.buffer, at, text.length).set(Buffer.from(text));
    const results = [exports.llhttp_execute(parser, at, text.length), exports.llhttp_get_status_code(parser), exports.llhttp_finish(parser)];
    exports.free(at);
    exports.llhttp_free(parser);
    return results;
  })
"""

# The number of calls of each function: of `host.trace` with its index, or what its global says at the end.
COUNT_CALLS = """
const compiled = new WebAssembly.Module(require("fs").readFileSync(process.argv[1]));
const calls = {};
const logged = [];
const imports = { env: {}, host: { trace: (index) => { calls[index] = (calls[index] ?? 0) + 1; } } };
for (const { module, name } of WebAssembly.Module.imports(compiled)) {
  if (module === "env") imports.env[name] = (...values) => { logged.push([name, ...values]); return 0; };
}
const exported = new WebAssembly.Instance(compiled, imports).exports;
const results = (WORK)(exported);
for (const [name, { value }] of Object.entries(exported)) {
  if (name.startsWith("calls") && value > 0n) calls[name.slice("calls_".length)] = Number(value);
}
console.log(JSON.stringify({ results, logged, calls }));
"""


def sections_of(module):
    """The kind and the contents of each section."""
    at = len(PREAMBLE)
    while at < len(module):
        size, begin = read_number(module, at + 1)
        yield module[at], module[begin : begin + size]
        at = begin + size


def kinds_of_imports(contents):
    """The kind of each import: 0 for a function, 3 for a global."""
    count, at = read_number(contents, 0)
    for _ in range(count):
        for _ in range(2):
            size, at = read_number(contents, at)
            at += size
        kind, at = contents[at], at + 1
        yield kind
        # an index; a type and limits; limits; a type and a mutability
        if kind in (1, 2):
            limits = at + (kind == 1)
            count_of_numbers = limits - at + 2 + contents[limits] % 2
        else:
            count_of_numbers = 1 + (kind == 3)
        for _ in range(count_of_numbers):
            _, at = read_number(contents, at)


def appended(contents, items):
    """The contents of a section with more items."""
    count, at = read_number(contents, 0)
    return number(count + len(items)) + contents[at:] + b"".join(items)


def counting_body(body, counter):
    """A body that first adds 1 to a global; its locals have types of one byte."""
    runs, at = read_number(body, 0)
    for _ in range(runs):
        _, at = read_number(body, at)
        at += 1
    return sized(body[:at] + b"\x23" + counter + b"\x42\1\x7c\x24" + counter + body[at:])


def counting_module(module):
    """A module with a global for each function with a body, exported as `calls_` with its index, in which it counts its calls. No number
    changes, and no operator is read: nothing is as in wtrace."""
    contents = dict(sections_of(module))
    kinds = list(kinds_of_imports(contents.get(2, b"\0")))
    imported, globals_before = kinds.count(0), kinds.count(3) + read_number(contents[6], 0)[0]
    count, at = read_number(contents[10], 0)
    bodies, names_of_counters = [], []
    for place in range(count):
        size, at = read_number(contents[10], at)
        counter = number(globals_before + place)
        bodies.append(counting_body(contents[10][at : at + size], counter))
        names_of_counters.append(sized(b"calls_%d" % (imported + place)) + b"\3" + counter)
        at += size
    contents[6] = appended(contents[6], [b"\x7e\1\x42\0\x0b"] * count)
    contents[7] = appended(contents[7], names_of_counters)
    contents[10] = vector(bodies)
    return PREAMBLE + b"".join(section(kind, contents[kind] if kind else other) for kind, other in sections_of(module))


def counts_alike(room, module, work):
    """Traces and counts the calls of a module that does this work, and compares. Returns the counts."""
    room.put("in", module)
    room.put("counting", counting_module(module))
    room.put("traced", room.works("wtrace", "in"))
    room.works("wcount", "in", "total")
    plain, counted, traced, total = (node(room, COUNT_CALLS.replace("WORK", work), name) for name in ("in", "counting", "traced", "total"))
    same({}, plain["calls"])
    for other in (counted, traced, total):
        same((plain["results"], plain["logged"]), (other["results"], other["logged"]))
    same(counted["calls"], traced["calls"])
    same({"": sum(traced["calls"].values())}, total["calls"])
    return counted["calls"]


def of_node(room, place):
    """A module that node contains."""
    found = node(room, NODE_MODULES)[place]
    if found is None:
        raise Skipped("node's own sources don't contain this module")
    return base64.b64decode(found)


@case("wtrace: a real module, node's lexer, is traced as often as each of its functions counts")
def _(room):
    calls = counts_alike(room, of_node(room, 0), LEX)
    assert len(calls) > 20 and sum(calls.values()) > 100000, calls


@case("wtrace: another one, node's parser of HTTP, which imports functions and has a table")
def _(room):
    calls = counts_alike(room, of_node(room, 1), PARSE)
    # its first eight functions are imported
    assert len(calls) > 10 and sum(calls.values()) > 50 and min(map(int, calls)) >= 8, calls
