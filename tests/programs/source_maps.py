"""Each mapping of a source map follows its operator, and all else of the map is carried over; which maps are refused, and which
words about them are wrong use."""
import json

from modules import DEBUG, GOOD, GOOD_WRITTEN, custom, module, sized
from runs import DATA, case, holds, same, stored
from source_map_texts import GOOD_MOVED, GOOD_ROWS, mappings, rows_of, source_map, vlq

MAPS = ("--source-map", "in.map", "--output-source-map", "out.map")


@case("the spelling of mappings that the cases use is that of the specification")
def _(room):
    same(["A", "C", "D", "gB", "hB", "+/////D"], [vlq(value) for value in (0, 1, -1, 16, -16, 0x7FFFFFFF)])
    same(GOOD_MOVED, mappings([[0x17, 0, 0, 0], [0x17, 0, 1, 2], [0x17, 0, 2, 0, 0]]))
    same(GOOD_ROWS, rows_of(mappings(GOOD_ROWS)))


@case("each mapping follows its operator, or goes to the next one that is kept in its body; others go")
def _(room):
    room.put("in")
    room.put("in.map", source_map(mappings(GOOD_ROWS)))
    same(b"", room.works("wrewrite", *MAPS, "in", "out"))
    same(GOOD_WRITTEN, room.get("out"))
    same(source_map(GOOD_MOVED), room.get("out.map"))
    same(["in", "in.map", "out", "out.map"], room.files())


@case("no mapping goes from one body to the next")
def _(room):
    # The second body is a `br` and what can't be reached after it: its last `end` is kept.
    room.put("in", module([b"\1\1", b"\x0c\0\1\1", b"\1"]))
    room.put("in.map", source_map(mappings([[place] for place in range(0, 0x30)])))
    room.works("wrewrite", "--map", "map", *MAPS, "in", "out")
    pairs = [tuple(int(number, 16) for number in line.split()) for line in room.get("map").decode().splitlines()]
    bodies = [(0x18, 0x1C), (0x1D, 0x23), (0x24, 0x27)]
    want = []
    for start, end in bodies:
        for place in range(start, end):
            new = [new for old, new in pairs if place <= old < end]
            want += [[new[0]]] if new else []
    same(want, rows_of(room.get("out.map").decode().split('"mappings":"')[1].split('"')[0]))


@case("the source map of a real program follows it, as another reading of the operators says")
def _(room):
    for program, taken in (("wrewrite", []), ("wsnip", ["sha256_block", "3"]), ("wcount", [])):
        room.works(program, "--source-map", f"{DATA}/mapped.wasm.map", "--output-source-map", "out.map", f"{DATA}/mapped.wasm", "out", *taken)
        same(stored(f"mapped.{program}.map"), room.get("out.map"), program)


@case("all else of a source map is carried over, in the usual order")
def _(room):
    room.put("in")
    members = b'"names":["f"],"x_google_ignoreList":[0],"mappings":"uB","sourcesContent":["int a;\\n\\u00e9",null],"sources":["a.c",null],"sourceRoot":"/r","file":"in","version":3,"a":{"b":1.5}'
    room.put("in.map", b"{" + members + b"}")
    room.works("wrewrite", *MAPS, "in", "out")
    want = '{"version":3,"file":"in","sourceRoot":"/r","sources":["a.c",null],"sourcesContent":["int a;\\n\u00e9",null],"names":["f"],"mappings":"uB","x_google_ignoreList":[0],"a":{"b":1.5}}'
    same(want.encode(), room.get("out.map"))


@case("members of other names are carried over in their order, with the text of each number, as another reader of JSON says")
def _(room):
    def pairs(text):
        return json.loads(text, object_pairs_hook=lambda found: found, parse_int=str, parse_float=str)

    room.put("in")
    text = rb''' { "z" : [ 1.50, 1e2, -0, 123456789012345678901234567890, { "b" : 1, "a" : { } } ], "mappings" : "uB", "version" : 3,
        "names" : [ ], "a" : "\ud83d\ude00\/\u0000\"", "z" : 2, "debugId" : null, "version" : 3, "names" : [ true ] } '''
    room.put("in.map", text)
    room.works("wrewrite", *MAPS, "in", "out")
    was = pairs(text)
    # of a name of the specification, the last member counts, as for Python
    want = [(name, value) for name, value in (*was[-2:], ("mappings", "uB"))]
    want += [(name, value) for name, value in was if name in ("z", "a", "debugId")]
    same(want, pairs(room.get("out.map")))
    same(dict(json.loads(text)), json.loads(room.get("out.map")))


@case("--source-map with wsnip and wcount")
def _(room):
    # The first body is a constant that is dropped, which wsnip takes away, and before which wcount adds something.
    room.put("in", module([b"\x41\1\x1a", b"\1"]))
    room.put("in.map", source_map(mappings([[0x18, 0, 1, 0], [0x1A, 0, 2, 0], [0x1B, 0, 3, 0], [0x1E, 0, 4, 0], [0x1F, 0, 5, 0]])))
    for program, more in (("wsnip", ["0"]), ("wcount", [])):
        room.works(program, "--map", "map", *MAPS, "in", "out", *more)
        pairs = dict(line.split() for line in room.get("map").decode().splitlines())
        kept = {"18": 1, "1a": 2, "1b": 3, "1f": 5}
        want = [[int(pairs[place], 16), 0, line, 0] for place, line in kept.items() if place in pairs]
        want.insert(-1, [want[-1][0], 0, 4, 0])
        found = room.get("out.map").decode().split('"mappings":"')[1].split('"')[0]
        same(want, rows_of(found), program)


@case("--source-map-url: the section is added, or written anew at the end; without it it stays")
def _(room):
    url = custom(b"sourceMappingURL", sized(b"http://a/b.map"))
    room.put("in.map", source_map(""))
    room.put("in")
    room.works("wrewrite", *MAPS, "--source-map-url", "http://a/b.map", "in", "out")
    same(GOOD_WRITTEN + url, room.get("out"))
    other, old = custom(b"other", b"o"), custom(b"sourceMappingURL", sized(b"old"))
    room.put("in", GOOD + old + other)
    room.works("wrewrite", *MAPS, "--source-map-url=http://a/b.map", "in", "out")
    same(GOOD_WRITTEN + other + url, room.get("out"))
    room.works("wrewrite", *MAPS, "in", "out")
    same(GOOD_WRITTEN + old + other, room.get("out"))
    same(source_map(""), room.get("out.map"))


@case("a source map that is refused: nothing is written")
def _(room):
    room.put("in")
    for text, says in (
        ("u!", "a character of the mappings is no digit of base64 (BadDigit)"),
        ("ug", "the mappings end inside a number (CutNumber)"),
        ("uB,g", "the mappings end inside a number (CutNumber)"),
        ("gggggggA", "a number of the mappings is too long (LongNumber)"),
        ("uBA", "a mapping has neither one nor four nor five fields (FieldCount)"),
        ("uBAA", "a mapping has neither one nor four nor five fields (FieldCount)"),
        ("uBAAAAA", "a mapping has neither one nor four nor five fields (FieldCount)"),
        ("uB,,uB", "a mapping has neither one nor four nor five fields (FieldCount)"),
        ("uB,", "a mapping has neither one nor four nor five fields (FieldCount)"),
        ("uBAAD", "a field of a mapping is out of range (FieldOutOfRange)"),
        ("uBABA", "a field of a mapping is out of range (FieldOutOfRange)"),
        ("ggggggI", "a field of a mapping is out of range (FieldOutOfRange)"),
        ("uB,D", "the mappings are not sorted by their offsets (UnsortedColumn)"),
        ("uB;uB", "the mappings have more than one line (SecondLine)"),
    ):
        room.put("in.map", source_map(text))
        room.refuses("wrewrite", *MAPS, "in", "out", says=f"in.map: {says}")
    for contents, says in (
        (b"{", "line 1, column 1: this is no JSON text (NotJson)"),
        (b"\n {]", "line 2, column 3: this is no JSON text (NotJson)"),
        (b"[]", "this is no source map (NotASourceMap)"),
        (b'{"version":2,"mappings":""}', "the version of the source map is not 3 (BadSourceMapVersion)"),
        (b'{"mappings":""}', "the version of the source map is not 3 (BadSourceMapVersion)"),
        (b'{"version":3}', "the source map has no mappings of its own (NoMappings)"),
        (b'{"version":3,"mappings":1}', "the source map has no mappings of its own (NoMappings)"),
        (b'{"version":3,"sections":[]}', "the source map has no mappings of its own (NoMappings)"),
    ):
        room.put("in.map", contents)
        status, _, err = room.run("wrewrite", *MAPS, "in", "out")
        same(1, status, contents)
        if "JSON" in says:
            holds("this is no JSON text (NotJson)\n", err)
        else:
            same(f"wrewrite: in.map: {says}\n", err)
    same(["in", "in.map"], room.files())
    room.refuses("wrewrite", "--source-map", "none", "--output-source-map", "out.map", "in", "out", says="none: can't be opened: No such file or directory (os error 2)")
    same(["in", "in.map"], room.files())


@case("options of source maps that are used wrong")
def _(room):
    room.put("in")
    room.put("in.map", source_map(""))
    room.wrong_use("wrewrite", "--source-map", "in.map", "in", "out", says="option '--source-map' requires '--output-source-map'")
    room.wrong_use("wrewrite", "--output-source-map", "out.map", "in", "out", says="option '--output-source-map' requires '--source-map'")
    room.wrong_use("wrewrite", *MAPS, "--source-map=x", "in", "out", says="option '--source-map' is given twice")
    room.wrong_use("wrewrite", "in", "out", "--source-map", says="option '--source-map' requires a value")
    room.wrong_use("wrewrite", *MAPS, "--check", "in", says="option '--source-map' can't be used with '--check', which writes no module")


@case("the files of source maps are others than all that are read and written; one map may be written onto the other")
def _(room):
    room.put("in")
    room.put("in.map", source_map("uB"))

    def refused(given, made, out, first, second, *more):
        words = ["--source-map", given, "--output-source-map", made, *more, "in", out]
        room.wrong_use("wrewrite", *words, says=f"'{first}' and '{second}' are the same file")

    refused("in.map", "out", "out", "out", "out")
    refused("in.map", "./out", "out", "./out", "out")
    refused("in.map", "out.map", "out", "out.map", "out.map", "--map", "out.map")
    refused("in.map", "in", "out", "in", "in")
    refused("in.map", "out.map", "in.map", "in.map", "in.map")
    refused("in.map", "out.map", "out", "in.map", "in.map", "--map", "in.map")
    refused("in.map", "-", "-", "-", "-")
    room.wrong_use("wrewrite", "--source-map", "-", "--output-source-map", "out.map", "-", "out", says="'-' and '-' are the same file")
    same(["in", "in.map"], room.files())
    room.works("wrewrite", "--source-map", "in.map", "--output-source-map", "in.map", "in", "in")
    same(source_map("uB"), room.get("in.map"))
    same(GOOD_WRITTEN, room.get("in"))


@case("a source map that can't be written leaves all files as they were")
def _(room):
    room.put("in")
    room.put("out", b"old")
    room.put("map", b"old")
    room.put("in.map", source_map("uB"))
    status, _, err = room.run("wrewrite", "--map", "map", "--source-map", "in.map", "--output-source-map", "/dev/full", "in", "out")
    same(1, status)
    same("wrewrite: /dev/full: can't be written: No space left on device (os error 28)\n", err)
    same((b"old", b"old"), (room.get("out"), room.get("map")))
    same(["in", "in.map", "map", "out"], room.files())


@case("a source map that is written anew is no reason for a warning")
def _(room):
    room.put("in", GOOD + DEBUG)
    room.put("in.map", source_map("uB"))
    status, _, err = room.run("wrewrite", *MAPS, "in", "out")
    same(0, status)
    why = ", since it can't follow the code (.debug_line: the section ends inside a value)"
    same(f"wrewrite: warning: debug information is out of date (.debug_line){why}: use --strip-debug\n", err)
