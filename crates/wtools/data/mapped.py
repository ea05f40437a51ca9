#!/usr/bin/env python3
"""Makes mapped.wasm of sample.c, by clang 14 and its linker, with mapped.wasm.map, the source map of its line table; and the source
map that has to follow it into a module that a program made of it. Which operator is at each offset of both modules is read by
llvm-objdump, and nothing of the source maps is by the programs of this repository.

    ./mapped.py                     makes mapped.wasm and mapped.wasm.map
    ./mapped.py PROGRAM OUT.wasm    makes mapped.PROGRAM.map of what PROGRAM wrote of mapped.wasm
"""
import json
import os
import re
import subprocess
import sys
import tempfile

FLAGS = "--target=wasm32 -g -O0 -nostdlib -mbulk-memory -msign-ext -mnontrapping-fptoint -ffp-contract=off"
DIGITS = "ABCDEFGHIJKLMNOPQRSTUVWXYZabcdefghijklmnopqrstuvwxyz0123456789+/"
# After these nothing is reached before the next `end` or `else` of the same block.
ENDS = ("br", "br_table", "return", "unreachable")
BLOCKS = ("block", "loop", "if")


def number(bytes, at):
    """A number in LEB128, and the place after it."""
    value = shift = 0
    while True:
        value |= (bytes[at] & 0x7F) << shift
        shift, at = shift + 7, at + 1
        if bytes[at - 1] < 0x80:
            return value, at


def sections(bytes):
    """The kind of each section, the place of its contents, and all of its bytes."""
    at = 8
    while at < len(bytes):
        size, contents = number(bytes, at + 1)
        yield bytes[at], contents, bytes[at : contents + size]
        at = contents + size


def is_debug(kind, whole):
    return kind == 0 and b".debug_" in whole[:12]


def code_start(bytes):
    return next(contents for kind, contents, _ in sections(bytes) if kind == 10)


def said(*words):
    return subprocess.run(words, stdout=subprocess.PIPE, check=True, text=True).stdout


def vlq(value):
    left, text = -value << 1 | 1 if value < 0 else value << 1, ""
    while True:
        left, low = left >> 5, left & 31
        text += DIGITS[low | 32 if left else low]
        if not left:
            return text


def text_of(rows):
    """The text of mappings of these offsets, lines and columns."""
    last, segments = (0, 0, 0, 0), []
    for place, line, column in rows:
        row = (place, 0, line, column)
        segments.append("".join(vlq(field - before) for field, before in zip(row, last)))
        last = row
    return ",".join(segments)


def source_map(rows):
    return json.dumps({"version": 3, "sources": ["sample.c"], "names": [], "mappings": text_of(rows)}, separators=(",", ":"))


def rows_of(bytes, file):
    """The rows of the line table: the offset in the file, the line and the column, which count from 0. The end of a function is its
    last byte, as for other tools that make source maps."""
    rows = {}
    for line in said("llvm-dwarfdump", "--debug-line", file).splitlines():
        row = re.match(r"0x([0-9a-f]+) +(\d+) +(\d+) +1 .*?(end_sequence)?$", line)
        if row and row[2] != "0":
            place = int(row[1], 16) - (row[4] is not None) + code_start(bytes)
            rows[place] = (place, int(row[2]) - 1, max(int(row[3]) - 1, 0))
    return [rows[place] for place in sorted(rows)]


def operators(file):
    """The operators of each function, with their offsets in the file."""
    with open(file, "rb") as module:
        start = code_start(module.read())
    found = []
    for line in said("llvm-objdump", "-d", file).splitlines():
        operator = re.match(r" *([0-9a-f]+): (?:[0-9a-f]{2} )+ *\t([a-z0-9_.]+)", line)
        if re.match(r"[0-9a-f]+ <", line):
            found.append([])
        elif operator:
            found[-1].append((start + int(operator[1], 16), operator[2]))
    return [function for function in found if function]


def kept(function):
    """The operators without `nop` and without what can't be reached after a branch."""
    rest, dead = [], None
    for place, name in function:
        if dead is None:
            if name != "nop":
                rest.append((place, name))
            dead = 0 if name in ENDS else None
        elif name in BLOCKS:
            dead += 1
        elif dead and name == "end":
            dead -= 1
        elif not dead and name in ("end", "else"):
            dead = None
            rest.append((place, name))
    return rest


def bodies(bytes):
    """The places of the first byte of each body, and of the one after it."""
    count, at = number(bytes, code_start(bytes))
    for _ in range(count):
        size, begin = number(bytes, at)
        yield begin, begin + size
        at = begin + size


def make():
    with tempfile.TemporaryDirectory() as folder:
        file = os.path.join(folder, "mapped.wasm")
        said("clang", *FLAGS.split(), "-fdebug-compilation-dir=.", "-Wl,--no-entry", "-o", file, "sample.c")
        with open(file, "rb") as module:
            bytes = module.read()
        rows = rows_of(bytes, file)
    url = b"\x10sourceMappingURL\x0fmapped.wasm.map"
    with open("mapped.wasm", "wb") as module:
        module.write(bytes[:8] + b"".join(whole for kind, _, whole in sections(bytes) if not is_debug(kind, whole)))
        module.write(b"\0" + len(url).to_bytes(1, "big") + url)
    with open("mapped.wasm.map", "w") as file:
        file.write(source_map(rows))


def written(program, function):
    """The operators of a function that a program wrote which are those of the source."""
    names = [name for _, name in function]
    if program == "wcount":
        assert names[:4] == ["global.get", "i64.const", "i64.add", "global.set"]
        return function[4:]
    return [] if program == "wsnip" and names == ["unreachable", "end"] else function


def follow(program, file):
    """The rows at the offsets at which their operators are now, or the next ones that are kept in their functions."""
    with open("mapped.wasm", "rb") as module:
        bytes = module.read()
    with open("mapped.wasm.map") as text:
        rows = read(json.load(text)["mappings"])
    followed = []
    for (begin, end), function, now in zip(bodies(bytes), operators("mapped.wasm"), operators(file), strict=True):
        new = written(program, now)
        old = kept(function) if new else []
        assert [name for _, name in old] == [name for _, name in new]
        places = [(old_place, new_place) for (old_place, _), (new_place, _) in zip(old, new)]
        for place, line, column in rows:
            after = [new_place for old_place, new_place in places if begin <= place <= old_place]
            if after and place < end:
                followed.append((after[0], line, column))
    return followed


def read(text):
    """The mappings of a text, each of four fields."""
    rows, last = [], [0, 0, 0, 0]
    for segment in text.split(","):
        value = shift = field = 0
        for digit in map(DIGITS.index, segment):
            value, shift = value | (digit & 31) << shift, shift + 5
            if digit < 32:
                last[field] += -(value >> 1) if value & 1 else value >> 1
                value, shift, field = 0, 0, field + 1
        rows.append((last[0], last[2], last[3]))
    return rows


if len(sys.argv) == 1:
    make()
else:
    with open(f"mapped.{sys.argv[1]}.map", "w") as file:
        file.write(source_map(follow(*sys.argv[1:])))
