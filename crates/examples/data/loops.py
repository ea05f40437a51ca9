#!/usr/bin/env python3
"""Writes loops.wasm, a module with three loops, and loops.wloops.wasm, which is what wloops has to write of it: each loop has a global, and
begins with the four operators that count."""
import os

HERE = os.path.dirname(os.path.realpath(__file__))


def number(value):
    low, high = value & 0x7F, value >> 7
    return bytes([low | 0x80]) + number(high) if high else bytes([low])


def sized(contents):
    return number(len(contents)) + contents


def vector(items):
    return number(len(items)) + b"".join(items)


def section(kind, items):
    return bytes([kind]) + sized(vector(items))


def count(global_index):
    """global.get, i64.const 1, i64.add, global.set"""
    return bytes([0x23, global_index, 0x42, 1, 0x7C, 0x24, global_index])


def get(local):
    return bytes([0x20, local])


def minus_one(local):
    """local.get, i32.const 1, i32.sub, local.tee"""
    return get(local) + b"\x41\1\x6b\x22" + bytes([local])


LOOP, BRANCH_BACK, END, ADD = b"\3\x40", b"\x0d\0", b"\x0b", b"\x6a"


def triangle(counts):
    """n + (n - 1) + .. + 1, in one loop of n turns; n is at least 1"""
    add = get(1) + get(0) + ADD + b"\x21\1"
    return b"\1\1\x7f" + LOOP + counts[0] + add + minus_one(0) + BRANCH_BACK + END + get(1) + END


def product(counts):
    """m * n, in a loop of m turns, and in it one of n turns; both are at least 1"""
    restart = get(1) + b"\x21\2"
    one_more = get(3) + b"\x41\1\x6a\x21\3"
    inner = LOOP + counts[2] + one_more + minus_one(2) + BRANCH_BACK + END
    return b"\1\2\x7f" + LOOP + counts[1] + restart + inner + minus_one(0) + BRANCH_BACK + END + get(3) + END


def module(counts, new_globals, new_exports):
    constant = b"\x7f\0\x41\7\x0b"
    counter = b"\x7e\1\x42\0\x0b"
    exports = [sized(b"triangle") + b"\0\0", sized(b"product") + b"\0\1", sized(b"seven") + b"\3\0"]
    exports += [sized(b"loop_%d" % it) + bytes([3, 1 + it]) for it in range(new_exports)]
    return b"\0asm\1\0\0\0" + b"".join([
        section(1, [b"\x60\1\x7f\1\x7f", b"\x60\2\x7f\x7f\1\x7f"]),
        section(3, [b"\0", b"\1"]),
        section(6, [constant] + [counter] * new_globals),
        section(7, exports),
        section(10, [sized(triangle(counts)), sized(product(counts))]),
    ])


with open(f"{HERE}/loops.wasm", "wb") as file:
    file.write(module([b""] * 3, 0, 0))
with open(f"{HERE}/loops.wloops.wasm", "wb") as file:
    file.write(module([count(1), count(2), count(3)], 3, 3))
