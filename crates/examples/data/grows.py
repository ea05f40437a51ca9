#!/usr/bin/env python3
"""Writes grows.wasm, a module whose functions grow its memory, and grows.wgrow.wasm, which is what wgrow has to write of it: the module
imports a function, which comes before all others, and calls it before each `memory.grow`."""
import os

HERE = os.path.dirname(os.path.realpath(__file__))


def sized(contents):
    return bytes([len(contents)]) + contents


def section(kind, items):
    return bytes([kind]) + sized(bytes([len(items)]) + b"".join(items))


GET, GROW, END = b"\x20\0", b"\x40\0", b"\x0b"


def grow(call):
    """local.get 0, memory.grow"""
    return b"\0" + GET + call + GROW + END


def twice(call):
    """by one page where the operand isn't 0; then by so many pages as it says: the sum of the old sizes"""
    choice = b"\x04\x7f\x41\1" + call + GROW + b"\5\x3f\0" + END
    return b"\0" + GET + choice + GET + call + GROW + b"\x6a" + END


def module(call, types, imports):
    first = len(imports)
    exports = [sized(b"memory") + b"\2\0", sized(b"grow") + bytes([0, first]), sized(b"twice") + bytes([0, first + 1])]
    return b"\0asm\1\0\0\0" + b"".join([
        section(1, [b"\x60\1\x7f\1\x7f", *types]),
        section(2, imports) if imports else b"",
        section(3, [b"\0", b"\0"]),
        section(5, [b"\0\1"]),
        section(7, exports),
        section(10, [sized(grow(call)), sized(twice(call))]),
    ])


with open(f"{HERE}/grows.wasm", "wb") as file:
    file.write(module(b"", [], []))
with open(f"{HERE}/grows.wgrow.wasm", "wb") as file:
    file.write(module(b"\x10\0", [b"\x60\0\0"], [sized(b"host") + sized(b"grow") + b"\0\1"]))
