#!/usr/bin/env python3
"""Writes calls.wasm, a module that names its functions in each section, and ../stdout, which is what wtrace has to write of it: a type
and an import more, each index of a function with a body one greater, and a call at the front of each body."""
import os

HERE = os.path.dirname(os.path.realpath(__file__))


def number(value):
    low, high = value & 0x7F, value >> 7
    return bytes([low | 0x80]) + number(high) if high else bytes([low])


def sized(contents):
    return number(len(contents)) + contents


def vector(items):
    return number(len(items)) + b"".join(items)


def section(kind, items):
    return bytes([kind]) + sized(vector(items))


def get(local):
    return bytes([0x20, local])


def const(value):
    assert value < 64
    return bytes([0x41, value])


SUB, MUL, ELSE, END = b"\x6b", b"\x6c", b"\5", b"\x0b"


def module(is_traced):
    """With a call of the imported function 1 at the front of each body, or as it is."""

    def call(function):
        return b"\x10" + index(function)

    def index(function):
        """Only the function 0 is imported."""
        return bytes([function + 1 if is_traced and function > 0 else function])

    def body(function, operators):
        return sized(b"\0" + (const(function) + b"\x10\1" if is_traced else b"") + operators + END)

    # n! by calls of itself
    factorial = get(0) + b"\x04\x7f" + get(0) + get(0) + const(1) + SUB + call(1) + MUL + ELSE + const(1) + END
    # twice what the table's first function makes of n
    doubled = get(0) + const(0) + b"\x11\0\0" + const(2) + MUL
    act, trace = b"\x60\0\0", b"\x60\1\x7f\0"
    tick = sized(b"m") + sized(b"tick") + b"\0\1"
    traced = [sized(b"host") + sized(b"trace") + b"\0\2"]
    return b"\0asm\1\0\0\0" + b"".join([
        section(1, [b"\x60\1\x7f\1\x7f", act] + [trace] * is_traced),
        section(2, [tick] + traced * is_traced),
        section(3, [b"\0", b"\0", b"\1"]),
        section(4, [b"\x70\0\1"]),
        section(6, [b"\x70\0\xd2" + index(2) + END]),
        section(7, [sized(b"factorial") + b"\0" + index(1), sized(b"doubled") + b"\0" + index(2), sized(b"tick") + b"\0" + index(0)]),
        b"\x08\1" + index(3),
        section(9, [b"\0" + const(0) + END + vector([index(1)])]),
        section(10, [body(1, factorial), body(2, doubled), body(3, call(0))]),
    ])


with open(f"{HERE}/calls.wasm", "wb") as file:
    file.write(module(False))
with open(f"{HERE}/../stdout", "wb") as file:
    file.write(module(True))
