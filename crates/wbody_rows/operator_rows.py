"""Prints a case of `wbody` for each operator: a body that holds it and is written unchanged, but for
`nop`, which is dropped.

    python3 operator_rows.py operators.tsv >> stdin

The argument lists all operators: first byte, number after a prefix, name and immediates, with a tab
between them, and a line of headings first.
"""
import sys


def unsigned(number):
    """The shortest spelling in LEB128, as hexadecimal text."""
    text = ""
    while number > 127:
        text += f"{number % 128 + 128:02x}"
        number //= 128
    return text + f"{number:02x}"


# One of each immediate: indices that the demo module has, and labels and depths of the outermost
# sequence.
IMMEDIATES = {
    "block": "40", "clauses": "01010100", "label": "00", "labels": "010000",
    "rethrow_depth": "00", "delegate_depth": "00", "type": "02", "func": "01", "table": "00",
    "memory": "00", "global": "00", "element": "00", "data": "00", "tag": "01", "local": "01",
    "u32": "8001", "valtype": "016470", "heap": "6f", "cast": "03006e6c", "fence": "00",
    "memarg": "028001", "lane": "0f", "lanes": "".join(f"{lane:02x}" for lane in range(16, 32)),
    "s32": "ff7e", "s64": "808080807e", "f32": "0000c0ff", "f64": "000000000000f87f",
    "v128": "".join(f"{byte:02x}" for byte in range(240, 256)),
}

# What is before and after the operators of constructs.
AROUND = {
    "block": ("", "0b"), "loop": ("", "0b"), "if": ("", "0b"), "else": ("0440", "000b"),
    "try": ("", "190b"), "catch": ("0640", "0b"), "catch_all": ("0640", "0b"),
    "rethrow": ("064019", "0b"), "delegate": ("0640", ""), "try_table": ("", "0b"),
}

for line in open(sys.argv[1]).read().splitlines()[1:]:
    first, number, name, immediates = line.split("\t")[:4]
    operator = first + (unsigned(int(number)) if number else "")
    operator += "".join(IMMEDIATES[kind] for kind in immediates.split())
    before, after = AROUND.get(name, ("", ""))
    body = before + operator + after + ("" if name == "end" else "0b")
    print(f"rewrite {body}\t0\t{'0b' if name == 'nop' else body}\t")
