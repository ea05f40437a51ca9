"""Writes and reads the mappings of source maps, and has those of the module GOOD."""

DIGITS = "ABCDEFGHIJKLMNOPQRSTUVWXYZabcdefghijklmnopqrstuvwxyz0123456789+/"


def vlq(value):
    """A number in base64 VLQ (ECMA-426)."""
    left, text = (-value << 1 | 1) if value < 0 else value << 1, ""
    while True:
        left, low = left >> 5, left & 31
        text += DIGITS[low | 32 if left else low]
        if not left:
            return text


def mappings(rows):
    """The text of mappings, each of one, four or five fields."""
    last, segments = [0] * 5, []
    for row in rows:
        segments.append("".join(vlq(field - before) for field, before in zip(row, last)))
        last[: len(row)] = row
    return ",".join(segments)


def rows_of(text):
    """The mappings of a text, with each field as it is."""
    last, rows = [0] * 5, []
    for segment in filter(None, text.split(",")):
        fields, shift, left = [], 0, 0
        for digit in map(DIGITS.index, segment):
            left, shift = left | (digit & 31) << shift, shift + 5
            if digit < 32:
                fields.append(-(left >> 1) if left & 1 else left >> 1)
                shift = left = 0
        row = [field + before for field, before in zip(fields, last)]
        last[: len(row)] = row
        rows.append(row)
    return rows


def source_map(text, before=b"", after=b""):
    return b'{"version":3,' + before + b'"sources":["a.c"],"names":["f"],"mappings":"' + text.encode() + b'"' + after + b"}"


# GOOD has its body at 0x16, `nop` at 0x17 and `end` at 0x18; what is written has `end` at 0x17.
GOOD_ROWS = [[0x15, 0, 9, 9], [0x16, 0, 0, 0], [0x17, 0, 1, 2], [0x18, 0, 2, 0, 0], [0x19]]
GOOD_MOVED = "uBAAA,AACE,AACFA"
