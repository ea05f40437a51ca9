"""Parts of files that are written from the definitions, and how their rows are put together."""
import re
import textwrap
from dataclasses import dataclass
from typing import Callable

WIDTH = 100  # of the formatter


class Missing(Exception):
    """What can't be written, since the line or the definition that it needs isn't there."""


@dataclass
class Found:
    """A part in the lines of its file: `lines[begin:end]`. `head` is from the first pattern's line up to it."""
    begin: int
    end: int
    head: str
    old: list


@dataclass(frozen=True)
class Part:
    """The lines of a file after a line for each pattern of `start`, found one after the other, and before the next line for `end`, or
    all that follow if it is empty."""
    path: str
    start: tuple
    end: str
    rows: Callable  # from the definitions and what was found to the lines

    def find(self, lines):
        begin, first = 0, 0
        for number, pattern in enumerate(self.start):
            begin = self.line_after(lines, begin, pattern)
            first = first if number else begin - 1
        end = self.line_after(lines, begin, self.end) - 1 if self.end else len(lines)
        return Found(begin, end, "\n".join(lines[first:begin]), lines[begin:end])

    def line_after(self, lines, begin, pattern):
        for number in range(begin, len(lines)):
            if re.search(pattern, lines[number]):
                return number + 1
        raise Missing(f"{self.path}: no line matches {pattern}")


def written(part, definitions, lines):
    """The lines of a file with this part written."""
    found = part.find(lines)
    return lines[:found.begin] + part.rows(definitions, found) + lines[found.end:]


def split_rows(lines):
    """The rows of a list: each has the comments before it, and ends before the next line of its indent that begins a row."""
    rows, is_begun = [], False
    indent = min((len(x) - len(x.lstrip()) for x in lines if x.strip()), default=0)
    for line in lines:
        text = line[indent:]
        is_more = line[:indent].strip() or text[:1] in (" ", "}", ")", "|")
        if rows and (is_more or not is_begun):
            rows[-1].append(line)
        else:
            rows.append([line])
        is_begun = is_begun if is_more else not text.startswith("///")
    return rows


def code_of(row):
    """A row without the comment before it."""
    return [line for line in row if not line.lstrip().startswith("///")]


def merged(old, new, known, key, keeps_comments=False):
    """A list in the order that it has, with each row that `new` has written anew. Rows that are known but not in `new`, or in whose
    code `key` finds no name, are by hand, and all others are left out. A new row comes after the one that is before it in `new`."""
    result = {}
    for row in split_rows(old):
        found = re.match(key, " ".join(line.strip() for line in code_of(row)))
        name = found[1] if found else len(result)
        if name in new:
            words = [line for line in row if line not in code_of(row)] if keeps_comments else []
            result[name] = words + code_of(new[name]) if words else new[name]
        elif not found or name in known:
            result[name] = row
    names = list(result)
    before = None
    for name in new:
        if name not in result:
            names.insert(names.index(before) + 1 if before else 0, name)
        before = name
    return [line for name in names for line in (result.get(name) or new[name])]


def wrapped(before, names, after):
    """A list of names within braces, as the formatter puts it: on one line, or on more of this width."""
    line = before + ", ".join(names) + after
    if len(line) <= WIDTH:
        return [line]
    # the last column of a line within stays free
    return [before, *textwrap.wrap(", ".join(names) + ",", WIDTH - 1, initial_indent="    ", subsequent_indent="    "), after]
