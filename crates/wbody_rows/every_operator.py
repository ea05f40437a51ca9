"""Prints the bodies of `OPERATOR_BODIES` of `tests/programs/module_rows.py`, one for each operator:

    python3 operator_rows.py operators.tsv | python3 every_operator.py

A body is its declarations, of no locals, and the operators of the row.
"""
import sys

line = ""
for row in sys.stdin:
    body = "00" + row.split("\t")[0].removeprefix("rewrite ") + " "
    if len(line) + len(body) > 130:
        print(f'    "{line}"')
        line = ""
    line += body
print(f'    "{line.rstrip()}"')
