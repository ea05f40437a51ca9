"""Compares the tables of `.debug_line`: their headers, the rows of each sequence, and the row that each operator has that is written."""
import bisect


def judge(judge):
    old, new = judge.old.lines.tables, judge.new.lines.tables
    judge.found.same("lines", len(old), len(new), "how many tables")
    for before, after in zip(old, new):
        where = f".debug_line {before.offset:#x}"
        judge.found.same("lines", before.header, after.header, f"{where}: the header")
        judge.found.same("lines", len(before.sequences), len(after.sequences), f"{where}: how many sequences")
        for number, (it, other) in enumerate(zip(before.sequences, after.sequences)):
            judge_sequence(judge, it, other, f"{where} sequence {number}")


def judge_sequence(judge, old, new, where):
    """A sequence stays if its first address is of no body."""
    first = old.first()
    if first is None or judge.moves.body_at(first) is None:
        judge.found.same("lines", old.data(), new.data(), f"{where}, of no body")
        judge.found.same("lines", old.rows, new.rows, f"{where}, of no body")
        return
    judge.found.same("lines", old.unknown(), new.unknown(), f"{where}: operations that aren't known")
    # after code that isn't there no rows are printed up to the next address that is set
    if not old.rows:
        return
    if judge.found.same("rows", [it.rest for it in old.rows], [it.rest for it in new.rows], f"{where}: all but addresses"):
        for it, other in zip(old.rows, new.rows):
            judge.goes("rows", it.address, other.address, where)
    judge_operators(judge, old, new, where)


def judge_operators(judge, old, new, where):
    """Each operator that is written has the row that it had, where rows ascend. One of no body stays, so it may then be out of order."""
    addresses = [it.address for it in old.rows]
    if addresses != sorted(addresses) or any(judge.moves.body_at(it) is None for it in addresses):
        return
    begin, end = old.rows[0].address, old.rows[-1].address
    for body in judge.moves.bodies[bisect.bisect_right(judge.moves.begins, begin) - 1 :]:
        if body.begin >= end:
            return
        for operator in body.kept:
            row = old.row_at(operator.old) if operator.old < end else None
            other = new.row_at(operator.new)
            if row and not (other and other.rest == row.rest):
                judge.found.add("operators", f"{where}: {operator.old:#x} has the row {row.rest}, and {operator.new:#x} {other and other.rest}")
