"""Whether the debug information of a module that was written says of its code what that of the source said, as `llvm-dwarfdump` reads both:
each entry, address, list, row and reference, compared by where the location map says that operators went."""
import judge_entries
import judge_lines
import judge_lists
import judge_tables
from differences import Differences
from dump import Dump, faults_of
from entries import Entries
from lines import Lines
from lists import Lists
from tables import AddressTables
from wasm import debug_sections

LISTS = (".debug_ranges", ".debug_loc", ".debug_rnglists", ".debug_loclists")
# what nothing in the code is named by
CARRIED = (".debug_abbrev", ".debug_str", ".debug_line_str", ".debug_str_offsets", ".debug_macinfo")


class Read:
    """What is printed of a module, taken apart, and the bytes of its sections."""

    def __init__(self, tool, path):
        self.dump = Dump(tool, path)
        with open(path, "rb") as file:
            self.sections = debug_sections(file.read())
        self.bytes = dict(self.sections)
        self.info = Entries(self.dump.lines(".debug_info"))
        self.types = Entries(self.dump.lines(".debug_types"))
        self.lines = Lines(self.dump.lines(".debug_line"), self.bytes.get(".debug_line", b""))
        self.lists = {name: Lists(name, self.dump.lines(name)) for name in LISTS}
        self.addresses = AddressTables(self.dump.lines(".debug_addr"))


class Judge:
    """The comparison of two modules."""

    def __init__(self, moves, old, new):
        self.moves, self.old, self.new, self.found = moves, old, new, Differences()
        # the indices of `.debug_addr` that are of code, each with the base of its table
        self.used_as_code = set()
        # the lists that entries name
        self.uses = []

    def goes(self, kind, address, new, where):
        """Adds a difference unless the address may go where it went."""
        if not self.moves.allows(address, new):
            body = self.moves.body_at(address)
            low, high = body.interval(address) if body else (address, address)
            self.found.add(kind, f"{where}: {address:#x} became {new:#x}, not {low:#x}" + (f" to {high:#x}" if high != low else ""))

    def run(self):
        for name, old, new in ((".debug_info", self.old.info, self.new.info), (".debug_types", self.old.types, self.new.types)):
            judge_entries.judge(self, old, new)
            judge_entries.judge_ends(self, name, old, new)
        judge_lists.judge(self)
        judge_lines.judge(self)
        judge_tables.judge(self)
        return self.found


def judged(tool, moves, old_path, new_path):
    """The differences between the module at one path and that at the other, and what was said of the first when it was read."""
    old, new = (Read(tool, path) for path in (old_path, new_path))
    found = Judge(moves, old, new).run()
    found.same("sections", [name for name, _ in old.sections], [name for name, _ in new.sections])
    for (name, before), (_, after) in zip(old.sections, new.sections):
        if name in CARRIED and before != after:
            found.add("bytes", f"{name} isn't the same")
    found.same("messages", sorted(old.dump.said), sorted(new.dump.said))
    found.same("messages", old.dump.status, new.dump.status, "status")
    return found, old.dump


def judge_faults(tool, found, old_path, new_path):
    """Adds to the differences where `llvm-dwarfdump --verify` finds more errors of a kind than before."""
    before, after = faults_of(tool, old_path), faults_of(tool, new_path)
    for kind, count in after.items():
        if count > before.get(kind, 0):
            found.add("verify", f"{kind} {before.get(kind, 0)} became {count}")
