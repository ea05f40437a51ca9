"""Modules whose sections of DWARF are damaged: cut off, or with other bytes. Of such a module all sections are carried over with a warning, or
all are moved, and then say what they said."""
import random
import tempfile
from dataclasses import dataclass

from judge import judged
from moves import Moves
from trials import OUT_OF_DATE, contents, put, report, text
from wasm import debug_sections, with_debug

CARRIED, MOVED, UNREAD, WRONG = "carried over", "moved", "not to be judged", "wrong"


@dataclass
class Damage:
    """What is done to a section of a module: it ends here, or has these bytes here."""

    module: str
    section: str
    at: int
    # None where the section is cut off
    other: bytes = None

    def apply(self, data):
        section = dict(debug_sections(data))[self.section]
        changed = section[: self.at] + (self.other + section[self.at + len(self.other) :] if self.other is not None else b"")
        return with_debug(data, {self.section: changed})

    def __str__(self):
        done = "cut off" if self.other is None else f"{self.other.hex()} written"
        return f"{self.module.rsplit('/')[-1]}: {self.section} {done} at {self.at:#x}"


def cuts(modules):
    """Each place at which a section may be cut off."""
    return [Damage(path, name, at) for path in modules for name, section in debug_sections(contents(path)) for at in range(len(section))]


def changes(places, count, seed):
    """Random bytes in random places: one that is a little more or less, or some of any value."""
    chance = random.Random(seed)
    found = []
    for _ in range(count):
        it = chance.choice(places)
        old = dict(debug_sections(contents(it.module)))[it.section][it.at]
        if chance.random() < 0.5:
            other = bytes([(old + chance.choice([1, -1, 128])) % 256])
        else:
            other = chance.randbytes(chance.choice([1, 1, 1, 2, 4]))
        found.append(Damage(it.module, it.section, it.at, other))
    return found


def damages(modules, count, seed):
    """So many damages: half of them are cuts, evenly over all places, and the others changes."""
    places = cuts(modules)
    number = min(count // 2, len(places))
    spread = [places[index * len(places) // number] for index in range(number)] if number else []
    return spread + changes(places, count - number, seed)


def tried(program, damage):
    """How the program deals with a damaged module, and what is wrong."""
    with tempfile.TemporaryDirectory() as folder:
        module = put(f"{folder}/in.wasm", damage.apply(contents(damage.module)))
        status, said, out, map_path = program.run("wrewrite", module, folder)
        if status:
            return WRONG, f"{damage}: status {status}: {said.strip()}"
        moves = Moves(contents(module), contents(out), text(map_path))
        is_same = debug_sections(contents(module)) == debug_sections(contents(out))
        if is_same and (OUT_OF_DATE in said or moves.is_still()):
            return CARRIED, ""
        found, old = judged(program.dwarfdump, moves, module, out)
        if OUT_OF_DATE in said:
            found.add("warnings", said.strip())
        if not found.any():
            return MOVED, ""
        # other abbreviations make other entries of the same bytes: what is an address or a list then isn't what it was
        if old.status or old.said or damage.section == ".debug_abbrev":
            return UNREAD, f"{damage}: {report(found)}"
        return WRONG, f"{damage}: {report(found)}"
