"""How much the comparison notices: of what a program wrote a byte of a section of DWARF is changed, and the comparison has to find it."""
import random
import tempfile

from damage import Damage
from judge import judged
from moves import Moves
from trials import contents, put, text
from wasm import debug_sections


def changes(modules, count, seed):
    """So many changes of a byte, by the place in a section, as a fraction, since its size isn't known before the module is written."""
    chance = random.Random(seed)
    return [(chance.choice(modules), chance.random(), chance.choice([1, 255, 128, chance.randrange(1, 256)])) for _ in range(count)]


def unnoticed(program, change):
    """The change, if it isn't noticed, or ''. One of a byte that nothing reads, as between two tables, can't be."""
    module, fraction, more = change
    with tempfile.TemporaryDirectory() as folder:
        status, said, out, map_path = program.run("wrewrite", module, folder)
        if status:
            return f"{module}: status {status}: {said.strip()}"
        sections = debug_sections(contents(out))
        at = int(fraction * sum(len(it) for _, it in sections))
        for name, section in sections:
            if at < len(section):
                break
            at -= len(section)
        it = Damage(module, name, at, bytes([(section[at] + more) % 256]))
        changed = put(f"{folder}/changed.wasm", it.apply(contents(out)))
        found, _ = judged(program.dwarfdump, Moves(contents(module), contents(out), text(map_path)), module, changed)
        return "" if found.any() else str(it)
