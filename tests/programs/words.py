"""Words in any order: which files are read and written, and what is done."""
import os
import re

from modules import DEBUG, GOOD, GOOD_MAP, GOOD_WRITTEN, NOP, TRAP, custom, module, names, sized
from runs import Room, case, same
from source_map_texts import GOOD_MOVED, GOOD_ROWS, mappings, source_map

GOOD_SOURCE_MAP, MOVED_SOURCE_MAP = source_map(mappings(GOOD_ROWS)), source_map(GOOD_MOVED)
MAIN, DASHED = names([(2, b"main")]), names([(0, b"-3")])

# Words, the files that are there, those that are written, and a pattern of what standard error gets.
REQUESTS = (
    ("wrewrite a --map m b", {"a": GOOD}, {"b": GOOD_WRITTEN, "m": GOOD_MAP}, ""),
    ("wrewrite --map -v a b", {"a": GOOD}, {"b": GOOD_WRITTEN, "-v": GOOD_MAP}, ""),
    ("wrewrite -- -v --map", {"-v": GOOD}, {"--map": GOOD_WRITTEN}, ""),
    (
        "wrewrite -v --strip-debug a b",
        {"a": GOOD + DEBUG},
        {"b": GOOD_WRITTEN + custom(b"other", b"o")},
        r"wrewrite: 1 function, 84 bytes read, 33 written \(-60\.7%\), \d+ ms\n",
    ),
    (
        "wrewrite --source-map i --output-source-map=o a b",
        {"a": GOOD, "i": GOOD_SOURCE_MAP},
        {"b": GOOD_WRITTEN, "o": MOVED_SOURCE_MAP},
        "",
    ),
    (
        "wrewrite a --source-map-url u --output-source-map o b --source-map i --map m",
        {"a": GOOD, "i": GOOD_SOURCE_MAP},
        {"b": GOOD_WRITTEN + custom(b"sourceMappingURL", sized(b"u")), "o": MOVED_SOURCE_MAP, "m": GOOD_MAP},
        "",
    ),
    ("wsnip a b 1 main", {"a": module([NOP] * 3, after=MAIN)}, {"b": module([b"", TRAP, TRAP], after=MAIN)}, ""),
    # The ends of the second and the fourth body are the operators that are kept: the first `nop` is at 0x1a.
    (
        "wsnip a 1 --map m 2 -- -3",
        {"a": module([NOP] * 4, after=DASHED)},
        {"1": module([TRAP, b"", TRAP, b""], after=DASHED), "m": b"1f 1e\n27 25\n"},
        "",
    ),
)


@case("words in any order: which files are read and written, and what is done")
def _(room):
    for place, (line, given, written, says) in enumerate(REQUESTS):
        os.mkdir(room.path(str(place)))
        alone = Room(f"{room.folder}/{place}", room.programs)
        for name, contents in given.items():
            alone.put(name, contents)
        program, *words = line.split()
        status, out, err = alone.run(program, *words)
        same((0, b""), (status, out), f"{line}: {err}")
        assert re.fullmatch(says, err), f"{line}: {err}"
        same({**given, **written}, {name: alone.get(name) for name in alone.files()}, line)
