"""Which functions wsnip takes out, and what wsnip and wcount write; what becomes of debug information; and what the scripts at
the top run."""
import os
import shutil
import subprocess

from module_rows import FOLLOWED
from modules import DEBUG, DEBUG_WRITTEN, GOOD, GOOD_WRITTEN, NAMED, NOP, TRAP, custom, exports, module, names, section, sized, vector
from runs import DATA, PROGRAMS, TOGETHER, TOP, case, holds, same, stored

IMPORT = section(2, vector([sized(b"m") + sized(b"f") + b"\0\0"]))
SECOND_SNIPPED = module([b"", TRAP, b""], exported=exports([(b"out", 2)]), after=names([(0, b"first"), (1, b"second")]))
THIRD_SNIPPED = module([b"", b"", TRAP], exported=exports([(b"out", 2)]), after=names([(0, b"first"), (1, b"second")]))


@case("what a program adds isn't the source's: a body that names it is refused")
def _(room):
    # `global.get 0, drop` in a module without globals
    room.put("in", module([b"\x23\0\x1a"]))
    for program, more in (("wrewrite", []), ("wsnip", ["0"]), ("wcount", [])):
        room.refuses(program, "in", "out", *more, says="in: 0x17: function 0: index `0` is out of bounds for globals (OutOfRange)")


@case("wsnip by index, by name, by export")
def _(room):
    room.put("in", NAMED)
    for word, want in (("1", SECOND_SNIPPED), ("second", SECOND_SNIPPED), ("2", THIRD_SNIPPED), ("out", THIRD_SNIPPED)):
        room.works("wsnip", "in", "out", word)
        same(want, room.get("out"), word)
    room.works("wsnip", "in", "out", "first", "1", "out", "0")
    same(room.works("wsnip", "in", "-", "0", "1", "2"), room.get("out"))


@case("wsnip of what isn't there, or has no body")
def _(room):
    room.put("in", module([NOP], imported=IMPORT, after=names([(0, b"f"), (1, b"g")])))
    for word in ("2", "h"):
        room.wrong_use("wsnip", "in", "out", word, says=f"the module has no function '{word}'")
    for word in ("0", "f"):
        room.wrong_use("wsnip", "in", "out", word, says=f"function '{word}' is imported, so that it has no body")
    same(["in"], room.files())


@case("wsnip by a name that two functions have")
def _(room):
    room.put("in", module([NOP, NOP], after=names([(0, b"f"), (1, b"f")])))
    room.wrong_use("wsnip", "in", "out", "f", says="functions 0 and 1 are both named 'f': give an index")


@case("--map with wsnip and wcount")
def _(room):
    room.put("in", module([NOP, b"\x41\1\x1a"]))
    room.works("wsnip", "--map", "map", "in", "out", "0")
    same(b"1c 1c\n1e 1e\n1f 1f\n", room.get("map"))
    room.works("wcount", "--map", "map", "in", "out")
    lines = [line.split() for line in room.get("map").decode().splitlines()]
    same(["19", "1c", "1e", "1f"], [old for old, _ in lines])


@case("warnings say what is wrong and what helps")
def _(room):
    room.put("in", GOOD + DEBUG)
    status, _, err = room.run("wrewrite", "in", "out")
    same(0, status)
    want = (
        "wrewrite: warning: debug information is out of date (.debug_line), since it can't follow the code (.debug_line: the section ends inside a value): use --strip-debug\n"
        "wrewrite: warning: source map is out of date: use --source-map or --strip-debug\n"
    )
    same(want, err)
    # debug information that isn't moved is written after the other sections, as it was
    same(GOOD_WRITTEN + DEBUG_WRITTEN, room.get("out"))


@case("--strip-debug leaves out debug information, and no other section")
def _(room):
    after = names([(0, b"f")])
    room.put("in", GOOD + DEBUG + after + custom(b"external_debug_info", b"\1u"))
    for program, more in (("wrewrite", []), ("wsnip", ["0"]), ("wcount", [])):
        room.works(program, "--strip-debug", "in", "out", *more)
        out = room.get("out")
        for name in (b".debug_line", b".debug_str", b"sourceMappingURL", b"external_debug_info"):
            assert name not in out, name
        holds(custom(b"other", b"o") + after, out)
    room.works("wrewrite", "--strip-debug", "in", "out")
    same(GOOD_WRITTEN + custom(b"other", b"o") + after, room.get("out"))


# Modules as their preamble and their sections in hexadecimal, with spaces between them.
#
# The function `fib`, which calls itself twice: local.get 0, i32.const 2, i32.lt_u, if (result i32), local.get 0, else, local.get 0,
# i32.const 1, i32.sub, call 0, and so on.
FIB = (
    "0061736d01000000 01060160017f017f 03020100 07070103666962 0000 "
    "0a1e011c 00 2000410249047f2000052000 41016b100020004102 6b10006a0b0b"
)

# The same after counting is added: its first operators are global.get 0, i64.const 1, i64.add, global.set 0.
FIB_COUNTED = (
    "0061736d01000000 01060160017f017f 03020100 0606017e0142000b "
    "070f02036669620000 0563616c6c730300 "
    "0a250123 00 230042017c2400 2000410249047f200005200041016b1000200041026b10006a0b0b"
)

# The module FOLLOWED after counting is added to its two functions. The block after `unreachable` is dropped, and so are its name and the hint in
# it; the i32 is declared before the i64, so that a and b change places; the f32 isn't declared.
FOLLOWED_COUNTED = (
    "0061736d01000000 01090260017f017f600000 020701016d01660001 0303020001 0606017e0142000b "
    "070d0201670001 0563616c6c730300 "
    "0026196d657461646174612e636f64652e6272616e63685f68696e740101031001011401001b0101 "
    "0a3602 2502017f017e 230042017c2400 024020000d0020000440000b0b20000440420121020b20010b "
    "0e01017f 230042017c2400 20001a0b "
    "004f046e616d650004036d6f64010a0300016601016702016802180300010003696d7001030001700101620201"
    "610201000179031601010300056f757465720104636f6e6402046c617374040401010176 "
    "001710736f757263654d617070696e6755524c05782e6d6170"
)

# The same without the body of its function 1, so without that function's hints and names of labels and locals, except the name of the
# parameter.
FOLLOWED_SNIPPED = (
    "0061736d01000000 01090260017f017f600000 020701016d01660001 0303020001 07050101670001 "
    "001b196d657461646174612e636f64652e6272616e63685f68696e7400 "
    "0a0d02 0300000b 0701017f20001a0b "
    "0034046e616d650004036d6f64010a0300016601016702016802120300010003696d70010100017002010001"
    "79030100040401010176 "
    "001710736f757263654d617070696e6755524c05782e6d6170"
)

# What is written of a module: a global and its export are added to their sections, or to new ones, and the global's index is after
# those of all others; each body begins with its increment. A body that is taken out is `unreachable`, and everything about its code is
# dropped; all other bodies are rewritten.
WRITTEN = (
    (("wcount",), FIB, FIB_COUNTED),
    (("wcount",), FOLLOWED, FOLLOWED_COUNTED),
    # Neither a section of globals nor one of exports.
    (
        ("wcount",),
        "0061736d01000000 01090260017f017f600000 020701016d01660001 0303020001 0a0b02040020000b040010000b",
        "0061736d01000000 01090260017f017f600000 020701016d01660001 0303020001 0606017e0142000b 0709010563616c6c730300 "
        "0a1902 0b00 230042017c2400 20000b 0b00 230042017c2400 10000b",
    ),
    # An imported global, and one of the module's own.
    (
        ("wcount",),
        "0061736d01000000 010401600000 020801016d0167037f00 03020100 0606017f00412a0b 07050101780301 080100 0a040102000b",
        "0061736d01000000 010401600000 020801016d0167037f00 03020100 060b027f00412a0b7e0142000b 070d0201780301 0563616c6c730302 "
        "080100 0a0b0109 00 230242017c2402 0b",
    ),
    # No functions.
    (
        ("wcount",),
        "0061736d01000000 0503010001 0005046e616d65",
        "0061736d01000000 0503010001 0606017e0142000b 0709010563616c6c730300 0005046e616d65",
    ),
    (("wcount",), "0061736d01000000", "0061736d01000000 0606017e0142000b 0709010563616c6c730300"),
    (("wsnip", "0"), FIB, "0061736d01000000 01060160017f017f 03020100 070701036669620000 0a05010300000b"),
    (("wsnip", "1"), FOLLOWED, FOLLOWED_SNIPPED),
)


@case("wcount and wsnip write these modules")
def _(room):
    for (program, *more), given, written in WRITTEN:
        room.put("in", bytes.fromhex(given))
        status, out, err = room.run(program, "in", "-", *more)
        same(0, status, given)
        same(bytes.fromhex(written), out, given)
        # this module names a source map
        same(f"{program}: warning: source map is out of date: use --source-map or --strip-debug\n" if given is FOLLOWED else "", err, given)


@case("faults that wcount finds")
def _(room):
    for given, says in (
        (FIB_COUNTED, 'in: 0x25: export "calls": an export has this name already (ExportTaken)'),
        ("0061736d01000000 010401600000 03020100 0a060104000c010b", "in: 0x17: function 0: a label is not open (NoSuchLabel)"),
    ):
        room.put("in", bytes.fromhex(given))
        room.refuses("wcount", "in", "out", says=says)


@case("wsnip and wcount of fib write what is stored")
def _(room):
    same(stored("fib.wsnip.wasm"), room.works("wsnip", f"{DATA}/fib.wasm", "-", "0"))
    same(stored("fib.wcount.wasm"), room.works("wcount", f"{DATA}/fib.wasm", "-"))


@case("what is written is taken again, and stays")
def _(room):
    sample = f"{DATA}/sample.wasm"
    room.works("wrewrite", sample, "once")
    room.works("wrewrite", "once", "twice")
    same(room.get("once"), room.get("twice"))
    assert len(room.get("once")) < os.path.getsize(sample)


def marked_tree(folder):
    """A copy of the repository, in which the program of this test is known as the proved one."""
    top, program = f"{folder}/top", f"crates/{TOGETHER}/out/{TOGETHER}"
    shutil.copytree(TOP, top, ignore=shutil.ignore_patterns("out", "out-quick", ".git"))
    os.makedirs(os.path.dirname(f"{top}/{program}"))
    shutil.copy(f"{TOP}/{program}", f"{top}/{program}")
    script = f"{top}/dev/run-program"
    sources = subprocess.run([script, "--sources", TOGETHER], capture_output=True, check=True, text=True).stdout.strip()
    subprocess.run([script, "--mark", TOGETHER, f"{top}/{program}", sources], check=True)
    return top


@case("the scripts at the top run the built programs for help and wrong words, and build nothing")
def _(room):
    top = marked_tree(room.folder)
    for program in PROGRAMS:
        for words in (["--help"], ["--version"], [], ["--mpa", "a", "b"], ["a"], [b"\xff", "b"]):
            script = subprocess.run([f"{top}/{program}", *words], cwd=room.folder, stdin=subprocess.DEVNULL, capture_output=True, timeout=60)
            status, out, err = room.run(program, *words)
            same((status, out, err), (script.returncode, script.stdout, script.stderr.decode()))
