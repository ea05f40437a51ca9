"""What is said of a fault, on one line: the file, the place, the function or the export, the fault's text, and its name."""
import os
import re

from modules import BAD_CALL, BAD_LABEL, GOOD, NOP, PREAMBLE, REFUSED, TYPES, custom, exports, module, names, section, vector
from runs import PROGRAMS, TOGETHER, TOP, case, holds, same


@case("a body's fault: file, place, function, text, name")
def _(room):
    room.put("in.wasm", module([NOP, BAD_CALL], after=names([(1, b"main")])))
    room.refuses("wrewrite", "in.wasm", "out", says='in.wasm: 0x1c: function 1 "main": index `9` is out of bounds for funcs (OutOfRange)')


@case("a function without a name")
def _(room):
    room.put("in", module([BAD_CALL]))
    room.refuses("wrewrite", "in", "out", says="in: 0x17: function 0: index `9` is out of bounds for funcs (OutOfRange)")


@case("a function that is exported, and has no other name")
def _(room):
    room.put("in", module([BAD_LABEL], exported=exports([(b"run", 0)])))
    room.refuses("wcount", "in", "out", says='in: 0x20: function 0 "run": a label is not open (NoSuchLabel)')


@case("a section's fault")
def _(room):
    room.put("in", PREAMBLE + TYPES + section(3, vector([b"\5"])))
    for program, more in (("wrewrite", []), ("wsnip", ["0"]), ("wcount", [])):
        room.refuses(program, "in", "out", *more, says="in: 0x11: index `5` is out of bounds for types (IndexOutOfRange)")


@case("a file that is no module, and an empty one")
def _(room):
    room.put("in", b"hello, world")
    room.refuses("wrewrite", "in", "out", says="in: 0x0: this is no WebAssembly module (BadMagic)")
    room.put("in", b"")
    room.refuses("wrewrite", "in", "out", says="in: 0x0: the file is empty (Truncated)")
    # three of the first four bytes
    room.put("in", b"\0as")
    room.refuses("wrewrite", "in", "out", says="in: 0x0: the bytes end too early (Truncated)")


@case("a component, and the text format")
def _(room):
    room.put("in", b"\0asm\x0d\0\1\0")
    for program, more in (("wrewrite", []), ("wsnip", ["0"]), ("wcount", [])):
        room.refuses(program, "in", "out", *more, says="in: 0x4: this is a component: unbundle it first (BadVersion)")
    for text in (b"(module)", b"\n\t (module)\n", b"(; a ;) (module)", b" ;; a\n(module)", b"("):
        room.put("in", text)
        room.refuses("wrewrite", "in", "out", says=f"in: 0x0: this is the text format: use wat2wasm first ({'BadMagic' if len(text) > 3 else 'Truncated'})")
        room.refuses("wrewrite", "--check", "in", says=f"in: 0x0: this is the text format: use wat2wasm first ({'BadMagic' if len(text) > 3 else 'Truncated'})")
    room.put("in", b"\0asm\2\0\0\0")
    room.refuses("wrewrite", "in", "out", says="in: 0x4: the version is not 1 (BadVersion)")
    room.put("in", b"; (module)")
    room.refuses("wrewrite", "in", "out", says="in: 0x0: this is no WebAssembly module (BadMagic)")


@case("standard input is named")
def _(room):
    room.refuses("wrewrite", "-", "out", says="standard input: 0x0: the file is empty (Truncated)", given=b"")


@case("a file that can't be opened")
def _(room):
    room.refuses("wrewrite", "no", "out", says="no: can't be opened: No such file or directory (os error 2)")


@case("a page that can't be printed is an error as others are")
def _(room):
    for program, word in ((program, word) for program in (*PROGRAMS, TOGETHER) for word in ("--help", "--version")):
        with open("/dev/full", "wb") as full:
            status, _, err = room.run(program, word, stdout=full)
        same((1, f"{program}: standard output: can't be written: No space left on device (os error 28)\n"), (status, err))
    status, _, err = room.run("wrewrite", "--help", preexec_fn=lambda: os.close(1))
    same((1, "wrewrite: standard output: can't be written: Bad file descriptor (os error 9)\n"), (status, err))


@case("--check names all bodies that are refused")
def _(room):
    room.put("in", REFUSED)
    status, out, err = room.run("wrewrite", "--check", "in")
    same((1, ""), (status, err))
    want = (
        'wrewrite: in: 0x1d: function 1 "main": a label is not open (NoSuchLabel)\n'
        'wrewrite: in: 0x22: function 2 "e\\u{1b}[1m": an index is out of bounds for the function\'s locals (LocalOutOfRange)\n'
    )
    same(want, out.decode())
    same(["in"], room.files())


@case("a rewrite names the first")
def _(room):
    room.put("in", REFUSED)
    room.refuses("wrewrite", "in", "out", says='in: 0x1d: function 1 "main": a label is not open (NoSuchLabel)')


@case("--check of a module that is accepted prints nothing")
def _(room):
    room.put("in")
    same(b"", room.works("wrewrite", "--check", "in"))
    same(["in"], room.files())


@case("an export that is taken")
def _(room):
    room.put("in", module([NOP], exported=exports([(b"calls", 0)])))
    room.refuses("wcount", "in", "out", says='in: 0x15: export "calls": an export has this name already (ExportTaken)')
    same(["in"], room.files())


@case("an object file is refused, whatever its relocations are of")
def _(room):
    for name in (b"linking", b"reloc.CODE", b"reloc..debug_info", b"reloc.DATA"):
        room.put("in", GOOD + custom(name, b"\2"))
        for program, more in (("wrewrite", []), ("wsnip", ["0"]), ("wcount", [])):
            room.refuses(program, "in", "out", *more, says="in: 0x19: this is an object file: link it first (ObjectFile)")
        room.refuses("wrewrite", "--strip", "in", "out", says="in: 0x19: this is an object file: link it first (ObjectFile)")
    same(["in"], room.files())


@case("control characters of a section's name are escaped")
def _(room):
    room.put("in", GOOD + custom(b".debug_line\x1b[31m") + custom(b"metadata.code.\x1b[31m\x07", b"\1"))
    status, _, err = room.run("wrewrite", "in", "out")
    same(0, status)
    assert "\x1b" not in err and "\x07" not in err, err
    holds("metadata.code.\\u{1b}[31m\\u{7}", err)


@case("control characters of a path are escaped")
def _(room):
    room.put("nl\nname.wasm", b"hello, world")
    room.refuses("wrewrite", "nl\nname.wasm", "out", says="nl\\nname.wasm: 0x0: this is no WebAssembly module (BadMagic)")
    room.refuses("wrewrite", "no\x1b[31m", "out", says="no\\u{1b}[31m: can't be opened: No such file or directory (os error 2)")
    room.put("in")
    # the second is a control character of two bytes, with which some terminals begin a command
    for path, shown in (("no\x1b[31mdir/x", "no\\u{1b}[31mdir/x"), ("no\x9b31mdir/x", "no\\u{9b}31mdir/x")):
        room.refuses("wrewrite", "in", path, says=f"{shown}: can't be created: No such file or directory (os error 2)")
    room.refuses("wrewrite", "in", "größe/x", says="größe/x: can't be created: No such file or directory (os error 2)")


@case("PROGRAMS.md has each fault with its text")
def _(room):
    with open(f"{TOP}/docs/use/PROGRAMS.md", encoding="utf-8") as file:
        rows = dict(re.findall(r"^\| `(\w+)` \| ([^|]*) \|", file.read(), re.M))
    sources = ("wasm_sections/src/fault.rt", "wasm_body/src/error.rt", "wasm_numbers/src/fault.rt", "source_map/src/fault.rt", "source_map/src/json_text/fault.rt")
    for source in sources:
        with open(f"{TOP}/crates/{source}", encoding="utf-8") as file:
            found = re.findall(r'#\[error\("([^"]*)"[^\]]*\)\]\s*([A-Z]\w*)', file.read())
        assert found, source
        for text, name in found:
            # (a validator's refusal has another name in whole modules; a fault of mappings has its own)
            if name in ("Checked", "Mappings"):
                continue
            assert name in rows, f"no row of {name}"
            if "{" not in text:
                holds(text, rows[name])
