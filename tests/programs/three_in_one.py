"""Three programs are one executable, wtools: the name under which it is started, or else its first word, says which of them it
is. Also its benchmark, wbench, and what wbody_rows says of rows."""
import os
import resource
import shutil
import subprocess

from modules import GOOD_WRITTEN, NAMED, module
from runs import DATA, PROGRAMS, ROWS, TOGETHER, case, holds, same


@case("the first word names the program")
def _(room):
    room.put("in", NAMED)
    for program, more in (("wrewrite", []), ("wsnip", ["second"]), ("wcount", [])):
        for words in (["--help"], ["-V"], [], ["--mpa"], ["no", "out", *more], ["in", "-", *more], [b"\xff"]):
            same(room.run(program, *words), room.run(TOGETHER, program, *words), (program, words))


@case("the name under which it is started names the program: of a link, a copy, a path")
def _(room):
    os.mkdir(room.path("folder"))
    for program in PROGRAMS:
        said = room.works(program, "-V")
        shutil.copy(f"{room.programs}/{TOGETHER}", room.path(f"folder/{program}"))
        for started in (f"folder/{program}", f"./folder/../folder//{program}", room.path(f"folder/{program}")):
            ran = subprocess.run([started, "-V"], cwd=room.folder, stdout=subprocess.PIPE, timeout=60)
            same((0, said), (ran.returncode, ran.stdout), started)
        for started in (program, f"no/folder/{program}", b"\xc3\xa9/" + program.encode()):
            same(said, room.works(TOGETHER, "-V", started=started), started)


@case("under one of the names the first word is a word of that program")
def _(room):
    room.wrong_use("wsnip", "wrewrite", "in", says="no function is given")
    room.put("wrewrite")
    same(GOOD_WRITTEN, room.works("wrewrite", "wrewrite", "-"))


@case("under another name, as one that is longer or has another case, the first word names the program")
def _(room):
    for started in ("wtools", "other", "wsnip2", "a-wsnip", "WSNIP", "wsnip/other", "", "/", "..", b"\xff", "x" * 5000):
        for name in PROGRAMS:
            status, out, _ = room.run(TOGETHER, name, "-V", started=started)
            # an argument that isn't UTF-8 is refused whatever it is
            same((2, b"") if started == b"\xff" else (0, room.works(name, "-V")), (status, out), started)


@case("no program is named, or none that is there")
def _(room):
    room.put("in")
    room.wrong_use(TOGETHER, says="no program is named")
    for word in ("in", "", "wsni", "wsnipp", "Wsnip", "./wsnip", "--map", "wtools", "-"):
        room.wrong_use(TOGETHER, word, "in", "out", says=f"unknown program '{word}'")
    room.wrong_use(TOGETHER, "a\x1bb", says="unknown program 'a\\u{1b}b'")
    room.wrong_use(TOGETHER, b"\xff", says="word 1 isn't UTF-8, which a path has to be")
    same(["in"], room.files())


@case("the help of the one program names them all; its version is theirs")
def _(room):
    out = room.works(TOGETHER, "--help").decode()
    same(out, room.works(TOGETHER, "-h").decode())
    for words in (*PROGRAMS, "wbench", "usage: wtools PROGRAM "):
        holds(words, out)
    for option in ("--version", "-V"):
        same(room.works("wrewrite", option), room.works(TOGETHER, option).replace(b"wtools", b"wrewrite"))


@case("the benchmark adds up, for each pass, the bytes that are written and their pairs")
def _(room):
    with open(f"{DATA}/fib.wasm", "rb") as file:
        room.put("in", file.read())
    # its only body has 28 bytes, none of which changes, and 17 operators
    for words, total in ((["check", "1"], 1), (["check", "3"], 3), (["parse", "1"], 17), (["rewrite", "1"], 28), (["map", "1"], 28 + 17), (["map", "3"], 3 * (28 + 17)), (["map", "0"], 0), (["flat", "1"], 28), (["flatmap", "1"], 28 + 17)):
        same(f"1 bodies, 28 bytes, sum {total}\n".encode(), room.works(TOGETHER, "wbench", *words, "in"))
    for words in ([], ["map", "1"], ["mad", "1", "in"], ["map", "x", "in"], ["map", "1", "in", "more"]):
        status, out, err = room.run(TOGETHER, "wbench", *words)
        same((2, b""), (status, out), err)
    room.put("cut", b"\0asm\1\0\0\0\1")
    status, out, err = room.run(TOGETHER, "wbench", "map", "1", "cut")
    same((1, b"", "wbench: cut: 0x9: the bytes end too early (Truncated)\n"), (status, out, err))
    status, out, err = room.run(TOGETHER, "wbench", "map", "1", "no")
    same((1, b"", "wbench: no: can't be opened: No such file or directory (os error 2)\n"), (status, out, err))


@case("the benchmark names no place, nor the file, where memory runs out")
def _(room):
    # a tree of two million operators takes more memory than this
    room.put("in", module([b"\x41\0\x1a" * 1000000]))
    for megabytes in (32, 64):
        limit = megabytes << 20
        status, out, err = room.run(TOGETHER, "wbench", "rewrite", "1", "in", preexec_fn=lambda: resource.setrlimit(resource.RLIMIT_AS, (limit, limit)))
        same((1, b"", "wbench: out of memory (Memory)\n"), (status, out, err), megabytes)


@case("the rows of wbody_rows: status 1 where one differs")
def _(room):
    row = b"rewrite 010b\t0\t%s\t\n"
    end = b"%d bodies rewritten by their tree and without it, 0 differ\n%d bodies read back, traced and cut short, 0 differ\n"
    same(b"2 rows, 0 differ\n" + end % (2, 2), room.works(ROWS, given=row % b"0b" * 2))
    said = b'rewrite 010b: 0 "0b\\n" ""\n2 rows, 1 differ\n' + end % (2, 2)
    same((1, said, ""), room.run(ROWS, given=row % b"0b" + row % b"0c"))
