"""Options: what each one does, which go together, and that the pages of help, the manual pages and the completions have them all."""
import os
import re
import subprocess

from habits import on_terminal
from modules import DEBUG, DEBUG_WRITTEN, GOOD, GOOD_MAP, GOOD_WRITTEN, NAMED, NOP, TRAP, custom, exports, module, names, sized
from runs import PROGRAMS, TOP, case, same
from snipping_and_counting import FIB, FIB_COUNTED, IMPORT

FUNCTION = {"wrewrite": [], "wcount": [], "wmeter": [], "wsnip": ["0"]}

# Functions with names as Rust's compiler writes them, with the hash of one function; a comment has the demangled name of a mangled one.
RUST = (
    b"_ZN4core9panicking5panic17h0123456789abcdefE",  # core::panicking::panic
    b"_ZN4core3fmt5write17h0123456789abcdefE",  # core::fmt::write
    b"_ZN60_$LT$alloc..string..String$u20$as$u20$core..fmt..Display$GT$3fmt17h0123456789abcdefE",  # <alloc::string::String as core::fmt::Display>::fmt
    b"_ZN3app4main28_$u7b$$u7b$closure$u7d$$u7d$17h0123456789abcdefE",  # app::main::{{closure}}
    b"rust_begin_unwind",
    b"core::fmt::Formatter::pad::h0123456789abcdef",  # demangled by another tool
    b"main",
)


def rust(snipped=None):
    """The module of these functions: as it is given, or as it is written without the bodies of some."""
    bodies = [NOP if snipped is None else TRAP if index in snipped else b"" for index in range(len(RUST))]
    return module(bodies, after=names(list(enumerate(RUST))))


@case("--help prints the page in docs/help, and dev/man --check finds nothing stale")
def _(room):
    for program in PROGRAMS:
        with open(f"{TOP}/docs/help/{program}.txt", "rb") as file:
            same(file.read(), room.works(program, "--help"))
    ran = subprocess.run([f"{TOP}/dev/man", "--check"], stdin=subprocess.DEVNULL, capture_output=True, timeout=60)
    same((0, b"", b""), (ran.returncode, ran.stdout, ran.stderr))


@case("PROGRAMS.md has each option that help has")
def _(room):
    with open(f"{TOP}/docs/use/PROGRAMS.md", encoding="utf-8") as file:
        rows = re.findall(r"^\| (`-[^|]*) \|", file.read(), re.M)
    described = {word for row in rows for word in re.findall(r"`(--?[\w-]*)", row)}
    for program in PROGRAMS:
        for line in room.works(program, "--help").decode().splitlines():
            head = re.match(r" {2,6}(-\w, )?(-[\w-]*)", line)
            if head and head[2] not in described:
                raise AssertionError(f"{head[2]} of {program} isn't in PROGRAMS.md")


@case("-o names the output, and the words after the first are then functions")
def _(room):
    room.put("in", NAMED)
    written = room.works("wrewrite", "in", "-")
    for words in (["-o", "out"], ["--output", "out"], ["--output=out"], ["-oout"], ["-qo", "out"]):
        room.works("wrewrite", *words, "in")
        same(written, room.get("out"), words)
        os.remove(room.path("out"))
    room.works("wsnip", "in", "1", "-o", "out", "out")
    same(room.works("wsnip", "in", "-", "1", "2"), room.get("out"))
    room.wrong_use("wrewrite", "-o", "out", "in", "more", says="unexpected word 'more'")
    room.wrong_use("wrewrite", "-o", "out", "-oout", "in", says="option '--output' is given twice")
    room.wrong_use("wsnip", "-o", "out", "in", says="no function is given")


@case("without a second path the module goes to standard output, if that isn't a terminal")
def _(room):
    room.put("in")
    same(GOOD_WRITTEN, room.works("wrewrite", "in"))
    same(room.works("wcount", "in", "-"), room.works("wcount", "in"))
    says = "wrewrite: no file to write is given\ntry 'wrewrite --help'\n"
    same((2, says), on_terminal(room, "wrewrite", "in"))
    says = "wrewrite: standard output is a terminal, and a module isn't text\ntry 'wrewrite --help'\n"
    same((2, says), on_terminal(room, "wrewrite", "in", "-o", "-"))
    room.wrong_use("wrewrite", "--map", "-", "in", says="'-' and '-' are the same file")


@case("-q prints no warnings, and errors all the same")
def _(room):
    room.put("in", GOOD + DEBUG)
    for word in ("-q", "--quiet"):
        room.works("wrewrite", word, "in", "out")
        same(GOOD_WRITTEN + DEBUG_WRITTEN, room.get("out"))
    room.refuses("wrewrite", "-q", "no", "out", says="no: can't be opened: No such file or directory (os error 2)")


@case("switches may be given twice, and their letters in one word")
def _(room):
    room.put("in")
    for words in ("-v -v in out", "-vv in out", "-qvv in out", "--verbose -v --quiet in out", "-vo out in", "-vqoout in"):
        status, _, err = room.run("wrewrite", *words.split())
        same(0, status, words)
        assert re.fullmatch(r"wrewrite: 1 function, 25 bytes read, 24 written \(-4\.0%\), \d+ ms\n", err), err
        same(GOOD_WRITTEN, room.get("out"))
        os.remove(room.path("out"))
    room.works("wrewrite", "--check", "--check", "in")
    room.wrong_use("wrewrite", "-vx", "in", "out", says="unknown option '-vx'")
    room.wrong_use("wrewrite", "in", "-vo", says="option '--output' requires a value")
    same(room.works("wrewrite", "-h"), room.works("wrewrite", "-vh"))


@case("-v says by how much the module grew, and nothing of that where none is written")
def _(room):
    room.put("in")
    _, _, err = room.run("wcount", "-v", "in", "out")
    assert re.fullmatch(rf"wcount: 1 function, 25 bytes read, {len(room.get('out'))} written \(\+\d+\.\d%\), \d+ ms\n", err), err
    room.put("in", GOOD_WRITTEN)
    _, _, err = room.run("wrewrite", "-v", "in", "out")
    assert re.fullmatch(r"wrewrite: 1 function, 24 bytes read, 24 written \(0\.0%\), \d+ ms\n", err), err
    for program, words in (("wrewrite", ["--check"]), ("wsnip", ["--list"])):
        _, _, err = room.run(program, "-v", *words, "in")
        assert re.fullmatch(rf"{program}: 1 function, 24 bytes read, \d+ ms\n", err), err


@case("--source-map-url alone changes the URL, and nothing else")
def _(room):
    old, new = custom(b"sourceMappingURL", sized(b"old.map")), custom(b"sourceMappingURL", sized(b"new.map"))
    other = custom(b"other", b"o")
    for given in (GOOD + old + other, GOOD + other):
        room.put("in", given)
        room.works("wrewrite", "--source-map-url", "new.map", "-q", "in", "out")
        same(GOOD_WRITTEN + other + new, room.get("out"))


@case("an empty path, or an empty value in the place of one, is wrong use")
def _(room):
    room.put("in")
    for option in ("--map", "--output", "--source-map", "--output-source-map"):
        for words in ([f"{option}="], [option, ""]):
            room.wrong_use("wrewrite", *words, "in", "out", says=f"option '{option}' requires a value")
    room.wrong_use("wsnip", "--names-from=", "in", "out", says="option '--names-from' requires a value")
    for words in (["", "out"], ["in", ""], ["--check", ""]):
        room.wrong_use("wrewrite", *words, says="a path is empty")
    same(["in"], room.files())


NAME, PRODUCERS, OTHER = names([(0, b"f")]), custom(b"producers", b"\0"), custom(b"other", b"o")
LINES, SOURCE_MAP = custom(b".debug_line", b"x"), custom(b"sourceMappingURL", b"\1z")
# why a line table of one byte isn't moved
NOT_MOVED = ", since it can't follow the code (.debug_line: the section ends inside a value)"


@case("custom sections are left out by kind or by name, and kept by name")
def _(room):
    room.put("in", GOOD + LINES + NAME + PRODUCERS + OTHER + SOURCE_MAP + OTHER)
    for words, kept in (
        ("--strip", b""),
        ("--strip-debug", NAME + PRODUCERS + OTHER + OTHER),
        ("--strip-names", PRODUCERS + OTHER + SOURCE_MAP + OTHER + LINES),
        ("--strip-producers", NAME + OTHER + SOURCE_MAP + OTHER + LINES),
        ("--strip-names --strip-producers --strip-debug", OTHER + OTHER),
        ("--remove-section other", NAME + PRODUCERS + SOURCE_MAP + LINES),
        ("--remove-section other --remove-section=name", PRODUCERS + SOURCE_MAP + LINES),
        ("--remove-section none", NAME + PRODUCERS + OTHER + SOURCE_MAP + OTHER + LINES),
        ("--keep-debug", LINES + NAME + PRODUCERS + OTHER + SOURCE_MAP + OTHER),
        ("--keep-debug --strip-debug", NAME + PRODUCERS + OTHER + OTHER),
        ("--strip --keep-section other", OTHER + OTHER),
        ("--keep-section name --strip --keep-section other", NAME + OTHER + OTHER),
        ("--strip-debug --keep-section .debug_line", NAME + PRODUCERS + OTHER + OTHER + LINES),
        ("--remove-section other --keep-section other", NAME + PRODUCERS + OTHER + SOURCE_MAP + OTHER + LINES),
    ):
        status, _, err = room.run("wrewrite", *words.split(), "in", "out")
        same((0, GOOD_WRITTEN + kept), (status, room.get("out")), words)
        # a warning for each that is kept and wrong now
        said = ""
        if LINES in kept:
            reason = "" if "--keep-debug" in words else NOT_MOVED
            said += f"wrewrite: warning: debug information is out of date (.debug_line){reason}: use --strip-debug\n"
        if SOURCE_MAP in kept:
            said += "wrewrite: warning: source map is out of date: use --source-map or --strip-debug\n"
        same(said, err, words)


@case("sections are left out of what wsnip and wcount write, too")
def _(room):
    room.put("in", GOOD + NAME)
    for program in ("wsnip", "wcount"):
        room.works(program, "in", "whole", *FUNCTION[program])
        room.works(program, "--strip-names", "in", "out", *FUNCTION[program])
        same(room.get("whole"), room.get("out") + NAME)


@case("--check and --list go with no option that is for a module that is written")
def _(room):
    room.put("in")
    for program, option in (("wrewrite", "--check"), ("wsnip", "--list")):
        for more in ("--map=m", "-o x", "--force", "--strip", "--strip-names", "--keep-section x", "--remove-section x", "--source-map-url u"):
            name = more.replace("-o", "--output").split("=")[0].split()[0]
            room.wrong_use(program, option, *more.split(), "in", says=f"option '{name}' can't be used with '{option}', which writes no module")
    for more in ("--pattern x", "--names-from x", "--rust-fmt-code", "--rust-panicking-code"):
        name = more.split()[0]
        room.wrong_use("wsnip", "--list", *more.split(), "in", says=f"option '{name}' can't be used with '--list', which writes no module")
    room.wrong_use("wsnip", "--list", "in", "out", says="unexpected word 'out'")
    same(["in"], room.files())


@case("an option of one program isn't one of another")
def _(room):
    for program, option in (("wrewrite", "--list"), ("wcount", "--pattern"), ("wrewrite", "--export"), ("wsnip", "--export"), ("wcount", "--check")):
        room.wrong_use(program, option, "in", "out", says=f"unknown option '{option}'")


@case("wcount --export names the counter, so that what is counted can be counted again")
def _(room):
    room.put("in", bytes.fromhex(FIB))
    same(bytes.fromhex(FIB_COUNTED), room.works("wcount", "--export", "calls", "in"))
    # a name that is three bytes shorter, in a section that is three bytes shorter
    named = FIB_COUNTED.replace("070f02036669620000 0563616c6c730300", "070c02036669620000 026e210300")
    same(bytes.fromhex(named), room.works("wcount", "--export=n!", "in"))
    room.works("wcount", "in", "once")
    room.works("wcount", "--export", "again", "once", "twice")
    room.refuses("wcount", "--export", "fib", "in", "out", says='in: 0x17: export "fib": an export has this name already (ExportTaken)')


@case("wsnip --pattern: a regular expression, also of the names that Rust's compiler wrote")
def _(room):
    room.put("in", rust())
    for words, snipped in (
        (["main$"], {6}),
        (["^main$"], {6}),
        (["main"], {3, 6}),
        (["^core::panicking::panic$"], {0}),
        (["17h[0-9a-f]{16}E$"], {0, 1, 2, 3}),
        (["^<alloc::string::String as core::fmt::Display>::fmt$"], {2}),
        ([r"^app::main::\{\{closure\}\}$"], {3}),
        (["^core::fmt::Formatter::pad$"], {5}),
        (["h0123456789abcdef$"], {5}),
        (["^main$", "unwind"], {4, 6}),
        (["(?i)MAIN$"], {6}),
    ):
        options = [word for text in words for word in ("--pattern", text)]
        same(rust(snipped), room.works("wsnip", *options, "in"), words)
    same(rust({0, 6}), room.works("wsnip", "in", "-", "0", "--pattern=^main$"))


@case("wsnip --pattern is wrong use where it matches no function with a body, or is none")
def _(room):
    room.put("in", module([NOP], imported=IMPORT, after=names([(0, b"first"), (1, b"second")])))
    for text in ("first", "third", "^econd"):
        room.wrong_use("wsnip", "--pattern", text, "in", "out", says=f"no function matches '{text}'")
    room.wrong_use("wsnip", "--pattern", "second", "--pattern", "third", "in", "out", says="no function matches 'third'")
    status, out, err = room.run("wsnip", "--pattern", "a(\x1b", "in", "out")
    same((2, b"", 2), (status, out, err.count("\n")))
    assert err.startswith("wsnip: 'a(\\u{1b}' is no regular expression: ") and "unclosed group" in err, err
    same(["in"], room.files())


@case("wsnip --rust-panicking-code and --rust-fmt-code, which may match nothing")
def _(room):
    room.put("in", rust())
    same(rust({0, 4}), room.works("wsnip", "--rust-panicking-code", "in"))
    same(rust({1, 2, 5}), room.works("wsnip", "--rust-fmt-code", "in"))
    same(rust({0, 1, 2, 4, 5}), room.works("wsnip", "--rust-fmt-code", "--rust-panicking-code", "in"))
    room.put("in", NAMED)
    same(room.works("wrewrite", "in"), room.works("wsnip", "--rust-fmt-code", "in"))


@case("wsnip --names-from: a name or an index in each line")
def _(room):
    room.put("in", NAMED)
    for text, functions in ((b"second\n", ["1"]), (b"second\r\n\n0", ["0", "1"]), (b"out\nfirst\nout\n", ["0", "2"])):
        room.put("names", text)
        same(room.works("wsnip", "in", "-", *functions), room.works("wsnip", "--names-from", "names", "in"), text)
        same(room.works("wsnip", "in", "-", *functions), room.works("wsnip", "--names-from", "-", "in", given=text), text)
    room.put("names", b"")
    same(room.works("wrewrite", "in"), room.works("wsnip", "--names-from", "names", "in"))
    room.put("names", b"first\nthi\x1brd\n")
    room.refuses("wsnip", "--names-from", "names", "in", "out", says="names: line 2: the module has no function 'thi\\u{1b}rd'")
    room.put("names", b"\xff\n")
    room.refuses("wsnip", "--names-from", "names", "in", "out", says="names: line 1: the name isn't UTF-8")
    room.refuses("wsnip", "--names-from", "no", "in", "out", says="no: can't be opened: No such file or directory (os error 2)")
    same(["in", "names"], room.files())


@case("standard input is read once: it isn't the module and the names")
def _(room):
    room.wrong_use("wsnip", "--names-from", "-", "-", "out", says="'-' and '-' are the same file", given=GOOD)


@case("wsnip --list: index, size of the body, and name of each function with a body")
def _(room):
    room.put("in", module([NOP, b"", NOP * 3], imported=IMPORT, exported=exports([(b"out", 2)]), after=names([(0, b"f"), (1, b"e\x1bs c")])))
    same(b"1 3 e\\u{1b}s c\n2 2 out\n3 5\n", room.works("wsnip", "--list", "in"))
    same(b"", room.works("wsnip", "--list", "-", given=b"\0asm\1\0\0\0"))
    same(["in"], room.files())


@case("warnings come after the module is written, one for all debug information, and only where code moved")
def _(room):
    debug = LINES + custom(b".debug_str", b"y") + custom(b".debug_info", b"z")
    room.put("in", GOOD + debug)
    said = f"wrewrite: warning: debug information is out of date (.debug_line, .debug_info){NOT_MOVED}: use --strip-debug\n"
    same((0, b"", said), room.run("wrewrite", "in", "out"))
    room.put("in", GOOD_WRITTEN + debug + SOURCE_MAP + custom(b"metadata.code.branch_hint", b"\1"))
    same((0, b"", ""), room.run("wrewrite", "in", "out"))
    same(room.get("in"), room.get("out"))
    room.put("in", GOOD + debug)
    room.refuses("wrewrite", "in", "none/out", says="none/out: can't be created: No such file or directory (os error 2)")


@case("control characters of words are escaped")
def _(room):
    room.put("in", NAMED)
    room.wrong_use("wrewrite", "--m\x1bap", "in", "out", says="unknown option '--m\\u{1b}ap'")
    room.wrong_use("wrewrite", "-\n", "in", "out", says="unknown option '-\\n'")
    room.wrong_use("wrewrite", "in", "out", "\x07", says="unexpected word '\\u{7}'")
    room.wrong_use("wsnip", "in", "out", "a\tb", says="the module has no function 'a\\tb'")
    room.wrong_use("wsnip", "--pattern", "a\tb", "in", "out", says="no function matches 'a\\tb'")


@case("a word that isn't UTF-8 is named by its number")
def _(room):
    for program in PROGRAMS:
        room.wrong_use(program, "in", b"\xff.wasm", says="word 2 isn't UTF-8, which a path has to be")
    room.wrong_use("wrewrite", "-v", "in", b"o" * 9000 + b"\xc3", b"\xff", says="word 3 isn't UTF-8, which a path has to be")
