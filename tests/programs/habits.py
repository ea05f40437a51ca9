"""What the programs have in common: help and version, how words are read and which are wrong use, and what goes to a terminal."""
import os
import pty
import re
import subprocess
import time

from modules import GOOD, GOOD_MAP, GOOD_WRITTEN, NAMED, REFUSED
from runs import PROGRAMS, case, holds, same
from source_map_texts import source_map


@case("--help and -h, on standard output, also before a word that is wrong")
def _(room):
    for program in PROGRAMS:
        out = room.works(program, "--help").decode()
        same(out, room.works(program, "-h").decode())
        same(out, room.works(program, "--help", "--mpa").decode())
        holds(f"usage: {program} ", out)
        for word in ("-h, --help", "-V, --version", "example: "):
            holds(word, out)
    for program in PROGRAMS:
        for word in ("--map FILE", "--source-map FILE", "--output-source-map FILE", "--source-map-url URL", "--strip-debug", "-v, --verbose"):
            holds(word, room.works(program, "--help").decode())
    holds("types are checked with --validate alone", room.works("wrewrite", "--help").decode())


@case("--version and -V, also after a path")
def _(room):
    for program in PROGRAMS:
        out = room.works(program, "--version")
        same(out, room.works(program, "-V"))
        same(out, room.works(program, "a", "--version"))
        # the programs that are tried here were proved
        same(out, f"{program} 0.2.0 (proved)\n".encode())


@case("no words")
def _(room):
    for program in PROGRAMS:
        room.wrong_use(program, says="no file to read is given")
    room.wrong_use("wsnip", "in", says="no function is given")
    room.wrong_use("wsnip", "in", "out", says="no function is given")


@case("an unknown option is named")
def _(room):
    for program in PROGRAMS:
        room.wrong_use(program, "--mpa", "in", "out", says="unknown option '--mpa'")
        room.wrong_use(program, "in", "-x", "out", says="unknown option '-x'")
    room.wrong_use("wsnip", "--check", "in", says="unknown option '--check'")


@case("an option whose value is given twice is named")
def _(room):
    for program in PROGRAMS:
        room.wrong_use(program, "--map=a", "--map", "b", "in", "out", says="option '--map' is given twice")


@case("an option without its value, and with one that it doesn't take")
def _(room):
    room.wrong_use("wrewrite", "in", "out", "--map", says="option '--map' requires a value")
    room.wrong_use("wrewrite", "--strip-debug=all", "in", "out", says="option '--strip-debug' takes no value")


@case("a word too many")
def _(room):
    room.wrong_use("wrewrite", "in", "out", "more", says="unexpected word 'more'")
    room.wrong_use("wcount", "in", "out", "more", says="unexpected word 'more'")
    room.wrong_use("wrewrite", "--check", "in", "out", says="unexpected word 'out'")


@case("--check with an option that is for writing")
def _(room):
    for option in ("--map=map", "--strip-debug"):
        name = option.split("=")[0]
        room.wrong_use("wrewrite", "--check", option, "in", says=f"option '{name}' can't be used with '--check', which writes no module")


@case("words that are wrong in more than one way, or in another form")
def _(room):
    room.put("a")
    room.put("i", source_map(""))
    for words, says in (
        ("--map m --map=m a b", "option '--map' is given twice"),
        ("--source-map i --source-map i a b", "option '--source-map' is given twice"),
        ("--check --map m a", "option '--map' can't be used with '--check', which writes no module"),
        ("--check --source-map i a", "option '--source-map' can't be used with '--check', which writes no module"),
        ("--verbose=1 a b", "option '--verbose' takes no value"),
        ("a b --source-map-url", "option '--source-map-url' requires a value"),
        ("--mpa m a b", "unknown option '--mpa'"),
        ("-v=1 a b", "unknown option '-v=1'"),
    ):
        room.wrong_use("wrewrite", *words.split(), says=says)
    same(["a", "i"], room.files())


@case("a word that isn't UTF-8")
def _(room):
    room.wrong_use("wrewrite", b"\xff", "out", says="word 1 isn't UTF-8, which a path has to be")


@case("words after -- are no options")
def _(room):
    room.put("-v")
    room.works("wrewrite", "--map=map", "--", "-v", "--map")
    same((GOOD_WRITTEN, GOOD_MAP), (room.get("--map"), room.get("map")))


@case("--map=FILE and --map FILE")
def _(room):
    room.put("in")
    room.works("wrewrite", "--map=a=b", "in", "out")
    room.works("wrewrite", "--map", "c", "in", "out")
    same((GOOD_MAP, GOOD_MAP), (room.get("a=b"), room.get("c")))


@case("the map to standard output")
def _(room):
    room.put("in")
    same(GOOD_MAP, room.works("wrewrite", "--map", "-", "in", "out"))


@case("-v says how much, and nothing else does")
def _(room):
    room.put("in")
    for words, printed in ("-v in out", b""), ("- - --verbose", GOOD_WRITTEN):
        status, out, err = room.run("wrewrite", *words.split(), given=GOOD)
        same((0, printed), (status, out), words)
        assert re.fullmatch(r"wrewrite: 1 function, 25 bytes read, 24 written \(-4\.0%\), \d+ ms\n", err), err
    same(["in", "out"], room.files())
    room.put("in", NAMED)
    _, _, err = room.run("wcount", "--verbose", "in", "out")
    holds("wcount: 3 functions, ", err)


def on_terminal(room, program, *words):
    """Runs a program whose standard streams are a terminal, and returns its status and what the terminal got."""
    shown, terminal = pty.openpty()
    running = room.start(program, *words, stdin=terminal, stdout=terminal, stderr=terminal)
    running.wait(timeout=60)
    os.close(terminal)
    got = b""
    while True:
        try:
            part = os.read(shown, 4096)
        except OSError:
            part = b""
        if not part:
            break
        got += part
    os.close(shown)
    return running.returncode, got.decode().replace("\r\n", "\n")


@case("no module goes to a terminal")
def _(room):
    room.put("in")
    for program, more in (("wrewrite", []), ("wsnip", ["0"]), ("wcount", [])):
        says = f"{program}: standard output is a terminal, and a module isn't text\ntry '{program} --help'\n"
        same((2, says), on_terminal(room, program, "in", "-", *more))


def slowly_on_terminal(room, program, *words, given=GOOD):
    """Runs a program that gets its standard input after two seconds, and whose standard error is a terminal; returns its status and
    what the terminal got."""
    shown, terminal = pty.openpty()
    running = room.start(program, *words, stdin=subprocess.PIPE, stderr=terminal)
    time.sleep(2.2)
    out, _ = running.communicate(given, timeout=60)
    os.close(terminal)
    got = b""
    while True:
        try:
            part = os.read(shown, 4096)
        except OSError:
            part = b""
        if not part:
            break
        got += part
    os.close(shown)
    return running.returncode, out, got.decode().replace("\r\n", "\n")


@case("a run of more than two seconds shows on a terminal how far it is, and removes that")
def _(room):
    line = "\r\x1b[Kwrewrite: 1 of 1 functions read\r\x1b[K"
    same((0, GOOD_WRITTEN, line), slowly_on_terminal(room, "wrewrite", "-", "-"))
    line = "\r\x1b[Kwrewrite: 1 of 3 functions read\r\x1b[K"
    status, out, got = slowly_on_terminal(room, "wrewrite", "--check", "-", given=REFUSED)
    same((1, 2, line), (status, out.count(b"\n"), got))


@case("what isn't a terminal gets no progress")
def _(room):
    running = room.start("wrewrite", "-", "-", stdin=subprocess.PIPE)
    time.sleep(2.2)
    out, err = running.communicate(GOOD, timeout=60)
    same((0, GOOD_WRITTEN, b""), (running.returncode, out, err))


@case("a terminal gets no counts that weren't asked for, and may get the map")
def _(room):
    room.put("in")
    same((0, ""), on_terminal(room, "wrewrite", "in", "out"))
    same((0, GOOD_MAP.decode()), on_terminal(room, "wrewrite", "--map", "-", "in", "out"))


@case("standard error that is closed changes no status")
def _(room):
    room.put("in", REFUSED)
    same(1, room.run("wrewrite", "in", "out", stderr=None, preexec_fn=lambda: os.close(2))[0])
    same(2, room.run("wrewrite", stderr=None, preexec_fn=lambda: os.close(2))[0])
