"""The commands of README, PROGRAMS and LIBRARY. Those after `$` run in the order of the page, in a copy of the files that they name, and have
to print what the page has below them. Of all others it is said here what they are."""
import os
import re
import shlex
import shutil
import subprocess

from runs import NODE, PROGRAMS, TOP, TOGETHER, Skipped, case, same

PAGES = ("README.md", "docs/use/PROGRAMS.md", "docs/use/LIBRARY.md")
# What the commands read, below the top.
FILES = ("crates/wtools/data", "crates/examples/data", "crates/examples/stdout")
# A section whose commands `tests/library/run` runs.
RUN_ELSEWHERE = re.compile(r"^## Your first tool\n.*?^## ", re.M | re.S)
# Commands that aren't run, each with its reason.
NOT_RUN = {
    "dev/run-program --build wrewrite_c": "it proves the library, for an hour and more",
    'cc -Iinclude main.c crates/wrewrite_c/out/libwrewrite_c.a "$(dirname "$(rt doc)")/c/liblibc_c.a"': "tests/c/run links the library",
}
COMMAND = re.compile(rf"(?:{'|'.join(PROGRAMS)}|{TOGETHER}|examples|rt|cc|node|printf|od|cd|mkdir|rm|echo|sudo|curl|git|make|python3)(?= )|\./\w|(?:dev|tests|\.ci)/\w|[A-Z]+=\S* ")
BLOCK = re.compile(r"(?ms)^ *```.*?^ *```|(?:^ {4}[^\n]*\n)+")
# In the place of the toolchain: `rt try` of the examples runs them as they were built.
RT = '#!/bin/sh\n[ "$1 $2" = "try --" ] || exit 2\nshift 2\nexec examples "$@"\n'


def blocks(page):
    """The lines of each block of code, without the space before the first."""
    with open(f"{TOP}/{page}", encoding="utf-8") as file:
        text = RUN_ELSEWHERE.sub("## ", file.read())
    for block in BLOCK.findall(text):
        lines = [line for line in block.splitlines() if not line.lstrip().startswith("```")]
        space = len(lines[0]) - len(lines[0].lstrip())
        yield [line[space:] for line in lines]


def is_whole(command):
    """Whether each quote is closed."""
    try:
        return bool(shlex.split(command))
    except ValueError:
        return False


def sessions(lines):
    """The commands of a block, each with what it prints."""
    found = []
    for line in lines:
        if found and not is_whole(found[-1][0]):
            found[-1][0] += "\n" + line
        elif line.startswith("$ "):
            found.append([line[2:], ""])
        elif found:
            found[-1][1] += line + "\n"
    return found


def furnish(room):
    """Puts the files that commands read into the room, and the programs."""
    for name in FILES:
        copy = shutil.copytree if os.path.isdir(f"{TOP}/{name}") else shutil.copy
        os.makedirs(os.path.dirname(f"{room.folder}/{name}"), exist_ok=True)
        copy(f"{TOP}/{name}", f"{room.folder}/{name}")
    for program in PROGRAMS:
        os.symlink(f"{room.programs}/{program}", f"{room.folder}/{program}")
    os.mkdir(room.path("bin"))
    room.put("bin/rt", RT.encode())
    os.chmod(room.path("bin/rt"), 0o755)


def run(room, command, folder):
    """Runs a command, and returns its status, what it prints, and the folder that it leads to."""
    path = f"{room.folder}/bin:{room.programs}:{os.environ['PATH']}"
    words = ["sh", "-c", f'{command}\nstatus=$?\npwd >"$ROOM/folder"\nexit $status']
    how = {"stdin": subprocess.DEVNULL, "stdout": subprocess.PIPE, "stderr": subprocess.STDOUT, "timeout": 60}
    ran = subprocess.run(words, cwd=folder, env={**os.environ, "PATH": path, "ROOM": room.folder}, **how)
    return ran.returncode, ran.stdout.decode("utf-8", "replace"), room.get("folder").decode().rstrip("\n")


def timeless(text):
    return re.sub(r"\d+ ms\b", "N ms", text)


def try_page(room, page):
    furnish(room)
    folder, skipped = room.folder, False
    for lines in blocks(page):
        for command, printed in sessions(lines):
            if command.startswith("node ") and NODE is None:
                skipped = True
                continue
            status, said, folder = run(room, command, folder)
            same(timeless(printed), timeless(said), command)
            assert printed or status == 0, f"{command!r} has the status {status}"
    if skipped:
        raise Skipped("node isn't there")


for each in PAGES:
    case(f"{each}: each command prints what the page says")(lambda room, page=each: try_page(room, page))


@case("README, PROGRAMS and LIBRARY: each command is run, or is a form that help has")
def _(room):
    usage = {line.removeprefix("usage: ").strip() for program in PROGRAMS for line in room.works(program, "--help").decode().splitlines()}
    left = dict(NOT_RUN)
    for page in PAGES:
        for line in (line for lines in blocks(page) if not sessions(lines) for line in lines if COMMAND.match(line)):
            if line not in usage and left.pop(line, None) is None:
                raise AssertionError(f"{page}: {line!r} isn't run: write `$` before it, or say why in tests/programs/documents.py")
    same({}, left, "commands that no page has")
