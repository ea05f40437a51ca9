"""What can be lost where a file can't be replaced as others are: it is write-protected, its folder is, it is mounted by itself, its
file system is full or loses what is closed; and what runs that were killed leave is removed, but nothing else."""
import os
import shutil
import signal
import subprocess
import time

from modules import GOOD, GOOD_MAP, GOOD_WRITTEN, REFUSED, module
from runs import TOP, Skipped, case, same
from source_map_texts import source_map

# as long as some buffers
LARGE = module([b"\x41\1\x1a" * 1000] * 100)
# the user with no rights of its own
NOBODY = 65534
PROTECTED = "can't be created: it is write-protected: use --force"


def without_rights(room):
    """What starts a run whose user has no more rights than others, and may make files in the room."""
    if os.geteuid() != 0:
        return {}
    os.chmod(room.folder, 0o777)
    os.chmod(room.programs, 0o755)
    return {"user": NOBODY, "group": NOBODY, "extra_groups": []}


def mounted(room, mount, program, *words):
    """Runs a program after this command mounts something, for this run alone. A case that needs it is skipped where that can't be done."""
    unshare = shutil.which("unshare")
    if unshare is None:
        raise Skipped("unshare isn't there")
    front = [unshare, "-m" if os.geteuid() == 0 else "-rm", "sh", "-c"]
    run = lambda words: subprocess.run(words, cwd=room.folder, stdin=subprocess.DEVNULL, stdout=subprocess.PIPE, stderr=subprocess.PIPE, timeout=60)
    if run([*front, mount]).returncode:
        raise Skipped("nothing can be mounted")
    # what the program leaves is printed, since a file system that was mounted for it alone goes with it
    ran = run([*front, f'{mount} && {{ "$0" "$@"; echo "status $?"; cat out | wc -c; ls; }}', f"{room.programs}/{program}", *words])
    return ran.stdout.decode(), ran.stderr.decode()


@case("a write-protected file is refused, also through a link")
def _(room):
    rights = without_rights(room)
    room.put("in")
    for name in ("out", "map"):
        room.put(name, b"old")
        os.chmod(room.path(name), 0o444)
    os.symlink("out", room.path("link"))
    for name in ("out", "link"):
        room.refuses("wrewrite", "in", name, says=f"{name}: {PROTECTED}", **rights)
    room.refuses("wrewrite", "--map", "map", "in", "new", says=f"map: {PROTECTED}", **rights)
    same((b"old", b"old"), (room.get("out"), room.get("map")))
    same(["in", "link", "map", "out"], room.files())


@case("a write-protected file is replaced by --force, and keeps its mode")
def _(room):
    rights = without_rights(room)
    room.put("in")
    for name in ("out", "map"):
        room.put(name, b"old")
        os.chmod(room.path(name), 0o444)
    room.works("wrewrite", "--force", "--map", "map", "in", "out", **rights)
    same((GOOD_WRITTEN, GOOD_MAP), (room.get("out"), room.get("map")))
    same(0o444, os.stat(room.path("out")).st_mode & 0o7777)
    same(["in", "map", "out"], room.files())


@case("a file in a folder that isn't to be written to is written over")
def _(room):
    rights = without_rights(room)
    room.put("in")
    os.mkdir(room.path("folder"))
    for name, old in (("out", b"old" * 10000), ("map", b"old")):
        room.put(f"folder/{name}", old)
        os.chmod(room.path(f"folder/{name}"), 0o666)
    node = os.stat(room.path("folder/out")).st_ino
    os.chmod(room.path("folder"), 0o555)
    room.works("wrewrite", "--map", "folder/map", "in", "folder/out", **rights)
    same((GOOD_WRITTEN, GOOD_MAP), (room.get("folder/out"), room.get("folder/map")))
    same(node, os.stat(room.path("folder/out")).st_ino)
    # it is long again, and shorter than what is written
    room.put("in", LARGE)
    room.works("wrewrite", "in", "alone", **rights)
    room.works("wrewrite", "in", "folder/out", **rights)
    same(room.get("alone"), room.get("folder/out"))
    same(["map", "out"], sorted(os.listdir(f"{room.folder}/folder")))
    room.refuses("wrewrite", "in", "folder/new", says="folder/new: can't be created: Permission denied (os error 13)", **rights)


@case("a refused module leaves a file in such a folder as it was")
def _(room):
    rights = without_rights(room)
    room.put("in", REFUSED)
    os.mkdir(room.path("folder"))
    room.put("folder/out", b"old")
    os.chmod(room.path("folder/out"), 0o666)
    os.chmod(room.path("folder"), 0o555)
    same(1, room.run("wrewrite", "in", "folder/out", **rights)[0])
    room.put("in")
    room.refuses("wrewrite", "--map", "/dev/full", "in", "folder/out", says="/dev/full: can't be written: No space left on device (os error 28)", **rights)
    same(b"old", room.get("folder/out"))


@case("a file that is mounted by itself is written over")
def _(room):
    room.put("in")
    room.put("out", b"")
    room.put("inner", b"old" * 1000)
    out, err = mounted(room, "mount --bind inner out", "wrewrite", "in", "out")
    same((f"status 0\n{len(GOOD_WRITTEN)}\nin\ninner\nout\n", ""), (out, err))
    same((GOOD_WRITTEN, b""), (room.get("inner"), room.get("out")))


@case("a full file system leaves the file as it was")
def _(room):
    room.put("in", LARGE)
    os.mkdir(room.path("folder"))
    mount = "mount -t tmpfs -o size=64k none folder && cd folder && echo old >out"
    out, err = mounted(room, mount, "wrewrite", "../in", "out")
    same(("status 1\n4\nout\n", "wrewrite: out: can't be written: No space left on device (os error 28)\n"), (out, err))


def losing(room):
    """What starts a run whose files lose half of their bytes when they are closed."""
    rt = shutil.which("rt")
    if rt is None:
        raise Skipped("rt isn't there")
    kit = os.path.dirname(subprocess.run([rt, "doc"], stdout=subprocess.PIPE, text=True, check=True).stdout.strip())
    library = f"{room.programs}/lose_at_close.so"
    words = ["--target=x86_64-unknown-linux-gnu", "--no-default-config", "-shared", "-fPIC", "-nostdlib", "-O1", "-o", library]
    subprocess.run([f"{kit}/toolchain/bin/clang", *words, f"{TOP}/tests/programs/lose_at_close.c"], check=True, timeout=60)
    return {"env": {**os.environ, "LD_PRELOAD": library}}


@case("a file that lost bytes when it was closed replaces none")
def _(room):
    loss = losing(room)
    room.put("in")
    for name in ("out", "map", "out.map"):
        room.put(name, b"old")
    room.put("in.map", source_map("AAAA"))
    short = "can't be written: the file doesn't have the length of what was written"
    room.refuses("wrewrite", "in", "out", says=f"out: {short}", **loss)
    room.refuses("wrewrite", "--map", "map", "in", "out", says=f"map: {short}", **loss)
    room.refuses("wrewrite", "--source-map", "in.map", "--output-source-map", "out.map", "in", "out", says=f"out.map: {short}", **loss)
    room.refuses("wrewrite", "in", "new", says=f"new: {short}", **loss)
    same([b"old"] * 3, [room.get(name) for name in ("out", "map", "out.map")])
    same(["in", "in.map", "map", "out", "out.map"], room.files())


@case("a file that is written over and lost bytes is an error")
def _(room):
    loss = {**losing(room), **without_rights(room)}
    room.put("in")
    os.mkdir(room.path("folder"))
    room.put("folder/out", b"old")
    os.chmod(room.path("folder/out"), 0o666)
    os.chmod(room.path("folder"), 0o555)
    room.refuses("wrewrite", "in", "folder/out", says="folder/out: can't be replaced: the file doesn't have the length of what was written", **loss)


def started(room, count, *words):
    """A run that waits for a reader of its map, a pipe, after it has made its other file, with which there are so many."""
    running = room.start("wrewrite", "--map", "map", *words)
    for _ in range(400):
        if len(room.files()) >= count:
            break
        time.sleep(0.05)
    same(count, len(room.files()))
    # the file is there a moment before it is locked and has its mode
    for _ in range(400):
        if all(os.stat(room.path(name)).st_mode & 0o7777 == 0o200 for name in room.files() if "unfinished" in name):
            break
        time.sleep(0.05)
    return running


@case("what runs that were killed left is removed by the next one")
def _(room):
    room.put("in")
    room.put("out", b"old")
    os.mkfifo(room.path("map"))
    for sign in (signal.SIGINT, signal.SIGTERM, signal.SIGKILL):
        runs = [started(room, 4 + number, "in", "out") for number in range(2)]
        for running in runs:
            running.send_signal(sign)
            running.communicate(timeout=60)
        same(["in", "map", "out", "out.unfinished-0", "out.unfinished-1"], room.files())
        same(b"old", room.get("out"))
        room.works("wrewrite", "in", "out")
        same(["in", "map", "out"], room.files())
        same(GOOD_WRITTEN, room.get("out"))
        room.put("out", b"old")


@case("the unfinished file of a run that goes on stays")
def _(room):
    room.put("in")
    os.mkfifo(room.path("map"))
    running = started(room, 3, "in", "out")
    room.works("wrewrite", "in", "out")
    same(["in", "map", "out", "out.unfinished-0"], room.files())
    room.put("out", b"old")
    with open(room.path("map"), "rb") as given:
        same(GOOD_MAP, given.read())
    same((b"", b""), running.communicate(timeout=60))
    same(0, running.returncode)
    same(GOOD_WRITTEN, room.get("out"))
    same(["in", "map", "out"], room.files())


@case("what a user has under such a name stays, whatever it is")
def _(room):
    room.put("in")
    room.put("out.unfinished-0", b"mine")
    os.mkfifo(room.path("out.unfinished-1"), 0o200)
    os.mkdir(room.path("out.unfinished-2"), 0o200)
    room.put("other", b"mine")
    os.chmod(room.path("other"), 0o200)
    os.symlink("other", room.path("out.unfinished-3"))
    before = room.files()
    room.works("wrewrite", "in", "out")
    same(sorted([*before, "out"]), room.files())
    os.chmod(room.path("other"), 0o600)
    same((b"mine", b"mine", GOOD_WRITTEN), (room.get("out.unfinished-0"), room.get("other"), room.get("out")))
