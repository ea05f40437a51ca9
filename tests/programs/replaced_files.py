"""What can be lost: what is written replaces a file as a whole, keeps its mode, and goes through links; where a module is
refused or a write fails, the file is as it was."""
import os

from modules import GOOD, GOOD_MAP, GOOD_WRITTEN, REFUSED, module
from runs import case, few_bytes, same

# as long as some buffers
LARGE = module([b"\x41\1\x1a" * 1000] * 100)


@case("the module onto the input")
def _(room):
    room.put("in")
    before = os.stat(room.path("in")).st_ino
    with open(room.path("in"), "rb") as opened:
        room.works("wrewrite", "in", "in")
        same(GOOD, opened.read())
    same(GOOD_WRITTEN, room.get("in"))
    assert before != os.stat(room.path("in")).st_ino, "it was written in place"
    same(["in"], room.files())


@case("the module onto the input by another spelling, with a map")
def _(room):
    room.put("in")
    room.works("wrewrite", "--map", "map", "in", "./in")
    same((GOOD_WRITTEN, GOOD_MAP), (room.get("in"), room.get("map")))
    same(["in", "map"], room.files())


@case("a refused module leaves both files as they were")
def _(room):
    room.put("in", REFUSED)
    room.put("out", b"old")
    room.put("map", b"old map")
    same(1, room.run("wrewrite", "--map", "map", "in", "out")[0])
    same(1, room.run("wrewrite", "in", "in")[0])
    same((REFUSED, b"old", b"old map"), (room.get("in"), room.get("out"), room.get("map")))
    same(["in", "map", "out"], room.files())


@case("files with names like those of unfinished ones stay")
def _(room):
    room.put("in")
    for name in ("out.part", "out.unfinished-0", "out.unfinished-1"):
        room.put(name, b"mine")
    room.works("wrewrite", "in", "out")
    same(GOOD_WRITTEN, room.get("out"))
    for name in ("out.part", "out.unfinished-0", "out.unfinished-1"):
        same(b"mine", room.get(name))
    same(5, len(room.files()))


@case("a link of such a name isn't followed")
def _(room):
    room.put("in")
    room.put("other", b"mine")
    os.symlink("other", room.path("out.unfinished-0"))
    os.symlink("nothing", room.path("out.unfinished-1"))
    room.works("wrewrite", "in", "out")
    same((b"mine", GOOD_WRITTEN), (room.get("other"), room.get("out")))
    assert not os.path.exists(room.path("nothing"))


@case("runs side by side onto one file")
def _(room):
    room.put("in", LARGE)
    runs = [room.start("wrewrite", "in", "out") for _ in range(8)]
    for run in runs:
        same((b"", b""), run.communicate(timeout=60))
        same(0, run.returncode)
    room.works("wrewrite", "in", "alone")
    same(room.get("alone"), room.get("out"))
    same(["alone", "in", "out"], room.files())


@case("names of 251 and of 255 bytes")
def _(room):
    room.put("in")
    for name in ("a" * 251, "b" * 255):
        room.works("wrewrite", "in", name)
        same(GOOD_WRITTEN, room.get(name))
    same(3, len(room.files()))


@case("a name of 255 bytes in letters of two and of three")
def _(room):
    room.put("in")
    for name in ("é" * 127 + "x", "x" + "é" * 127, "€" * 85):
        room.works("wrewrite", "in", name)
        same(GOOD_WRITTEN, room.get(name))
    same(4, len(room.files()))


@case("the mode of a file that is replaced is kept")
def _(room):
    room.put("in")
    for mode in (0o600, 0o640, 0o755):
        room.put("out", b"old")
        os.chmod(room.path("out"), mode)
        room.works("wrewrite", "in", "out")
        same(mode, os.stat(room.path("out")).st_mode & 0o7777)
        same(GOOD_WRITTEN, room.get("out"))
        os.remove(room.path("out"))


@case("a new file has the mode that the umask leaves")
def _(room):
    room.put("in")
    room.works("wrewrite", "in", "out", preexec_fn=lambda: os.umask(0o027))
    same(0o640, os.stat(room.path("out")).st_mode & 0o7777)


@case("the mode of the map is kept too")
def _(room):
    room.put("in")
    room.put("map", b"old")
    os.chmod(room.path("map"), 0o600)
    room.works("wrewrite", "--map", "map", "in", "out")
    same(0o600, os.stat(room.path("map")).st_mode & 0o7777)


@case("through a link its target is replaced")
def _(room):
    room.put("in")
    os.mkdir(room.path("folder"))
    room.put("folder/out", b"old")
    os.chmod(room.path("folder/out"), 0o600)
    os.symlink("folder/out", room.path("link"))
    os.symlink("link", room.path("second"))
    room.works("wrewrite", "in", "second")
    same(("link", "folder/out"), (os.readlink(f"{room.folder}/second"), os.readlink(f"{room.folder}/link")))
    same(GOOD_WRITTEN, room.get("folder/out"))
    same(0o600, os.stat(room.path("folder/out")).st_mode & 0o7777)
    same(["out"], os.listdir(os.path.join(room.folder, "folder")))


@case("through a link that leads to nothing its target is made")
def _(room):
    room.put("in")
    os.mkdir(room.path("folder"))
    os.symlink("folder/out", room.path("link"))
    room.works("wrewrite", "in", "link")
    same("folder/out", os.readlink(f"{room.folder}/link"))
    same(GOOD_WRITTEN, room.get("folder/out"))


@case("a device stays one")
def _(room):
    room.put("in")
    os.symlink("/dev/null", room.path("link"))
    room.works("wrewrite", "in", "link")
    same("/dev/null", os.readlink(f"{room.folder}/link"))


@case("standard output by its path")
def _(room):
    room.put("in")
    same(GOOD_WRITTEN, room.works("wrewrite", "in", "/dev/stdout"))
    same(["in"], room.files())


@case("standard input to standard output")
def _(room):
    same(GOOD_WRITTEN, room.works("wrewrite", "-", "-", given=GOOD))


@case("no room on the device")
def _(room):
    room.put("in")
    room.refuses("wrewrite", "in", "/dev/full", says="/dev/full: can't be written: No space left on device (os error 28)")


@case("no room for the map: the module's file stays")
def _(room):
    room.put("in")
    room.put("out", b"old")
    room.refuses("wrewrite", "--map", "/dev/full", "in", "out", says="/dev/full: can't be written: No space left on device (os error 28)")
    same(b"old", room.get("out"))
    same(["in", "out"], room.files())


@case("a write that fails in the middle leaves the file as it was")
def _(room):
    room.put("in", LARGE)
    room.put("out", b"old")
    room.refuses("wrewrite", "in", "out", says="out: can't be written: File too large (os error 27)", preexec_fn=few_bytes)
    same(b"old", room.get("out"))
    same(["in", "out"], room.files())


@case("a folder that isn't there")
def _(room):
    room.put("in")
    room.refuses("wrewrite", "in", "no/out", says="no/out: can't be created: No such file or directory (os error 2)")
    room.put("out", b"old")
    room.refuses("wrewrite", "--map", "no/map", "in", "out", says="no/map: can't be created: No such file or directory (os error 2)")
    same(b"old", room.get("out"))
    same(["in", "out"], room.files())


@case("a folder in the place of a file")
def _(room):
    room.put("in")
    os.mkdir(room.path("folder"))
    room.refuses("wrewrite", "in", "folder", says="folder: can't be created: Is a directory (os error 21)")
    room.refuses("wrewrite", "folder", "out", says="folder: can't be read: Is a directory (os error 21)")
    same(["folder", "in"], room.files())
