"""What can be lost: a map in the place of the input or of the module, however the path is spelled, is wrong use, and no file
changes."""
import os

from modules import GOOD, GOOD_MAP, GOOD_WRITTEN
from runs import case, holds, same


@case("the map and the module at one path: wrong use")
def _(room):
    room.put("in")
    room.wrong_use("wrewrite", "--map", "out", "in", "out", says="'out' and 'out' are the same file")
    same(["in"], room.files())


@case("the same onto a file: it stays")
def _(room):
    room.put("in")
    room.put("out", b"old")
    room.wrong_use("wrewrite", "--map=out", "in", "out", says="'out' and 'out' are the same file")
    same(b"old", room.get("out"))


@case("the map at the input: wrong use, and the input stays")
def _(room):
    room.put("in")
    for program, more in (("wrewrite", []), ("wsnip", ["0"]), ("wcount", [])):
        room.wrong_use(program, "--map", "in", "in", "out", *more, says="'in' and 'in' are the same file")
    same(GOOD, room.get("in"))
    same(["in"], room.files())


@case("the map and the module to standard output: wrong use")
def _(room):
    room.put("in")
    room.wrong_use("wrewrite", "--map", "-", "in", "-", says="'-' and '-' are the same file")


@case("a map or a module to standard output that is closed")
def _(room):
    room.put("in")
    for words in (["--map", "-", "in", "out"], ["--map", "map", "in", "-"]):
        status, _, err = room.run("wrewrite", *words, preexec_fn=lambda: os.close(1))
        same(1, status, err)
        holds("can't be written", err)
    same(["in"], room.files())


@case("another spelling of a path where no file is")
def _(room):
    room.put("in")
    os.mkdir(room.path("folder"))
    room.wrong_use("wrewrite", "--map", "./out", "in", "out", says="'./out' and 'out' are the same file")
    room.wrong_use("wrewrite", "--map", "folder/../out", "in", "out", says="'folder/../out' and 'out' are the same file")
    same(["folder", "in"], room.files())


@case("an absolute path and a relative one")
def _(room):
    room.put("in")
    absolute = os.path.join(room.folder, "out")
    room.wrong_use("wrewrite", "--map", absolute, "in", "out", says=f"'{absolute}' and 'out' are the same file")


@case("a link to the module's file")
def _(room):
    room.put("in")
    room.put("out", b"old")
    os.symlink("out", room.path("link"))
    room.wrong_use("wrewrite", "--map", "link", "in", "out", says="'link' and 'out' are the same file")
    same(b"old", room.get("out"))


@case("a link to where the module's file will be")
def _(room):
    room.put("in")
    os.symlink("out", room.path("link"))
    room.wrong_use("wrewrite", "--map", "link", "in", "out", says="'link' and 'out' are the same file")
    same(["in", "link"], room.files())


@case("a second name of the module's file")
def _(room):
    room.put("in")
    room.put("out", b"old")
    os.link(room.path("out"), room.path("second"))
    room.wrong_use("wrewrite", "--map", "second", "in", "out", says="'second' and 'out' are the same file")


@case("a path through a linked folder")
def _(room):
    room.put("in")
    os.mkdir(room.path("folder"))
    os.symlink("folder", room.path("link"))
    room.wrong_use("wrewrite", "--map", "link/out", "in", "folder/out", says="'link/out' and 'folder/out' are the same file")


@case("the map at the input by a link, and by a second name")
def _(room):
    room.put("in")
    os.symlink("in", room.path("link"))
    os.link(room.path("in"), room.path("second"))
    for name in ("link", "second", "./in"):
        room.wrong_use("wrewrite", "--map", name, "in", "out", says=f"'{name}' and 'in' are the same file")
    same(GOOD, room.get("in"))


@case("the map where standard output goes to")
def _(room):
    room.put("in")
    with open(room.path("out"), "wb") as out:
        room.wrong_use("wrewrite", "--map", "out", "in", "-", says="'out' and '-' are the same file", stdout=out)
    with open(room.path("out"), "wb") as out:
        room.wrong_use("wrewrite", "--map", "-", "in", "out", says="'-' and 'out' are the same file", stdout=out)


@case("the map where standard input comes from")
def _(room):
    room.put("in")
    with open(room.path("in"), "rb") as given:
        room.wrong_use("wrewrite", "--map", "in", "-", "out", says="'in' and '-' are the same file", stdin=given)
    same(GOOD, room.get("in"))


@case("both to /dev/null")
def _(room):
    room.put("in")
    room.works("wrewrite", "--map", "/dev/null", "in", "/dev/null")
    same(["in"], room.files())


@case("two files of one name in two folders")
def _(room):
    room.put("in")
    os.mkdir(room.path("maps"))
    room.works("wrewrite", "--map", "maps/out", "in", "out")
    same((GOOD_MAP, GOOD_WRITTEN), (room.get("maps/out"), room.get("out")))
