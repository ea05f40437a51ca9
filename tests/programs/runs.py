"""Runs of the programs, in a folder that each case has for itself; what a case checks of them; and the list of all cases. Also
the names of the programs, and where they and the files are that they are tried on."""
import json
import os
import resource
import shutil
import signal
import subprocess

from modules import GOOD

TOP = os.path.dirname(os.path.dirname(os.path.dirname(os.path.realpath(__file__))))
PROGRAMS = ("wrewrite", "wsnip", "wcount", "wmeter", "wgc")
# The program that is all of them, and what it is tried on.
TOGETHER = "wtools"
DATA = f"{TOP}/crates/{TOGETHER}/data"
# The program that rewrites and runs bodies without a module.
BODIES = "wbody"
# The program that runs rows of cases through it.
ROWS = "wbody_rows"
EXAMPLES = ("examples",)
# The tools of the program `examples`, whose first word names one of them.
TOOLS = ("wgrow", "wloops", "wone", "wtrace", "wvalid")
NODE = shutil.which("node")
CASES = []


def case(name):
    """Adds a case of this name: it is handed a room of its own, and fails by an AssertionError."""
    return lambda function: CASES.append((name, function))


class Room:
    """An empty folder, and runs of programs in it."""

    def __init__(self, folder, programs):
        self.folder, self.programs = folder, programs

    def path(self, name):
        return os.path.join(os.fsencode(self.folder), os.fsencode(name))

    def put(self, name, contents=GOOD):
        with open(self.path(name), "wb") as file:
            file.write(contents)
        return name

    def get(self, name):
        with open(self.path(name), "rb") as file:
            return file.read()

    def files(self):
        return sorted(os.listdir(self.folder))

    def start(self, program, *words, started=None, **rest):
        """Starts a program, under its path or another name."""
        if program in TOOLS:
            program, words = "examples", (program, *words)
        file = f"{self.programs}/{program}"
        streams = {"stdin": subprocess.DEVNULL, "stdout": subprocess.PIPE, "stderr": subprocess.PIPE}
        name = file if started is None else started
        return subprocess.Popen([name, *words], executable=file, cwd=self.folder, **{**streams, **rest})

    def run(self, program, *words, given=None, **rest):
        """Runs a program, and returns its status, and what it printed to both streams."""
        if given is not None:
            rest["stdin"] = subprocess.PIPE
        running = self.start(program, *words, **rest)
        out, err = running.communicate(given, timeout=60)
        return running.returncode, out, (err or b"").decode("utf-8", "replace")

    def works(self, program, *words, **rest):
        """Runs a program that does what is asked for, and returns what it printed to standard output."""
        status, out, err = self.run(program, *words, **rest)
        same(0, status, err)
        same("", err)
        return out

    def wrong_use(self, program, *words, says, **rest):
        """Runs a program that is used wrong."""
        status, out, err = self.run(program, *words, **rest)
        same(2, status, err)
        same(f"{program}: {says}\ntry '{program} --help'\n", err)
        same(b"", out or b"")

    def refuses(self, program, *words, says, **rest):
        """Runs a program that refuses, with one line."""
        status, out, err = self.run(program, *words, **rest)
        same(1, status, err)
        same(f"{program}: {says}\n", err)
        same(b"", out or b"")


class Skipped(Exception):
    """What a case needs, and isn't there."""


def same(want, found, of=""):
    assert want == found, f"wanted {want!r}, found {found!r}" + (f" of {of!r}" if of else "")


def holds(text, whole):
    assert text in whole, f"{text!r} isn't in {whole!r}"


def stored(name):
    with open(f"{DATA}/{name}", "rb") as file:
        return file.read()


def few_bytes():
    """A file takes 4096 bytes at most, and a write beyond that fails."""
    signal.signal(signal.SIGXFSZ, signal.SIG_IGN)
    resource.setrlimit(resource.RLIMIT_FSIZE, (4096, 4096))


def node(room, script, *words):
    """What node prints for a script and these words, as JSON. A case that needs it is skipped where there is no node."""
    if NODE is None:
        raise Skipped("node isn't there")
    words = [NODE, "--no-deprecation", "-e", script, *words]
    ran = subprocess.run(words, cwd=room.folder, stdout=subprocess.PIPE, stderr=subprocess.PIPE, timeout=60)
    same(0, ran.returncode, ran.stderr.decode())
    return json.loads(ran.stdout)
