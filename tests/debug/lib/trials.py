"""What is tried of a program on a module: each returns '' where all is well, or else what isn't, in lines."""
import os
import subprocess
import tempfile
from dataclasses import dataclass

from judge import judge_faults, judged
from moves import Moves, identity_map
from wasm import debug_sections, with_debug

OUT_OF_DATE = "debug information is out of date"
# Modules with what needn't be moved, as the manual says: their debug information may also be carried over as it is.
MAY_BE_CARRIED_OVER = ("corner-odd-", "arguments-")
# The same of what `wsnip` writes: expressions name entries, of which some change their sizes.
MAY_BE_CARRIED_OVER_BY_WSNIP = ("templates-5-", "accelerated-templates-5-", "types-5-")


@dataclass
class Program:
    """The program that is tried, and `llvm-dwarfdump`."""

    path: str
    dwarfdump: str

    def run(self, tool, module, folder, *words):
        """Runs a tool over a module, with a location map. Returns the status, what was said, and the paths of what was written and of the map."""
        out, map_path = f"{folder}/out.wasm", f"{folder}/map"
        ran = subprocess.run([self.path, tool, "--map", map_path, module, out, *words], capture_output=True, text=True, errors="replace", timeout=120)
        return ran.returncode, ran.stderr, out, map_path

    def largest(self, module):
        """The index of the function with the largest body."""
        ran = subprocess.run([self.path, "wsnip", "--list", module], capture_output=True, text=True, check=True)
        return max((it.split(" ") for it in ran.stdout.splitlines()), key=lambda it: int(it[1]))[0]


def contents(path):
    with open(path, "rb") as file:
        return file.read()


def text(path):
    with open(path, encoding="utf-8") as file:
        return file.read()


def put(path, data):
    with open(path, "wb") as file:
        file.write(data)
    return path


def compared(program, old, new, map_text):
    """The differences between two modules, of which the map says where operators went."""
    moves = Moves(contents(old), contents(new), map_text)
    found, _ = judged(program.dwarfdump, moves, old, new)
    judge_faults(program.dwarfdump, found, old, new)
    return found


def report(found):
    return "\n".join([found.summary(), *found.lines()]) if found.any() else ""


def comparison(program, module):
    """The comparison itself: a module and itself have no difference, and other code with the same sections has some."""
    with tempfile.TemporaryDirectory() as folder:
        same = compared(program, module, module, identity_map(contents(module)))
        if same.any():
            return "a module and itself: " + report(same)
        status, said, out, map_path = program.run("wrewrite", module, folder)
        if status:
            return f"wrewrite: status {status}: {said.strip()}"
        moves = Moves(contents(module), contents(out), text(map_path))
        stale = put(f"{folder}/stale.wasm", with_debug(contents(out), dict(debug_sections(contents(module)))))
        if not moves.is_still() and not compared(program, module, stale, text(map_path)).any():
            return "no difference is found where nothing follows the code"
    return ""


def is_carried_over(module, said, out):
    """Whether what a tool wrote has the debug information of the source, byte for byte, and a warning."""
    return OUT_OF_DATE in said and debug_sections(contents(module)) == debug_sections(contents(out))


def moved(program, module, tool):
    """What a tool writes has debug information that follows the code, without a warning; or all of it as it was, with one, if that may be."""
    with tempfile.TemporaryDirectory() as folder:
        words = [program.largest(module)] if tool == "wsnip" else []
        status, said, out, map_path = program.run(tool, module, folder, *words)
        if status:
            return f"status {status}: {said.strip()}"
        names = MAY_BE_CARRIED_OVER + (MAY_BE_CARRIED_OVER_BY_WSNIP if tool == "wsnip" else ())
        if os.path.basename(module).startswith(names) and is_carried_over(module, said, out):
            return ""
        found = compared(program, module, out, text(map_path))
        if OUT_OF_DATE in said:
            found.add("warnings", said.strip())
    return report(found)


def again(program, module):
    """What is written is rewritten: its code stays, and so does each section of DWARF, byte for byte."""
    with tempfile.TemporaryDirectory() as folder:
        status, said, out, _ = program.run("wrewrite", module, folder)
        if status:
            return f"status {status}: {said.strip()}"
        once = f"{folder}/once.wasm"
        os.rename(out, once)
        status, said, out, map_path = program.run("wrewrite", once, folder)
        if status or said:
            return f"status {status}: {said.strip()}"
        if not Moves(contents(once), contents(out), text(map_path)).is_still():
            return "the code has changed"
        before, after = (debug_sections(contents(it)) for it in (once, out))
        return "" if before == after else "other bytes: " + ", ".join(name for (name, it), (_, other) in zip(before, after) if it != other)
