"""Traps: node calls a function of a module, which traps, and `llvm-symbolizer` says which function and line of the source each place of the
stack is of, that node prints. The source has comments that say the same, as one does that is in the line of `quotient`: `/* of quotient */`."""
import os
import re
import subprocess
import tempfile

from modules import SOURCES, tool
from trials import contents
from wasm import code_begin

SOURCE = "traps.c"
# The functions that are called, with what, and the functions that run then, from the inside on. Two of them may be at one place of the stack.
CALLS = {
    ("divides", 7, 0): ["quotient", "divides"],
    ("stops", 9, 1): ["stop_after", "stops"],
    ("inlines", 5, 0): ["rest_of", "inlines"],
}
# calls a function of a module, and prints the stack of the trap
CALLER = """
const [path, name, ...values] = process.argv.slice(1);
WebAssembly.instantiate(require("fs").readFileSync(path)).then(({ instance }) => {
    try {
        instance.exports[name](...values.map(Number));
    } catch (error) {
        console.log(error.stack);
    }
});
"""
PLACE = re.compile(r"wasm-function\[\d+\]:0x([0-9a-f]+)")
LINE = re.compile(r"/\* of (\w+) \*/")
NAMED = re.compile(r"^(.*)\n(.*):(\d+):\d+$", re.M)


def can_be_tried():
    """Whether there is what runs a module and what names a place."""
    return bool(tool("node") and tool("llvm-symbolizer"))


def is_of_traps(name):
    return name.startswith("traps-")


def lines():
    """The line of each function, as the source's comments say."""
    with open(f"{SOURCES}/{SOURCE}", encoding="utf-8") as file:
        return {name: number for number, line in enumerate(file, 1) for name in LINE.findall(line)}


def stack(module, call):
    """The places of the module on the stack where a call traps, as addresses of the code."""
    words = [tool("node"), "-e", CALLER, module, *map(str, call)]
    said = subprocess.run(words, capture_output=True, text=True, timeout=120, check=True).stdout
    begin = code_begin(contents(module))
    return [int(place, 16) - begin for place in PLACE.findall(said)]


def named(module, addresses):
    """The functions at these addresses of the code, from the inside on: for each its name, its file and the line."""
    words = [tool("llvm-symbolizer"), f"--obj={module}", *map(hex, addresses)]
    said = subprocess.run(words, capture_output=True, text=True, timeout=120, check=True).stdout
    return [(name, os.path.basename(file), int(line)) for name, file, line in NAMED.findall(said)]


def differences(module):
    """What is said of the calls that isn't what the source says."""
    line_of, found = lines(), []
    for call, functions in CALLS.items():
        wanted = [(name, SOURCE, line_of[name]) for name in functions]
        said = named(module, stack(module, call))
        if said != wanted:
            found.append(f"{call}: {said}, and not {wanted}")
    return found


def written(program, module, tool_name, folder, *words):
    """The path of what a tool writes; or what was said, in an error."""
    status, said, out, _ = program.run(tool_name, module, folder, *words)
    if status:
        raise RuntimeError(f"status {status}: {said.strip()}")
    return out


def trapped(program, module, tool_name):
    """Each place of the stack of a trap, in what a tool writes, is of the function and the line that the source says."""
    with tempfile.TemporaryDirectory() as folder:
        return "\n    ".join(differences(written(program, module, tool_name, folder)))


def stale(program, module, tool_name):
    """Some place is of another function or line where the old sections are kept: so a trap shows whether they follow the code."""
    with tempfile.TemporaryDirectory() as folder:
        found = differences(written(program, module, tool_name, folder, "--keep-debug"))
        return "" if found else "no place has another line with the old sections"
