"""The modules that are tried: made of the sources beside this folder by clang 14 and its linker, or those that are stored; and those by hand."""
import glob
import os
import shutil
import subprocess

import corner_tables
import corners as corner_forms

HERE = os.path.dirname(os.path.dirname(os.path.realpath(__file__)))
SOURCES, STORED = f"{HERE}/sources", f"{HERE}/modules"
# the folder that the debug information names
FOLDER = "/sources"

EXPORTED = ["--export=start", "--export=start_of_templates", "--export=start_of_arguments", "--export=caught", "--export=many", "--export=gone"]
EXPORTED += ["--export=divides", "--export=stops", "--export=inlines"]
SHAPES, TEMPLATES, LOCALS, TRAPS = ["shapes.c", "second.c"], ["templates.cpp", "tag.s"], ["locals.c"], ["traps.c"]
MACROS = ["-fdebug-macro", "-undef"]
NAMES = ["-gdwarf-aranges", "-ggnu-pubnames", *MACROS]
PUBLIC = ["-gdwarf-aranges", "-gpubnames"]
ACCELERATED = ["-gpubnames", "-mllvm", "-accel-tables=Dwarf"]
WIDE = ["--target=wasm64"]


def ways():
    """The modules by name: the sources, and what the compiler is told. A list in the place of a word has one for each source."""
    made = {}
    for version in "2345":
        for level in "02":
            how = [f"-gdwarf-{version}", f"-O{level}"]
            made[f"shapes-{version}-O{level}"] = SHAPES, how
            made[f"templates-{version}-O{level}"] = TEMPLATES, how
            if version in "45":
                made[f"types-{version}-O{level}"] = TEMPLATES, [*how, "-fdebug-types-section"]
                made[f"arguments-{version}-O{level}"] = TEMPLATES, [*how, "-DARGUMENTS"]
                made[f"wide-{version}-O{level}"] = SHAPES, [*WIDE, *how]
                made[f"locals-{version}-O{level}"] = LOCALS, how
                made[f"traps-{version}-O{level}"] = TRAPS, how
        made[f"names-{version}-O1"] = SHAPES, [f"-gdwarf-{version}", "-O1", *NAMES]
    for version, level in (("4", "2"), ("5", "0"), ("5", "2")):
        made[f"accelerated-{version}-O{level}"] = SHAPES, [f"-gdwarf-{version}", f"-O{level}", *ACCELERATED]
    made["accelerated-mixed-O1"] = SHAPES, [["-gdwarf-5", "-gdwarf-4"], "-O1", *ACCELERATED]
    made["accelerated-templates-5-O2"] = TEMPLATES, ["-gdwarf-5", "-O2", *ACCELERATED]
    made["accelerated-locals-5-O2"] = LOCALS, ["-gdwarf-5", "-O2", *ACCELERATED]
    made["macros-4-O2"] = SHAPES, ["-gdwarf-4", "-O2", *MACROS, "-mllvm", "-use-gnu-debug-macro"]
    made["macros-5-O2"] = SHAPES, ["-gdwarf-5", "-O2", *MACROS]
    made["macros-mixed-O0"] = SHAPES, [["-gdwarf-5", "-gdwarf-4"], "-O0", *MACROS, "-mllvm", "-use-gnu-debug-macro"]
    made["public-3-O2"] = SHAPES, ["-gdwarf-3", "-O2", *PUBLIC]
    made["public-4-O0"] = SHAPES, ["-gdwarf-4", "-O0", *PUBLIC]
    made["plain-4-Os"] = SHAPES, ["-gdwarf-4", "-Os", "-gno-column-info"]
    made["mixed-45-O2"] = SHAPES, [["-gdwarf-5", "-gdwarf-4"], "-O2"]
    made["mixed-52-O0"] = SHAPES, [["-gdwarf-2", "-gdwarf-5"], "-O0"]
    return made


# those that are stored, each of some KB: one for each kind
KEPT = ["shapes-4-O2", "shapes-5-O2", "shapes-2-O0", "templates-3-O2", "types-4-O2", "types-5-O0", "names-4-O1", "accelerated-5-O2", "mixed-45-O2", "traps-4-O0",
    "traps-5-O2"]


def tool(name):
    """The path of a program of LLVM 14, or None."""
    return shutil.which(f"{name}-14") or shutil.which(name)


def can_be_made():
    """Whether clang 14 and its linker are there, with the target WebAssembly."""
    clang, linker = tool("clang"), tool("wasm-ld")
    if not clang or not linker:
        return False
    said = subprocess.run([clang, "--target=wasm32", "--version"], capture_output=True, text=True).stdout
    return "clang version 14." in said


def run(*words):
    ran = subprocess.run(words, stdout=subprocess.PIPE, stderr=subprocess.STDOUT, text=True)
    if ran.returncode:
        raise RuntimeError(f"{' '.join(words)}\n{ran.stdout[-2000:]}")


def make(name, to):
    """Compiles and links a module."""
    sources, how = ways()[name]
    is_wide = WIDE[0] in how
    objects = []
    for number, source in enumerate(sources):
        words = [it if isinstance(it, str) else it[number] for it in how]
        target = [] if is_wide else ["--target=wasm32"]
        if source.endswith(".s"):
            words = ["-mexception-handling"]
        else:
            words += ["-g", "-nostdinc", f"-ffile-prefix-map={SOURCES}={FOLDER}", f"-fdebug-compilation-dir={FOLDER}", "-ffunction-sections"]
            words += ["-fwasm-exceptions", "-fno-rtti"] if source.endswith(".cpp") else []
        objects.append(f"{to}.{number}.o")
        run(tool("clang"), *target, *words, "-c", f"{SOURCES}/{source}", "-o", objects[-1])
    wanted = [it for it in EXPORTED if exports(sources, how, it.split("=")[1])]
    run(tool("wasm-ld"), *(["-mwasm64"] if is_wide else []), "--no-entry", "--allow-undefined", "--gc-sections", *wanted, *objects, "-o", to)
    for it in objects:
        os.remove(it)


def exports(sources, how, name):
    """Whether one of the sources has a function of this name."""
    if name == "start_of_arguments" and "-DARGUMENTS" not in how:
        return False
    texts = []
    for source in sources:
        with open(f"{SOURCES}/{source}") as file:
            texts.append(file.read())
    return f"{name}(" in "".join(texts)


def made(folder):
    """The paths of all modules by name, which are made in the folder where they aren't there."""
    paths = {}
    for name in ways():
        paths[name] = f"{folder}/{name}.wasm"
        if not os.path.exists(paths[name]):
            make(name, f"{paths[name]}.new")
            os.rename(f"{paths[name]}.new", paths[name])
    return paths


def corners(folder):
    """The paths of the modules by hand, which are made in the folder."""
    paths = {}
    for name, make_corner in {**corner_forms.CORNERS, **corner_tables.CORNERS}.items():
        paths[f"corner-{name}"] = path = f"{folder}/corner-{name}.wasm"
        with open(path, "wb") as file:
            file.write(make_corner())
    return paths


def stored():
    """The paths of the stored modules by name."""
    return {os.path.basename(it)[: -len(".wasm")]: it for it in sorted(glob.glob(f"{STORED}/*.wasm"))}


def store():
    """Makes the stored modules anew."""
    os.makedirs(STORED, exist_ok=True)
    for name in KEPT:
        make(name, f"{STORED}/{name}.wasm")
        os.chmod(f"{STORED}/{name}.wasm", 0o644)
