"""What `llvm-dwarfdump` prints of a module, split by section."""
import os
import re
import resource
import subprocess
import tempfile

# what llvm-dwarfdump may take: a damaged number may be a count of lines
SECONDS, MEMORY = 120, 2 << 30
HEADING = re.compile(r"^(\.debug_\w+) contents:$")


def limited(words, path):
    """Runs a program over a module, and returns its status and what it printed, up to so many times the module's size."""
    most = (8 << 20) + 200 * os.path.getsize(path)

    def limit():
        resource.setrlimit(resource.RLIMIT_CPU, (SECONDS, SECONDS))
        resource.setrlimit(resource.RLIMIT_AS, (MEMORY, MEMORY))
        resource.setrlimit(resource.RLIMIT_FSIZE, (most, most))
        resource.setrlimit(resource.RLIMIT_CORE, (0, 0))

    with tempfile.TemporaryFile() as out, tempfile.TemporaryFile() as err:
        ran = subprocess.run([*words, path], stdin=subprocess.DEVNULL, stdout=out, stderr=err, preexec_fn=limit)
        for it in (out, err):
            it.seek(0)
        return ran.returncode, out.read().decode("utf-8", "replace"), err.read().decode("utf-8", "replace")


class Dump:
    """The lines of each section, and what else was printed."""

    def __init__(self, tool, path):
        self.status, text, said = limited([tool, "-v", "-a"], path)
        # what is printed where it aborts isn't a message
        self.said = [kind_of_message(it) for it in said.splitlines() if self.status >= 0]
        self.sections, lines = {}, []
        for line in text.split("\n"):
            heading = HEADING.match(line)
            if heading:
                lines = self.sections.setdefault(heading[1], [])
            else:
                lines.append(line)

    def lines(self, name):
        return self.sections.get(name, [])


def kind_of_message(line):
    """A message without its numbers and names."""
    return re.sub(r"'[^']*'|\"[^\"]*\"|0x[0-9a-f]+|\b\d+\b", "_", line)


def faults_of(tool, path):
    """How many errors of each kind `llvm-dwarfdump --verify` finds."""
    _, text, _ = limited([tool, "--verify"], path)
    counts = {}
    for line in text.splitlines():
        if line.startswith("error: "):
            kind = kind_of_message(line)
            counts[kind] = counts.get(kind, 0) + 1
    return counts
