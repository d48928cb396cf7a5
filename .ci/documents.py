"""What the documents show is what the program prints: their blocks of scripts, models, proof texts and commands, and the rows of
their tables of faults."""

import re
import resource
import subprocess
import tempfile
from pathlib import Path

from prebuilt import program

DOCUMENTS = [Path("README.md"), Path("docs/GUIDE.md"), Path("docs/FAULTS.md")]
# What a model that is nested deep can want of the stack; `./explore` raises it likewise.
STACK = 262144 * 1024


def parts(document):
    """What a document has, in its order: each fenced block with its line, the words behind its fence and its text; and each
    line outside of them with its number, `None` and itself."""
    fence, start, text = None, 0, ""
    for number, line in enumerate(document.read_text(encoding="utf-8").splitlines(), 1):
        if fence is not None and line.startswith("```"):
            yield start, fence if line == "```" else ["open"], text
            fence = None
        elif line.startswith("```"):
            fence, start, text = line[3:].split(), number, ""
        elif fence is not None:
            text += line + "\n"
        else:
            yield number, None, line
    if fence is not None:
        yield start, ["open"], text


def cells(row):
    """The cells of a row of a table."""
    return [cell.strip().replace("\\|", "|") for cell in re.split(r"(?<!\\)\|", row.strip())[1:-1]]


def quoted(cell):
    """The lines of a cell, a piece of code each with `<br>` between them, or `None` where it has anything else."""
    lines = [re.fullmatch(r"`([^`]+)`", part) for part in cell.split("<br>")]
    return "".join(line[1] + "\n" for line in lines) if all(lines) else None


class Shown:
    """Runs what one document shows, in a folder that has the program and the examples."""

    def __init__(self, document, folder):
        self.document = document
        self.folder = folder
        self.status = 0      # which one the heading of the section names
        self.table = None    # the first cell of the head of the table that is read
        self.waiting = None  # whose output comes next: the program's word, a script or proof text, the names of examples
        self.base = "", ""   # the last script that was run, and its output

    def run(self, words, text):
        """The output and the status of the program for these words and this input, where one worker serves all sessions."""
        words = [*words, "--workers", "1"] if words == ["run"] else words
        done = subprocess.run([self.folder / "explore", *words], input=text.encode(), cwd=self.folder, capture_output=True)
        return done.stdout.decode(errors="replace"), done.returncode

    def shell(self, command, faults=subprocess.DEVNULL):
        """What a shell prints for a command, and its status."""
        done = subprocess.run(
            ["bash", "-c", command], stdin=subprocess.DEVNULL, stdout=subprocess.PIPE, stderr=faults, cwd=self.folder
        )
        return done.stdout.decode(errors="replace"), done.returncode

    def compared(self, line, printed, shown):
        """A check that what was printed, and the status, are those that are shown."""
        what = f"{self.document}:{line} shows what is printed"
        return (what, True) if printed == shown else (f"{what}: {printed[0]!r}, status {printed[1]}", False)

    def is_example(self, line, text, names, suffix):
        """The checks that a block is a file of the examples, where its fence or that of its script names one."""
        for name in names:
            file = Path(f"examples/{name}.{suffix}")
            yield f"{self.document}:{line} is {file}", file.is_file() and file.read_text(encoding="utf-8") == text

    def block(self, line, kind, words, text):
        """The checks of a fenced block."""
        if self.waiting is not None and kind != "output":
            yield f"what stands above {self.document}:{line} has an output", False
            self.waiting = None
        if kind in ("explore", "proof"):
            self.waiting = "run" if kind == "explore" else "check", text, words
            yield from self.is_example(line, text, words, "explore")
        elif kind == "output" and self.waiting is not None:
            word, script, names = self.waiting
            self.waiting, self.base = None, (script, text)
            yield self.compared(line, self.run([word], script), (text, int(words[0]) if words else 0))
            yield from self.is_example(line, text, names, "output")
        elif kind == "alloy":
            for name in words:
                (self.folder / name).write_text(text, encoding="utf-8")
            yield self.compared(line, self.run(["run"], f"== model m\n{text}"), ("", 0))
        elif kind == "console":
            commands = re.findall(r"^\$ (.*\n(?:> .*\n)*)((?:(?!\$ ).*\n)*)", text, re.M)
            yield f"{self.document}:{line} is commands", "".join(f"$ {command}{output}" for command, output in commands) == text
            for command, output in commands:
                printed, status = self.shell(command.replace("\n> ", "\n"), subprocess.STDOUT)
                yield self.compared(line, (printed, status), (output, 0))
        else:
            yield f"{self.document}:{line} is a block of a known kind", kind == "text"

    def line(self, line, text):
        """The checks of a line outside of blocks: those of a row of a table, if it is one."""
        if not text.startswith("|"):
            self.table = None
            if text.startswith("#"):
                named = re.search(r"\(status (\d)\)$", text)
                self.status = int(named[1]) if named else 0
            return
        first, *others = cells(text)
        if self.table is None or re.fullmatch(r"-+", first):
            self.table = self.table or first
        elif self.table == WORDS:
            for word in re.findall(r"`(\w+)`", first):
                printed = self.run(["run"], f"== model m\nsig {word} {{}}\n")
                yield self.compared(line, printed, (quoted(others[0]).replace("NAME", word), self.status))
        elif self.table in ROWS:
            text, output = quoted(first), quoted(others[0])
            yield f"{self.document}:{line} is a row that can be run", None not in (text, output)
            if None not in (text, output):
                above = self.base[1] if self.table == LINES else ""
                yield self.compared(line, ROWS[self.table](self, text), (above + output, self.status))
        elif re.match("`(fault|refused) ", others[0]):
            yield f"{self.document}:{line} stands in a table whose rows are run", False


# The tables whose rows are run, by the first cell of their head: the second cell has what is printed.
LINES = "Lines behind it"
WORDS = "In the place of `NAME` in `sig NAME {}`"
ROWS = {
    "A command": lambda shown, text: shown.shell(text),
    "A script": lambda shown, text: shown.run(["run"], text),
    "A model's text": lambda shown, text: shown.run(["run"], f"== model m\n{text}== session s m 1\nnext\n"),
    "A proof text": lambda shown, text: shown.run(["check"], text),
    LINES: lambda shown, text: shown.run(["run"], shown.base[0] + text),
}


def documents():
    """The program prints what the documents show: for each script, model, proof text and command, and each row of a fault.

    A block with the fence `explore` or `proof` is a script or a proof text, and behind it stands one with the fence `output` and
    the status, where it isn't 0; `explore NAME` is that example. `alloy` is a model without a fault, and a file where the fence
    names one; `console` has commands of a shell, each with what a terminal shows; `text` is the only one that isn't run. The rows
    of a table are run where the first cell of its head is one of `ROWS`, or `WORDS`; the heading names their status.
    """
    most = resource.getrlimit(resource.RLIMIT_STACK)[1]
    resource.setrlimit(resource.RLIMIT_STACK, (STACK if most == resource.RLIM_INFINITY else min(STACK, most), most))
    built = program()
    yield "there is a program for the documents", built.is_file()
    if not built.is_file():
        return
    for document in DOCUMENTS:
        with tempfile.TemporaryDirectory() as name:
            folder = Path(name)
            (folder / "explore").symlink_to(built.resolve())
            (folder / "examples").symlink_to(Path("examples").resolve())
            shown = Shown(document, folder)
            for line, fence, text in parts(document):
                if fence is None:
                    yield from shown.line(line, text)
                else:
                    yield from shown.block(line, "".join(fence[:1]), fence[1:], text)
            yield f"the last script of {document} has an output", shown.waiting is None
