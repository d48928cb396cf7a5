"""What the gate looks at beside `rt ci`: that the examples print their outputs, that no edit is dead, that the documents show
what the program prints, that DEFINITIONS has what the promises lead to, that the program in prebuilt/ is the one that was built
here, that the script ./explore, the shell tools/scenes and tools/spread do what they say, and how the program ends where memory is
refused.

Called with the log of `rt ci` and its status. Prints a line for each check that fails, and last `N passed, M failed`, in
which what `rt ci` counted is added to these checks.
"""

import re
import subprocess
import sys
from pathlib import Path

sys.dont_write_bytecode = True

from definitions import definitions, wrong_bodies  # noqa: E402
from documents import documents  # noqa: E402
from prebuilt import builds, prebuilt, program, script  # noqa: E402
from refusals import refusals  # noqa: E402
from scenes import scenes  # noqa: E402
from spread import spread  # noqa: E402

# The status that tells why a run was refused, by the beginning of the line that it prints then; any other run ends with 0.
REFUSED = {b"fault words": 2, b"fault script": 3, b"fault model": 4}


def examples():
    """Each example has an output, and prints just that when it is run, by the program as each of the two compilers has built it."""
    scripts, outputs = ({path.stem: path.read_bytes() for path in Path("examples").glob(f"*.{suffix}")} for suffix in ("explore", "output"))
    yield "each example has an output, and each output an example", scripts.keys() == outputs.keys()
    yield "the program was built", program().is_file()
    for built in builds():
        if not built.is_file():
            print(f"gate: there is no {built}, so the examples weren't run by it")
            continue
        for name, output in sorted(outputs.items()):
            status = next((status for line, status in REFUSED.items() if output.startswith(line)), 0)
            ran = subprocess.run([built.resolve(), "run", "--workers", "1"], input=scripts.get(name, b""), stdout=subprocess.PIPE)
            yield f"{built} prints the output of the example {name}", (ran.stdout, ran.returncode) == (output, status)


def pairs(edit):
    """The file, the old text and the new one of each change of an edit."""
    file = old = None
    for line in edit.read_text(encoding="utf-8").splitlines():
        field, _, text = line.partition(": ")
        if field == "file":
            file = text
        elif field == "old":
            old = text
        elif field == "new":
            yield file, old, text


# How many edits a crate has at most; how many the gate tries, and of how many crates.
MOST_OF_A_CRATE = 8
MOST_TRIED = 40
MOST_CRATES_TRIED = 10


def applies(edit):
    """Each old text of an edit stands exactly once in its file, and doesn't hang on indentation."""
    texts = {}
    alive = True
    for file, old, new in pairs(edit):
        path = edit.parent.parent / file
        if path not in texts:
            texts[path] = path.read_text(encoding="utf-8") if path.is_file() else ""
        text = texts[path]
        alive = alive and text.count(old) == 1 and not old.startswith(" ")
        texts[path] = text.replace(old, new)
    return bool(texts) and alive


def edits(log):
    """The edits that the gate tries (must-fail/) and those that `.ci/edits` tries (edits/) apply, and none is one too many."""
    tried = sorted(Path("crates").glob("*/must-fail/*.edit"))
    kept = sorted(Path("crates").glob("*/edits/*.edit"))
    for edit in tried + kept:
        yield f"the edit {edit} applies", applies(edit)
    crates = [edit.parent.parent for edit in tried + kept]
    for crate in sorted(set(crates)):
        yield f"{crate} has at most {MOST_OF_A_CRATE} edits", crates.count(crate) <= MOST_OF_A_CRATE
    yield f"the gate tries at most {MOST_TRIED} edits", len(tried) <= MOST_TRIED
    of_crates = {edit.parent.parent for edit in tried}
    yield f"the gate tries edits of at most {MOST_CRATES_TRIED} crates", len(of_crates) <= MOST_CRATES_TRIED
    strays = [str(path) for path in sorted(Path("crates").glob("*/edits/*")) if path.suffix not in (".edit", ".md")]
    yield f"what stands among the edits is one {strays or ''}".strip(), not strays
    bad = [line.strip() for line in log.splitlines() if "BAD EDIT" in line]
    yield f"no edit is a bad one {bad or ''}".strip(), not bad


def memory():
    """A run in which one request for memory is refused ends as it may, whichever request that is."""
    if not program().is_file():
        return
    for name in ("first", "added"):
        requests, ends, others = refusals(program().resolve(), Path(f"examples/{name}.explore").read_bytes())
        yield f"the example {name} ends as it may where memory is refused {others or ''}".strip(), not others and ends.total() == requests
        yield f"the example {name} is answered by `memory`, or not at all", len(ends) == 3
    requests, ends, others = refusals(program().resolve(), Path("examples/first.explore").read_bytes(), word="crew")
    yield f"a crew ends as it may where memory is refused {others or ''}".strip(), not others and ends.total() == requests


def main():
    log = Path(sys.argv[1]).read_text(encoding="utf-8", errors="replace")
    passed, failed = 0, 0
    for line in log.splitlines():
        counted = re.match(r"(\d+) passed, (\d+) failed", line)
        if counted:
            passed, failed = int(counted[1]), int(counted[2])
    if sys.argv[2] != "0":
        failed = max(failed, 1)
    checks = [*examples(), *edits(log), *documents(), *definitions(), *wrong_bodies()]
    checks += [*prebuilt(sys.argv[2]), *script(), *memory(), *scenes(), *spread()]
    own = 0
    for what, holds in checks:
        if holds:
            passed += 1
        else:
            own += 1
            print(f"gate: not so: {what}")
    print(f"{passed} passed, {failed + own} failed")
    return 1 if own else 0


sys.exit(main())
