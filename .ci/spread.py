"""The tool `tools/spread` prints what one run prints, with the program that the gate has built: of each example with `all` alone, of
scripts that have a fault, of models that are refused; and it says which parts aren't answered."""

import subprocess
import tempfile
from pathlib import Path

from prebuilt import program

MODEL = "== model m\nsig A { f: set A }\nrun { some f } for 2\nrun { some A } for 3\n"
TWO = "== session s m 1\nall 1\n== session t m 2\nall 1\n"
SESSIONS = "".join(f"== session s{n} m {n % 2 + 1}\nall 100\n" for n in range(1, 65))
# Scripts that are answered otherwise than session by session, and such as could be cut in a wrong place.
SCRIPTS = {
    "no text at all": "",
    "a model without sessions": MODEL,
    "a model without sessions that has a fault": "== model m\nsig A {\n",
    "64 sessions": MODEL + SESSIONS,
    "65 sessions": MODEL + SESSIONS + "== session more m 1\nall 1\n",
    "two models of one name": MODEL + MODEL + TWO,
    "a line that is no command": MODEL + TWO + "al 1\n",
    "a line at fault with others behind it": MODEL + TWO + "== sesion u m 1\nal 1\n== more v\n",
    "a last line without its end": MODEL + TWO[:-1],
    "lines that end as on other machines": (MODEL + TWO).replace("\n", "\r\n"),
    "a last line that ends half": MODEL + TWO[:-1] + "\r",
    "a model at fault that no session names": MODEL + "== model n\nsig A {\n" + TWO,
    "a session on a command that isn't there": MODEL + TWO + "== session u m 9\nall 1\n",
    "sessions that are gone on with": MODEL + TWO + "==  more   s\nbudget 9\n# no\n\nall 5\n== more t\nall 9\n",
    "a model that speaks of models": MODEL + "-- == model x\n/* \n == model m\n*/\n" + TWO,
    "more than a script may have": "#" * 1_048_577,
    "nearly more than a script may have": "#" * 1_048_573 + "\n",
    "a byte that is no text": MODEL + "-- \udcff\n" + TWO,
}


def with_all_alone(script):
    """The script with `all` in the place of what its sessions ask for."""
    lines, is_model = [], False
    for line in script.splitlines():
        if line.startswith("=="):
            is_model = line.split()[1] == "model"
            lines += [line, "all 100"] if line.split()[1] == "session" else [line]
        elif is_model:
            lines.append(line)
    return "\n".join(lines) + "\n"


def ran(command, **others):
    """The output, the status, and what was said on standard error."""
    done = subprocess.run(command, stdout=subprocess.PIPE, stderr=subprocess.PIPE, **others)
    return done.stdout, done.returncode, done.stderr


def spread():
    """What the tool prints is what one run prints. Where GNU parallel isn't installed, the tool isn't tried."""
    if not program().is_file():
        return
    try:
        there = ran(["parallel", "--version"], stdin=subprocess.DEVNULL)[0].startswith(b"GNU parallel")
    except OSError:
        there = False
    if not there:
        print("gate: tools/spread was skipped, since GNU parallel isn't installed")
        return
    built = str(program().resolve())
    scripts = dict(SCRIPTS)
    for file in sorted(Path("examples").glob("*.explore")):
        scripts[f"the example {file.stem} with all alone"] = with_all_alone(file.read_text(encoding="utf-8"))
    with tempfile.TemporaryDirectory() as name:
        at = Path(name) / "script"
        for what, script in scripts.items():
            at.write_bytes(script.encode("utf-8", "surrogateescape"))
            for word in (["run"], ["distinct", "--budget", "500"]) if what == "64 sessions" else (["run"],):
                alone = ran([built, *word], input=at.read_bytes())
                joined = ran(["tools/spread", "--jobs", "4", "--program", built, *word, str(at)])
                yield f"tools/spread {word[0]} prints what one run prints: {what}", joined[:2] == alone[:2]
        yield from failing(Path(name), at)


def failing(folder, at):
    """A part that isn't answered is named, the others are printed, and the end is the least status."""
    stand_in = folder / "program"
    stand_in.write_text(
        '#!/bin/sh\nscript="$(cat)"\n'
        'case "$script" in *"== session s"*) ;; *"== session t"*) exit 7 ;; *"== session u"*) kill -9 $$ ;; esac\n'
        f"printf '%s\\n' \"$script\" | {program().resolve()} \"$@\"\n"
    )
    stand_in.chmod(0o755)
    sessions = {one: f"== session {one} m 1\nall 9\n" for one in "stuv"}
    at.write_text(MODEL + "".join(sessions.values()))
    expected = ran([str(program().resolve()), "run"], input=(MODEL + sessions["s"] + sessions["v"]).encode())[0]
    printed, status, errors = ran(["tools/spread", "--jobs", "4", "--program", str(stand_in), str(at)])
    yield "tools/spread prints the sessions that were answered, where others weren't", printed == expected
    yield "tools/spread names each session that wasn't answered", errors == b"spread: session t: status 7\nspread: session u: status 137\n"
    yield "tools/spread ends with the least status of these", status == 7
