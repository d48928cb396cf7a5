"""A transcript: what a terminal would show of `scenes`, with its words behind the prompt.

Its first line is the command, `$ scenes ..`; each line behind the prompt is fed to it, and all that it writes has to be what the
transcript has. A folder for files is made for each, and `TMP` stands for its name.
"""

from __future__ import annotations

import os
import shlex
import subprocess
import sys
import tempfile
from pathlib import Path

from loop.out import PROMPT
from loop.program import find

TOOL = Path(__file__).resolve().parents[1]
TOP = TOOL.parents[1]
FOLDER = Path(__file__).resolve().parent / "transcripts"


def environment() -> dict[str, str]:
    """That of these tests, with the program that they run."""
    return {**os.environ, "EXPLORE": find()}


def scenes(words: list[str], text: str, wait: float = 120) -> subprocess.CompletedProcess[str]:
    """Runs `scenes` in the repository's folder with a text as its input."""
    return subprocess.run(
        [sys.executable, TOOL / "scenes", *words], input=text, capture_output=True, text=True, cwd=TOP, env=environment(), timeout=wait
    )


def again(transcript: str) -> str:
    """What comes now for the words of a transcript."""
    command, _, rest = transcript.partition("\n")
    fed = "".join(line[len(PROMPT) :] + "\n" for line in rest.split("\n") if line.startswith(PROMPT))
    with tempfile.TemporaryDirectory() as folder:
        words = shlex.split(command.replace("TMP", folder))
        done = scenes(words[2:], fed.replace("TMP", folder))
        return command + "\n" + (done.stdout + done.stderr).replace(folder, "TMP")


def main() -> None:
    """Writes all transcripts anew."""
    for path in sorted(FOLDER.glob("*.txt")):
        was = path.read_text(encoding="utf-8")
        now = again(was)
        path.write_text(now, encoding="utf-8")
        print(f"{path.name}: {'as it was' if was == now else 'changed'}")


if __name__ == "__main__":
    main()
