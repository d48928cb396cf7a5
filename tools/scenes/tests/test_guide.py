"""What the guide shows of `scenes` is what it writes."""

from __future__ import annotations

import re
import shlex
import subprocess
import sys
import tempfile
import unittest
from pathlib import Path

from loop.out import PROMPT

from .transcript import TOOL, TOP, environment

GUIDE = TOP / "docs" / "GUIDE.md"
COMMAND = "$ tools/scenes/scenes "


class Guide(unittest.TestCase):
    maxDiff = None

    def test_transcripts(self) -> None:
        """Each block that begins with the command, on the models that the guide has above it."""
        text = GUIDE.read_text(encoding="utf-8")
        if COMMAND not in text:
            self.skipTest("the guide shows nothing of scenes")
        with tempfile.TemporaryDirectory() as made:
            folder = Path(made)
            (folder / "examples").symlink_to(TOP / "examples")
            for words, block in re.findall(r"^```(\w+.*)\n((?:(?!```).*\n)*)```$", text, re.M):
                kind, *names = words.split()
                for name in names if kind in ("alloy", "text") else ():
                    (folder / name).write_text(block, encoding="utf-8")
                if block.startswith(COMMAND):
                    with self.subTest(block.split("\n")[0]):
                        self.assertEqual(self.again(block, folder), block)

    def again(self, block: str, folder: Path) -> str:
        """What comes now for the words of a block."""
        command, _, rest = block.partition("\n")
        fed = "".join(line[len(PROMPT) :] + "\n" for line in rest.split("\n") if line.startswith(PROMPT))
        words = [sys.executable, str(TOOL / "scenes"), *shlex.split(command[len(COMMAND) :])]
        done = subprocess.run(words, input=fed, capture_output=True, text=True, cwd=folder, env=environment(), timeout=120)
        return f"{command}\n{done.stdout}{done.stderr}"


if __name__ == "__main__":
    unittest.main()
