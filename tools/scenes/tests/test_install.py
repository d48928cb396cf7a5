"""`make install`, into a folder of its own."""

from __future__ import annotations

import os
import subprocess
import tempfile
import unittest
from pathlib import Path

from .transcript import TOP


class Installed(unittest.TestCase):
    """What is installed runs by itself, and goes again."""

    def setUp(self) -> None:
        made = tempfile.TemporaryDirectory()
        self.addCleanup(made.cleanup)
        self.folder = Path(made.name)
        # Another program in the place of explore: what it is asked is what it answers.
        self.program = self.folder / "program"
        self.program.write_text("#!/bin/sh\necho \"fault model m 1:5 unexpected\"\ntest \"$1\" = run && exit 4\necho \"$@\"\n")
        self.program.chmod(0o755)
        self.prefix = self.folder / "prefix"
        self.make("install")

    def make(self, word: str) -> None:
        words = ["make", "-s", word, f"PREFIX={self.prefix}", f"PROGRAM={self.program}"]
        done = subprocess.run(words, cwd=TOP, capture_output=True, text=True)
        self.assertEqual((done.returncode, done.stderr), (0, ""))

    def call(self, *words: str) -> subprocess.CompletedProcess[str]:
        """Runs what was installed, from another folder, without the repository."""
        environment = {name: value for name, value in os.environ.items() if name != "EXPLORE"}
        environment["PATH"] = f"{self.prefix / 'bin'}:{environment['PATH']}"
        return subprocess.run(words, cwd=self.folder, capture_output=True, text=True, env=environment, timeout=60)

    def test_commands(self) -> None:
        self.assertEqual(self.call("explore", "check").stdout, "fault model m 1:5 unexpected\ncheck\n")
        (self.folder / "m.als").write_text("sig all {}\n")
        done = self.call("scenes", "--look", "m.als")
        self.assertEqual((done.returncode, done.stderr), (4, ""))
        self.assertIn("~ m.als:1:5: unexpected", done.stdout.splitlines())

    def test_cures_and_page_are_there(self) -> None:
        lib = self.prefix / "lib/vezhundri/scenes"
        self.assertEqual((lib / "FAULTS.md").read_bytes(), (TOP / "docs/FAULTS.md").read_bytes())
        own = {path.relative_to(TOP / "tools/scenes") for path in (TOP / "tools/scenes/loop").rglob("*") if path.suffix in (".py", ".html", ".js", ".css")}
        self.assertEqual({path.relative_to(lib) for path in (lib / "loop").rglob("*") if path.is_file() and path.suffix != ".pyc"}, own)

    def test_pages_of_the_manual(self) -> None:
        names = {path.name for path in (self.prefix / "share/man").rglob("*.[15]")}
        self.assertEqual(names, {"explore.1", "scenes.1", "explore-script.5"})

    def test_uninstall(self) -> None:
        self.make("uninstall")
        self.assertEqual([path for path in self.prefix.rglob("*") if not path.is_dir()], [])


if __name__ == "__main__":
    unittest.main()
