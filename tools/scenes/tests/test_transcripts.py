"""The shell through its standard input, on models of the repository: all that it writes is written out beside these tests."""

from __future__ import annotations

import unittest

from .transcript import FOLDER, again


class Transcripts(unittest.TestCase):
    maxDiff = None


def _test(path):
    def test(self: Transcripts) -> None:
        shown = path.read_text(encoding="utf-8")
        self.assertIn("\n~> ", shown, "a transcript has words")
        self.assertEqual(again(shown), shown)

    return test


for _path in sorted(FOLDER.glob("*.txt")):
    setattr(Transcripts, f"test_{_path.stem}", _test(_path))

if __name__ == "__main__":
    unittest.main()
