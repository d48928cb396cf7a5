"""The cures of docs/FAULTS.md, read from its tables, so that none is written twice."""

from __future__ import annotations

import re
from dataclasses import dataclass
from pathlib import Path

_FAULT = re.compile(r"fault model m (?:(?P<line>\d+):(?P<column>\d+) )?(?:command \d+ )?(?P<kind>.+)\Z")


@dataclass(frozen=True)
class Row:
    """A row on a model's text: the text, where the fault is told, its kind, and what to write instead."""

    text: str
    place: tuple[int, int] | None
    kind: str
    cure: str


class Cures:
    """The rows of the tables whose first cells are models' texts."""

    def __init__(self, rows: list[Row]) -> None:
        self.rows = rows
        self._by_text = {row.text: row for row in rows}

    def of_text(self, text: str) -> str:
        """The cure in the row of a text, or nothing where no row has it."""
        row = self._by_text.get(text)
        return row.cure if row else ""

    def of_kind(self, kind: str) -> str:
        """The cure in the first row of a kind: the list has the general rows before the others."""
        return next((row.cure for row in self.rows if row.kind == kind), "")

    def is_sole(self, kind: str) -> bool:
        """Whether just one row has this kind."""
        return sum(row.kind == kind for row in self.rows) == 1


def find() -> Path | None:
    """The list of faults: that of the repository, or the one that was installed with this program."""
    here = Path(__file__).resolve().parents[1]
    for path in (here.parents[1] / "docs" / "FAULTS.md", here / "FAULTS.md"):
        if path.is_file():
            return path
    return None


def read(path: Path | None = None) -> Cures:
    """Reads the list; without it there are no cures."""
    path = path or find()
    return Cures(_rows(path.read_text(encoding="utf-8").splitlines()) if path else [])


def _rows(lines: list[str]) -> list[Row]:
    rows: list[Row] = []
    inside = False
    for line in lines:
        if not line.startswith("|"):
            inside = False
            continue
        cells = [cell.strip().replace("\\|", "|") for cell in re.split(r"(?<!\\)\|", line)[1:-1]]
        if cells[0] == "A model's text":
            inside = True
        elif inside and len(cells) == 3 and not cells[0].startswith("-"):
            text, said = re.match(r"`([^`]+)`", cells[0]), re.match(r"`([^`]+)`", cells[1])
            fault = _FAULT.match(said[1]) if said else None
            if text and fault:
                place = (int(fault["line"]), int(fault["column"])) if fault["line"] else None
                rows.append(Row(text[1], place, fault["kind"], _whole(cells[2], rows)))
    return rows


def _whole(cure: str, above: list[Row]) -> str:
    """A cure that says "the same" gets the one above it in its place, and what it says beyond that behind it."""
    same = re.match(r"the same\b[:;,]?\s*(.*)", cure)
    if not same or not above:
        return cure
    return above[-1].cure + (f"; {same[1]}" if same[1] else "")
