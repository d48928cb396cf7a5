"""What a fault of the program means for the file that is looked at: the place, the line with a caret, and the cure."""

from __future__ import annotations

import re
import unicodedata
from dataclasses import dataclass

from . import forms
from .cures import Cures
from .source import Source

_MODEL = re.compile(r"fault model \w+ (?:(?P<line>\d+):(?P<column>\d+) )?(?:command (?P<command>\d+) )?(?P<kind>.+)\Z")


@dataclass(frozen=True)
class Told:
    """A place of the file: its line and column there (0 where the fault has none), the kind, the line, and the cure."""

    line: int
    column: int
    kind: str
    shown: str
    cure: str
    is_programs: bool  # told by the program, and not by the look at the text

    def caret(self) -> str:
        """Spaces up to the place, as wide as what stands before it, and a caret."""
        return "".join(_blank(character) for character in self.shown[: max(0, self.column - 1)]) + "^"


def _blank(character: str) -> str:
    if character == "\t":
        return "\t"
    if unicodedata.combining(character):
        return ""
    return "  " if unicodedata.east_asian_width(character) in "WF" else " "


def explain(line: str, source: Source, cures: Cures) -> list[Told]:
    """The fault that the program told of the model, and behind it the other places that the look at the text finds."""
    fault = _MODEL.match(line)
    if not fault:
        return []
    kind = fault["kind"]
    if fault["command"]:
        command = next((c for c in source.outline.commands if c.number == int(fault["command"])), None)
        row, column = (command.line, 1) if command else (0, 0)
        return [_told(source, row, column, f"command {fault['command']} {kind}", cures.of_kind(kind), True)]
    found = forms.places(source.text)
    if not fault["line"]:
        return _with_places(None, kind, found, source, cures)
    return _with_places((int(fault["line"]), int(fault["column"])), kind, found, source, cures)


def _with_places(at: tuple[int, int] | None, kind: str, found: list[forms.Place], source: Source, cures: Cures) -> list[Told]:
    """The program's place first, and then all others."""
    same = next((place for place in found if _is_same(place, at, kind)), None)
    if at is None and same is not None:
        at = same.line, same.column
    cure = cures.of_text(same.row) if same else _general(kind, cures)
    told = [_told(source, *(at or (0, 0)), kind, cure, True)]
    for place in found:
        if place is not same:
            told.append(_told(source, place.line, place.column, place.kind, cures.of_text(place.row), False))
    return told


def _is_same(place: forms.Place, at: tuple[int, int] | None, kind: str) -> bool:
    """Whether a place that was found is the one that the program told. A path of `open` may be told at what stands behind it."""
    return (at is None or (place.line, place.column) == at) and place.kind == kind


def _general(kind: str, cures: Cures) -> str:
    """The cure of a kind that no form was found for. What is unexpected has many causes, and the list's first one is just one."""
    if kind in ("unexpected", "bad_character") and not cures.is_sole(kind):
        return "nothing that begins so can stand there; docs/FAULTS.md has what is often meant" if kind == "unexpected" else cures.of_kind(kind)
    return cures.of_kind(kind)


def _told(source: Source, line: int, column: int, kind: str, cure: str, is_programs: bool) -> Told:
    row, place = source.place(line, column) if line else (0, 0)
    return Told(row, place, kind, source.line_of(line).rstrip("\r"), cure, is_programs)
