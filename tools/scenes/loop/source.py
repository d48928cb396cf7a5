"""A file that is looked at: an Alloy model, or a script with models and sessions."""

from __future__ import annotations

import re
from dataclasses import dataclass, replace
from pathlib import Path

from .lexer import tokens
from .outline import Outline, look

_DIRECTIVE = re.compile(r"== (model|session|more)\b")
_MODEL = re.compile(r"== model (\w+)\s*$")
_SESSION = re.compile(r"== session (\w+) (\w+) (\d+)\s*$")
_MORE = re.compile(r"== more (\w+)\s*$")
_NAME = re.compile(r"[A-Za-z][A-Za-z0-9_]{0,31}\Z")


class Unreadable(Exception):
    """The file can't be read, or has no model to look at."""


@dataclass(frozen=True)
class Source:
    """A model's text as the program gets it, where it stands in its file, and the session that is opened on it."""

    path: Path
    text: str
    first_line: int = 1  # the line of the file on which the model's text begins
    model: str = "m"
    session: str = "s"
    command: int = 1
    steps: tuple[str, ...] = ()  # the lines of the session that the file has
    others: tuple[str, ...] = ()  # the names of all sessions of the file
    notes: tuple[str, ...] = ()  # what was changed in the text
    shifted: frozenset[int] = frozenset()  # lines with a space put before them

    @property
    def outline(self) -> Outline:
        return look(self.text)

    def script(self, steps: list[str] | tuple[str, ...], command: int | None = None, text: str | None = None) -> str:
        """The script that asks these steps of the model."""
        lines = [f"== model {self.model}", self.text if text is None else text]
        body = "\n".join(lines)
        body += "" if body.endswith("\n") else "\n"
        return body + f"== session {self.session} {self.model} {command or self.command}\n" + "".join(f"{step}\n" for step in steps)

    def on(self, command: int) -> "Source":
        """The same model, with a session on another command of it, from the start."""
        return replace(self, command=command, steps=())

    def place(self, line: int, column: int) -> tuple[int, int]:
        """The line and column of the file for those of the model's text."""
        return line + self.first_line - 1, column - (line in self.shifted and column > 1)

    def line_of(self, line: int) -> str:
        """A line of the model's text as the file has it, or an empty one behind the last."""
        lines = self.text.split("\n")
        if not 1 <= line <= len(lines):
            return ""
        return lines[line - 1][1:] if line in self.shifted else lines[line - 1]


def read(path: Path, session: str | None = None) -> Source:
    """Reads a model's file, or a script and the session of that name (the first one if none is named)."""
    try:
        text = path.read_bytes().decode("utf-8-sig")
    except OSError as wrong:
        raise Unreadable(f"{path}: {wrong.strerror or wrong}") from None
    except UnicodeDecodeError:
        raise Unreadable(f"{path}: this is no text in UTF-8") from None
    lines = text.split("\n")
    if path.suffix != ".als" and any(_DIRECTIVE.match(line) for line in lines):
        return _of_script(path, lines, session)
    return _of_model(path, text)


def command_of(model: Source, wanted: str) -> int | None:
    """The number of a command for a number or a name."""
    if wanted.isascii() and wanted.isdigit() and 1 <= int(wanted) <= 1000:
        return int(wanted)
    named = [command.number for command in model.outline.commands if wanted and command.name == wanted]
    return named[0] if len(named) == 1 else None


def _of_model(path: Path, text: str) -> Source:
    """A model's own file: the path of its module blanked, and no line of it taken for a directive."""
    text, notes = _without_module(text)
    shifted = [number for number, line in enumerate(text.split("\n"), 1) if line.startswith("==")]
    for number in shifted:
        notes.append(f"line {number} begins with ==, as a directive does: the program gets it with a space before it")
    text = "\n".join(" " + line if line.startswith("==") else line for line in text.split("\n"))
    name = path.stem if _NAME.match(path.stem) else "m"
    return Source(path, text, model=name, notes=tuple(notes), shifted=frozenset(shifted))


def _without_module(text: str) -> tuple[str, list[str]]:
    """The text with spaces in the place of a module's path, where that has more than one name."""
    found = tokens(text)
    if len(found) < 3 or found[0].text != "module":
        return text, []
    last = 1
    while last + 2 < len(found) and found[last + 1].text == "/":
        last += 2
    if last == 1:
        return text, []
    start, end = found[0].start, found[last].end
    blank = re.sub(r"[^\n\t]", " ", text[start:end])
    said = " ".join(text[start:end].split())
    note = f'line {found[0].line}: "{said}" is blanked: a module\'s path has no effect, and is no part of the language here'
    return text[:start] + blank + text[end:], [note]


def _of_script(path: Path, lines: list[str], wanted: str | None) -> Source:
    """The model and the lines of one session of a script."""
    models: dict[str, tuple[int, list[str]]] = {}
    sessions: dict[str, tuple[str, int, list[str]]] = {}
    into: list[str] | None = None
    for number, line in enumerate(lines, 1):
        model, session, more = _MODEL.match(line), _SESSION.match(line), _MORE.match(line)
        if model:
            into = models.setdefault(model[1], (number + 1, []))[1]
        elif session:
            into = sessions.setdefault(session[1], (session[2], int(session[3]), []))[2]
        elif more and more[1] in sessions:
            into = sessions[more[1]][2]
        elif into is not None:
            into.append(line)
    if not models:
        raise Unreadable(f"{path}: the script has no model")
    if wanted is not None and wanted not in sessions:
        raise Unreadable(f"{path}: no session has the name {wanted}; there are: {', '.join(sessions) or 'none'}")
    name = wanted or next(iter(sessions), None)
    named, command, steps = sessions[name] if name else (next(iter(models)), 1, [])
    if named not in models:
        raise Unreadable(f"{path}: the session {name} is on a model that isn't there")
    first, text = models[named]
    kept = tuple(line.strip() for line in steps if line.strip() and not line.startswith("#"))
    return Source(path, "\n".join(text) + "\n", first, named, name or "s", command, kept, tuple(sessions))
