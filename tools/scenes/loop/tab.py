"""What one tab of the page has: a shell of its own, whose lines are its log, and what is drawn of it."""

from __future__ import annotations

import io
import re
import threading
from collections.abc import Collection
from dataclasses import replace
from typing import Any

from . import drawing, views
from .cures import Cures
from .likeness import same_as
from .out import PROMPT, Out
from .program import Program
from .scenario import Scenario, names_in, top_of
from .session import Session
from .shell import Shell
from .source import Source, command_of
from .words import WORDS

State = dict[str, Any]

# The words that the page may say, and the arguments that each may have. None of them writes a file.
ALLOWED: dict[str, re.Pattern[str]] = {
    "next": re.compile(r""),
    "all": re.compile(r"[0-9]{1,4}"),
    "add": re.compile(r"\S{1,200} [\w'/$>-]{1,400}"),
    "back": re.compile(r""),
    "undo": re.compile(r""),
    "proof": re.compile(r""),
    "budget": re.compile(r"[0-9]{1,6}"),
    "reload": re.compile(r""),
    "restart": re.compile(r""),
    "command": re.compile(r"[0-9]{1,4}"),
}


class Wrong(Exception):
    """A request that the page doesn't make."""


class Tab:
    """A session with its log. One word at a time: whoever holds the lock says it."""

    def __init__(self, program: str, source: Source, cures: Cures) -> None:
        self.lock = threading.Lock()
        self.program = Program(program)
        self.stream = io.StringIO()
        self.shell = Shell(Session(self.program, source), cures, Out(self.stream), WORDS)
        self.version = 0
        self.offers: tuple[str, list[str]] | None = None  # what the program said of the current scenario
        self.proved: list[str] | None = None  # what was printed for the last proof of this floor
        self._alike: list[int | None] = []

    @property
    def session(self) -> Session:
        return self.shell.session

    def begin(self) -> State:
        """The first look: commands, faults, facts, and the lines of a script's session."""
        self.shell.begin()
        return self.state()

    def do(self, version: int, word: str, argument: str) -> State:
        """Says a word of the shell, and gives what has changed."""
        if word not in ALLOWED or not ALLOWED[word].fullmatch(argument):
            raise Wrong(f"the page has no word {word!r} with {argument!r}")
        if version != self.version:
            return {**self.state(), "outdated": True}
        self.version += 1
        self.offers = None
        self.proved = None
        if word == "add":
            self.shell.offers = []
        at = self.stream.tell()
        self.stream.write(f"{PROMPT}{word} {argument}".rstrip() + "\n")
        if word in ("reload", "restart", "command"):
            self._on_text(word, argument)
        else:
            self.shell.do(f"{word} {argument}")
        if word == "proof":
            self.proved = self.stream.getvalue()[at:].splitlines()[1:]
        return self.state()

    def _on_text(self, word: str, argument: str) -> None:
        """Words behind which the text, or the command, is another one."""
        if word == "command" and command_of(self.session.source, argument) is None:
            raise Wrong(f"there is no command {argument}")
        self._alike = []
        self.shell.do(f"{word} {argument}".strip())

    def ask_offers(self, version: int) -> State:
        """What the current scenario could be given: the program's line, and the tuples by relation; neither where it gave no answer."""
        if version == self.version and self.session.current is not None and self.offers is None:
            self.shell.guarded(self._take_offers)
        if version != self.version or self.offers is None:
            return {"version": self.version, "said": None, "log": self.log()}
        said, lines = self.offers
        grouped = {name: [row for _, row in rows] for name, rows in views.groups_of_offers(lines).items()}
        return {"version": self.version, "said": said, "offers": grouped, "log": self.log()}

    def _take_offers(self) -> None:
        said = self.shell.ask_offers()
        self.offers = said, list(self.shell.offers)

    def log(self) -> str:
        """All lines so far, as the shell would have shown them."""
        return self.stream.getvalue()

    def state(self) -> State:
        """What the page shows beside the picture."""
        session = self.session
        shown = session.shown()
        now = session.current
        replies = [reply.verdict for reply in session.kept]
        return {
            "version": self.version,
            "file": str(session.source.path),
            "commands": [self._command(number) for number in range(len(session.source.outline.commands))],
            "command": session.source.command,
            "usable": self.shell.usable,
            "facts": None if self.shell.facts is None else [self.shell.facts.asked, self.shell.facts.verdict],
            "scenarios": [{"head": scenario.head, "alike": alike} for scenario, alike in zip(shown, self._all_alike(shown))],
            "current": None if now is None else max(place for place, other in enumerate(shown) if other == now),
            "floor": len(session.floors) - 1,
            "ended": session.has_ended,
            "verdict": replies[-1] if replies else "",
            "steps": session.steps,
            "proof": self.proved,
            "script": session.script(),
            "text": session.source.text,
            "firstLine": session.source.first_line,
            "log": self.log(),
            "graphviz": drawing.has_graphviz(),
        }

    def _command(self, place: int) -> State:
        command = self.session.source.outline.commands[place]
        line = self.session.source.place(command.line, 1)[0]
        return {"number": command.number, "line": line, "text": command.text}

    def _all_alike(self, shown: list[Scenario]) -> list[int | None]:
        """For each scenario the earlier one that is the same up to names, if one was found."""
        del self._alike[len(shown) :]
        while len(self._alike) < len(shown):
            place = len(self._alike)
            self._alike.append(same_as(shown[place], shown[:place]))
        return list(self._alike)

    def draw(self, number: int, wanted: drawing.Wanted) -> State:
        """The picture of a scenario, its lines, and what a table has."""
        shown = self.session.shown()
        if not 0 <= number < len(shown):
            raise Wrong(f"no scenario has the place {number}")
        scenario, outline = shown[number], self.session.source.outline
        base = self.session.below(number)
        wanted = replace(wanted, base=base)
        fills, lines = drawing.colours(outline, scenario)
        names = names_in(scenario, outline)
        part = drawing.part(scenario, outline, wanted)
        text = drawing.dot(scenario, outline, wanted)
        try:
            svg, wrong = drawing.draw(text, "svg").decode("utf-8"), ""
        except drawing.NoGraphviz as missing:
            svg, wrong = "", str(missing)
        return {
            "number": number,
            "lines": scenario.lines(),
            "svg": svg,
            "wrong": wrong,
            "dot": text,
            "kinds": [names.kinds.get(atom, top_of(atom)) for atom in part.atoms],
            "base": None if base is None else max(place for place in range(number) if shown[place] == base),
            "names": {atom: names.short(atom) for atom in scenario.atoms()},
            "relations": [
                {"name": relation.name, "rows": relation.tuples, "fill": fills.get(relation.name), "line": lines.get(relation.name)}
                for relation in scenario.relations
            ],
            "arrows": len(part.arrows),
            "loose": [name for name, _ in part.loose],
            "lines_of": {name: row for name, row in _lines(scenario, outline.signatures.keys())},
        }


def _lines(scenario: Scenario, signatures: Collection[str]) -> list[tuple[str, State]]:
    """The signatures with more than one atom, each with its atoms in the order in which they are looked at."""
    found = []
    for relation in scenario.relations:
        if relation.name in signatures and len(relation.tuples) > 1:
            atoms, line = views.line_of_atoms(scenario, [row[0] for row in relation.tuples])
            found.append((relation.name, {"atoms": atoms, "along": line}))
    return found


