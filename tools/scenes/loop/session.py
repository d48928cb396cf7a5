"""A session that is kept as a script: each step runs the whole script again, and what came before is compared."""

from __future__ import annotations

from collections.abc import Sequence
from dataclasses import dataclass, field

from . import replies
from .program import Answer, Program
from .replies import Reply
from .scenario import Scenario
from .source import Source


class Fault(Exception):
    """The program answered by a line that begins with `fault`."""


class Failed(Exception):
    """The program ended without an answer."""


class Changed(Exception):
    """A run gave other replies to the same steps than an earlier run did. Nothing was kept of it."""

    def __init__(self, number: int, step: str) -> None:
        super().__init__(f"step {number} ({step})")
        self.number = number
        self.step = step


@dataclass(frozen=True)
class Facts:
    """What the facts alone were asked in the scope of a command, and the program's answer (none where it told a fault)."""

    asked: str
    verdict: str


@dataclass
class Session:
    """The steps so far, each with its reply, in groups of those that were asked at once."""

    program: Program
    source: Source
    kept: list[Reply] = field(default_factory=list)
    groups: list[int] = field(default_factory=list)  # how many steps were kept of each group

    @property
    def steps(self) -> list[str]:
        return [reply.step for reply in self.kept]

    def shown(self) -> list[Scenario]:
        """All scenarios that were printed, each time that one was, in the order of the replies."""
        return [scenario for reply in self.kept for scenario in reply.scenarios()]

    @property
    def floors(self) -> list[Scenario | None]:
        """The current scenario of each floor, from the lowest to the one where the session stands."""
        return self._walk()[0]

    def below(self, number: int) -> Scenario | None:
        """The scenario that the floor of a printed one stands on, none at the lowest floor. What is in the one below is in the
        other too, under the same names: the floor has it."""
        return self._walk()[1][number]

    def _walk(self) -> tuple[list[Scenario | None], list[Scenario | None]]:
        """The floors at the end of the replies, and for each printed scenario the current one of the floor below it."""
        floors: list[Scenario | None] = [None]
        below: list[Scenario | None] = []
        for reply in self.kept:
            if reply.word == "augmented":
                floors.append(None)
            elif reply.word == "back" and len(floors) > 1:
                floors.pop()
            for scenario in reply.scenarios():
                floors[-1] = scenario
                below.append(floors[-2] if len(floors) > 1 else None)
        return floors, below

    @property
    def current(self) -> Scenario | None:
        """The scenario that was shown last at the floor where the session stands."""
        return self.floors[-1]

    @property
    def has_ended(self) -> bool:
        """Whether the program's last word on this floor was an end."""
        ended = [False]
        for reply in self.kept:
            if reply.word == "augmented":
                ended.append(False)
            elif reply.word == "back" and len(ended) > 1:
                ended.pop()
            elif reply.word == "end":
                ended[-1] = True
        return ended[-1]

    def ask(self, steps: Sequence[str], keep: bool = True, until_end: bool = False) -> list[Reply]:
        """Asks these steps behind those that are kept, and gives their replies.

        With `until_end` nothing is kept behind the first reply after which nothing more comes of asking again. A last step that
        was refused isn't kept: the session is as it was before it.
        """
        found = self._run(self.source, self.steps + list(steps))
        for number, (was, now) in enumerate(zip(self.kept, found), 1):
            if was != now:
                raise Changed(number, was.step)
        new = found[len(self.kept) :]
        if until_end:
            last = next((place for place, reply in enumerate(new) if reply.ends), len(new) - 1)
            new = new[: last + 1]
        if keep:
            last = len(new)
            while last and _is_void(new[last - 1]):
                last -= 1
            self.kept += new[:last]
            self.groups += [last] if last else []
        return new

    def undo(self) -> list[str]:
        """Takes back the steps that were asked last at once, and gives them."""
        if not self.groups:
            return []
        count = self.groups.pop()
        taken = self.steps[len(self.kept) - count :]
        del self.kept[len(self.kept) - count :]
        return taken

    def replace(self, source: Source) -> int:
        """Asks the same steps of another text, keeps those whose replies stay the same, and tells how many these are.

        The ones behind the first reply that is another one are left out. A fault of the new text changes nothing.
        """
        found = self._run(source, self.steps)
        same = next((place for place, (was, now) in enumerate(zip(self.kept, found)) if was != now), len(self.kept))
        groups, left = [], same
        for count in self.groups:
            groups.append(min(count, left))
            left -= groups[-1]
        self.source, self.kept, self.groups = source, self.kept[:same], [count for count in groups if count]
        return same

    def restart(self, source: Source) -> None:
        """Forgets all steps."""
        self.source, self.kept, self.groups = source, [], []

    def script(self) -> str:
        """The script of the steps that are kept."""
        return self.source.script(self.steps)

    def look(self) -> None:
        """Asks nothing of the command: a fault of the text or of the command comes up."""
        self._run(self.source, [])

    def facts(self) -> Facts | None:
        """Whether the facts alone have a scenario in the scope of the command, as the program answers it.

        A command is put behind the text for it. That it is the one that was asked is seen by asking for one more: the program
        numbers the commands, and there must be none of that number.
        """
        commands = self.source.outline.commands
        own = next((command for command in commands if command.number == self.source.command), None)
        if own is None:
            return None
        asked = f"run {{}} {own.scope}".strip()
        text = self.source.text.rstrip("\n") + f"\n{asked}\n"
        last = len(commands) + 1
        more = self.program.run(self.source.script([], command=last + 1, text=text))
        if not more.lines or not more.lines[0].endswith(f"command {last + 1} no_command"):
            return None
        answer = self.program.run(self.source.script(["next"], command=last, text=text))
        found = _taken_apart(answer, ["next"])
        return Facts(asked, found[0].verdict)

    def check(self, proof: Reply) -> Answer:
        """Hands the lines of a proof to the program's `check`."""
        return self.program.check("".join(f"{line}\n" for line in proof.lines[1:]))

    def _run(self, source: Source, steps: list[str]) -> list[Reply]:
        return _taken_apart(self.program.run(source.script(steps)), steps)


def _is_void(reply: Reply) -> bool:
    """Whether a step left the session as it was. What an `all` found counts as shown even where it was refused."""
    return reply.word in ("refused", "memory") and not reply.step.startswith("all ")


def _taken_apart(answer: Answer, steps: list[str]) -> list[Reply]:
    """The replies of an answer, or an exception for one that has none."""
    if answer.status == 0:
        return replies.split(steps, list(answer.lines[1:]))
    if answer.lines and answer.lines[0].startswith("fault "):
        raise Fault(answer.lines[0])
    said = "; ".join(answer.errors) or f"the program ended with status {answer.status}, and no word on why"
    raise Failed(said)
