"""The lines of an answer, taken apart into one reply for each step that was asked."""

from __future__ import annotations

import re
from dataclasses import dataclass

from .scenario import LINE, Scenario

_HEAD = re.compile(r"(scenario|listed) \d+\Z")
_COUNTED = re.compile(r"(offers|proof) (\d+)\Z")


class NotUnderstood(Exception):
    """The answer doesn't have the form of an answer to these steps."""


@dataclass(frozen=True)
class Reply:
    """A step, and the lines that answered it."""

    step: str
    lines: tuple[str, ...]

    @property
    def word(self) -> str:
        """The first word of the line that says how the step ended: `scenario`, `end`, `refused`, and so on."""
        return self.verdict.split(" ")[0]

    @property
    def verdict(self) -> str:
        """The line that says how the step ended: the first one, and of an `all` the last one."""
        if not self.lines:
            return ""
        return self.lines[-1] if self.step.startswith("all ") else self.lines[0]

    @property
    def ends(self) -> bool:
        """Whether nothing more comes of asking the same again: an end, a refusal, or want of memory."""
        return self.word in ("end", "refused", "memory")

    def scenarios(self) -> list[Scenario]:
        """The scenarios of the reply."""
        heads = [place for place, line in enumerate(self.lines) if _HEAD.match(line)]
        found = []
        for start, end in zip(heads, heads[1:] + [len(self.lines)]):
            found.append(Scenario.of(self.lines[start], [line for line in self.lines[start + 1 : end] if LINE.match(line)]))
        return found


def split(steps: list[str], lines: list[str]) -> list[Reply]:
    """One reply for each step."""
    replies, at = [], 0
    for step in steps:
        end = _end(step, lines, at)
        replies.append(Reply(step, tuple(lines[at:end])))
        at = end
    if at != len(lines):
        raise NotUnderstood(f"the answer has {len(lines) - at} lines more than its steps: {lines[at]}")
    return replies


def _end(step: str, lines: list[str], at: int) -> int:
    """The place behind the reply to a step."""
    if at >= len(lines):
        raise NotUnderstood(f"the answer has no reply to the step {step}")
    word, first = step.split(" ")[0], lines[at]
    counted = _COUNTED.match(first)
    if counted and counted[1] == word:
        end = at + 1 + int(counted[2])
        if end > len(lines):
            raise NotUnderstood(f"{first}, and then too few lines")
        return end
    if word == "all":
        while at < len(lines) and _HEAD.match(lines[at]):
            at = _behind_scenario(lines, at)
        if at >= len(lines):
            raise NotUnderstood("an all without its last line")
        return at + 1
    return _behind_scenario(lines, at) if _HEAD.match(first) else at + 1


def _behind_scenario(lines: list[str], at: int) -> int:
    at += 1
    while at < len(lines) and LINE.match(lines[at]):
        at += 1
    return at
