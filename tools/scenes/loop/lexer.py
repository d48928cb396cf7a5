"""The tokens of a model's text, with their places.

This is a plain look at the text: the program reads it for itself, and its answer is what counts.
"""

from __future__ import annotations

import re
from dataclasses import dataclass

# Words of the language: none of them can be a name.
KEYWORDS = frozenset(
    "abstract all and as assert but check disj else exactly expect extends fact for fun iden iff implies in let lone module "
    "no none not one open or pred run set sig some univ".split()
)
# Words of Alloy that are refused wherever they stand.
REFUSED = frozenset(
    "enum seq sum this Int String int private var always eventually after before historically once since until releases "
    "triggered steps".split()
)

_PIECE = re.compile(
    r"""(?P<space>\s+)
    | (?P<comment>//[^\n]*|--[^\n]*|/\*.*?(?:\*/|\Z))
    | (?P<name>[A-Za-z][A-Za-z0-9_']*)
    | (?P<number>[0-9]+)
    | (?P<symbol><=>|<:|:>|\+\+|->|=>|!=|>=|=<|<=|&&|\|\||.)""",
    re.S | re.X,
)


@dataclass(frozen=True)
class Token:
    """One token: what it is, and where its first character stands (counted from 1)."""

    kind: str
    text: str
    line: int
    column: int
    start: int
    end: int

    @property
    def is_name(self) -> bool:
        """Whether it can be a name in the language."""
        return self.kind == "name" and self.text not in KEYWORDS and self.text not in REFUSED


def tokens(text: str) -> list[Token]:
    """All tokens, without spaces and comments."""
    found = []
    line, line_start = 1, 0
    for piece in _PIECE.finditer(text):
        kind, said = piece.lastgroup or "symbol", piece[0]
        if kind not in ("space", "comment"):
            found.append(Token(kind, said, line, piece.start() - line_start + 1, piece.start(), piece.end()))
        breaks = said.count("\n")
        if breaks:
            line += breaks
            line_start = piece.start() + said.rindex("\n") + 1
    return found


def is_in_comment(text: str, place: int) -> bool:
    """Whether the character at a place is inside a comment."""
    return any(
        piece.lastgroup == "comment" and piece.start() < place < piece.end() for piece in _PIECE.finditer(text)
    )
