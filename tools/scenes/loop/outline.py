"""What a model's text declares: signatures, fields, names of predicates, and commands, as a plain look finds them.

The program counts commands and reads declarations for itself. So nothing here is certain, and nothing rests on it but what is
shown beside the program's own lines: a list of commands, the names in a picture, and the places that are told at once.
"""

from __future__ import annotations

from dataclasses import dataclass, field

from .lexer import Token, tokens

OPENING = {"{": "}", "[": "]", "(": ")"}
_PARAGRAPHS = frozenset("module open enum sig fact pred fun assert run check let".split())
_BEFORE_SIG = frozenset("abstract one lone some private var".split())


@dataclass(frozen=True)
class Signature:
    """A signature's name, the one above it, whether it is a part of that by `in`, and whether it is abstract."""

    name: str
    parent: str | None
    is_subset: bool
    is_abstract: bool
    line: int


@dataclass(frozen=True)
class Command:
    """A `run` or `check`: its number from 1, its line, its text on one line, its name, and its scope from `for` on."""

    number: int
    line: int
    text: str
    name: str | None
    scope: str
    expects: str | None

    @property
    def word(self) -> str:
        return self.text.split(" ", 1)[0]


@dataclass(frozen=True)
class Paragraph:
    """The tokens of one paragraph, and the word that says what it is."""

    word: str
    tokens: tuple[Token, ...]


@dataclass
class Outline:
    """All that a look at the text finds."""

    tokens: list[Token]
    paragraphs: list[Paragraph]
    signatures: dict[str, Signature] = field(default_factory=dict)
    fields: list[tuple[str, str]] = field(default_factory=list)  # (signature, field)
    called: dict[str, Paragraph] = field(default_factory=dict)  # predicates and functions
    commands: list[Command] = field(default_factory=list)

    def top(self, name: str) -> str:
        """The top-level signature above a signature."""
        seen = set()
        while name in self.signatures and self.signatures[name].parent and name not in seen:
            seen.add(name)
            name = self.signatures[name].parent or name
        return name

    def depth(self, name: str) -> int:
        """How many signatures stand above a signature."""
        depth, seen = 0, {name}
        while name in self.signatures and self.signatures[name].parent:
            name = self.signatures[name].parent or name
            depth += 1
            if name in seen:
                break
            seen.add(name)
        return depth


def look(text: str) -> Outline:
    """Looks at a model's text."""
    found = tokens(text)
    outline = Outline(found, _paragraphs(found))
    for paragraph in outline.paragraphs:
        if paragraph.word == "sig":
            _signature(paragraph, outline)
        elif paragraph.word in ("pred", "fun"):
            name = _name_behind(paragraph, paragraph.word)
            if name:
                outline.called[name] = paragraph
        elif paragraph.word in ("run", "check"):
            outline.commands.append(_command(paragraph, text, len(outline.commands) + 1))
    return outline


def closing(found: list[Token] | tuple[Token, ...], at: int) -> int:
    """The place of the bracket that closes the one at a place, or of the last token where none does."""
    depth = 0
    for place in range(at, len(found)):
        if found[place].text in OPENING:
            depth += 1
        elif found[place].text in OPENING.values():
            depth -= 1
            if depth <= 0:
                return place
    return len(found) - 1


def _paragraphs(found: list[Token]) -> list[Paragraph]:
    """Cuts the tokens where a paragraph begins: at a word of one outside of all brackets."""
    starts: list[tuple[int, str]] = []
    depth = 0
    for place, token in enumerate(found):
        if token.text in OPENING:
            depth += 1
        elif token.text in OPENING.values():
            depth = max(0, depth - 1)
        elif depth == 0 and token.text in _PARAGRAPHS:
            start = place
            while token.text == "sig" and start > 0 and found[start - 1].text in _BEFORE_SIG:
                start -= 1
            starts.append((start, token.text))
    ends = [start for start, _ in starts[1:]] + [len(found)]
    return [Paragraph(word, tuple(found[start:end])) for (start, word), end in zip(starts, ends)]


def _name_behind(paragraph: Paragraph, word: str) -> str | None:
    """The name behind a paragraph's word; of `pred A.p` it is the last one."""
    row = paragraph.tokens
    place = next(place for place, token in enumerate(row) if token.text == word) + 1
    while place + 2 < len(row) and row[place + 1].text == ".":
        place += 2
    return row[place].text if place < len(row) and row[place].is_name else None


def _signature(paragraph: Paragraph, outline: Outline) -> None:
    """Notes the signatures and the fields of a paragraph."""
    row = paragraph.tokens
    place = next(place for place, token in enumerate(row) if token.text == "sig") + 1
    names: list[Token] = []
    while place < len(row) and (row[place].is_name or row[place].text == ","):
        if row[place].is_name:
            names.append(row[place])
        place += 1
    parent, subset = None, False
    if place + 1 < len(row) and row[place].text in ("extends", "in") and row[place + 1].is_name:
        parent, subset = row[place + 1].text, row[place].text == "in"
    for name in names:
        outline.signatures.setdefault(name.text, Signature(name.text, parent, subset, row[0].text == "abstract", name.line))
    body = next((at for at in range(place, len(row)) if row[at].text == "{"), None)
    if body is None:
        return
    for declared in field_declarations(row[body : closing(row, body) + 1]):
        for name in declared.names:
            for signature in names:
                outline.fields.append((signature.text, name.text))


@dataclass(frozen=True)
class Declaration:
    """The names of a declaration, and the tokens of its bound."""

    names: tuple[Token, ...]
    bound: tuple[Token, ...]


def field_declarations(body: tuple[Token, ...]) -> list[Declaration]:
    """The declarations between a signature's braces: names, a colon, and a bound up to the next comma outside of brackets."""
    inner = body[1:-1] if body and body[-1].text == "}" else body[1:]
    declared: list[Declaration] = []
    names: list[Token] = []
    bound: list[Token] | None = None
    depth = 0
    for token in inner:
        if bound is None:
            if token.text == ":":
                bound = []
            elif token.kind == "name" and token.text != "disj":
                names.append(token)
        elif depth == 0 and token.text == ",":
            declared.append(Declaration(tuple(names), tuple(bound)))
            names, bound = [], None
        else:
            depth += (token.text in OPENING) - (token.text in OPENING.values())
            bound.append(token)
    if bound is not None:
        declared.append(Declaration(tuple(names), tuple(bound)))
    return declared


def _command(paragraph: Paragraph, text: str, number: int) -> Command:
    """A command's name, text and scope."""
    row = list(paragraph.tokens)
    if len(row) > 2 and row[-1].text == ":" and row[-2].kind == "name":
        row = row[:-2]  # the label of what comes next
    name = row[1].text if len(row) > 1 and row[1].is_name else None
    depth, scope_from, expect_from = 0, None, None
    for place, token in enumerate(row):
        if token.text in OPENING:
            depth += 1
        elif token.text in OPENING.values():
            depth -= 1
        elif depth == 0 and token.text == "for":
            scope_from = place
        elif depth == 0 and token.text == "expect":
            expect_from = place
    scope_to = expect_from if expect_from is not None else len(row)
    scope = _joined(row[scope_from:scope_to], text) if scope_from is not None else ""
    expects = row[expect_from + 1].text if expect_from is not None and expect_from + 1 < len(row) else None
    return Command(number, row[0].line, _joined(row, text), name, scope, expects)


def _joined(row: list[Token], text: str) -> str:
    """The text of some tokens on one line, without comments, with a space where the text has any."""
    said = ""
    for place, token in enumerate(row):
        said += (" " if place and row[place - 1].end < token.start else "") + token.text
    return said
