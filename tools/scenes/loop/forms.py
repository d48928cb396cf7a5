"""Places of a model's text that are outside the language, found by a plain look and all at once.

The program tells one fault at a time, the first one. These are the forms that published models often have: each has a row in
docs/FAULTS.md, which it is named after here, and which has what to write instead. Nothing is told to be outside the language
where the program took the text.
"""

from __future__ import annotations

from collections.abc import Callable, Iterator
from dataclasses import dataclass

from .lexer import KEYWORDS, REFUSED, Token
from .outline import Declaration, Outline, Paragraph, closing, field_declarations, look

_QUANTIFIERS = frozenset("all some no lone one".split())
_COUNTING = frozenset("lone one some set".split())
_NAMING = frozenset("sig pred fun fact assert run check".split())
_COMPARED = frozenset("= != < > =< >= <=".split())
_ARITHMETIC = frozenset("plus minus mul div rem add sub".split())
_SYMBOLS = frozenset("{ } [ ] ( ) : , | . + - & ! # ~ ^ * / < > = <=> <: :> ++ -> => != >= =< <= && ||".split())


@dataclass(frozen=True)
class Place:
    """A place, the kind of fault that the program has for it, and the text of its row in the list of faults."""

    line: int
    column: int
    kind: str
    row: str


Found = Iterator[tuple[Token, str, str]]  # the token, the kind, the row


def places(text: str) -> list[Place]:
    """All places that are found, in the order of the text, one at each token."""
    outline = look(text)
    found: dict[tuple[int, int], Place] = {}
    for rule in _RULES:
        for token, kind, row in rule(outline):
            found.setdefault((token.line, token.column), Place(token.line, token.column, kind, row))
    return [found[place] for place in sorted(found)]


def _opens(outline: Outline) -> Found:
    """Modules that are opened, and names that lie in one."""
    first = next((p for p in outline.paragraphs if p.word not in ("open", "module")), None)
    for paragraph in outline.paragraphs:
        if paragraph.word != "open" or len(paragraph.tokens) < 2:
            continue
        row = paragraph.tokens
        path = "".join(token.text for token in row[1:4])
        if first is not None and row[0].start > first.tokens[0].start:
            yield row[0], "unexpected", "sig A {} open util/ordering[A] as o"
        elif len(row) > 2 and row[2].text != "/":
            yield row[1], "unexpected", "open graph as g sig A {}"
        elif path != "util/ordering":
            yield row[1], "unsupported open", "open util/boolean sig A {}"
        elif all(token.text != "as" for token in row):
            rest = [token for token in outline.tokens if token.start >= row[-1].end]
            yield from ((token, "unexpected", "open util/ordering[A] sig A {}") for token in rest[:1])


def _paths(outline: Outline) -> Found:
    """Names with the path of the model itself, as `this/A`; those of an ordering, as `o/first`, are in the language."""
    for paragraph in outline.paragraphs:
        if paragraph.word in ("module", "open"):
            continue
        row = paragraph.tokens
        for before, token in zip(row, row[1:]):
            if token.text == "/" and before.text == "this":
                yield token, "bad_character", "sig A {} fact { some this/A }"


def _paragraph_forms(outline: Outline) -> Found:
    """Whole paragraphs that aren't in the language."""
    for paragraph in outline.paragraphs:
        row = paragraph.tokens
        if paragraph.word == "enum":
            yield row[0], "unsupported enum", "enum E { X, Y }"
        elif paragraph.word == "let":
            yield row[0], "unexpected", "sig A {} let m = A"
        elif paragraph.word == "assert" and len(row) > 1 and row[1].text == "{":
            yield row[1], "unexpected", "sig A {} assert { some A }"
        elif paragraph.word in ("pred", "fun") and len(row) > 3 and row[2].text == ".":
            yield row[2], "unexpected", "sig A {} pred A.p [] { some A }"
        if len(row) > 2 and row[-1].text == ":" and row[-2].is_name and paragraph.word != "open":
            yield row[-2], "unexpected", "sig A {} name: run {}"
    loose = outline.tokens[: len(outline.tokens) - sum(len(p.tokens) for p in outline.paragraphs)]
    if len(loose) == 2 and loose[1].text == ":":
        yield loose[0], "unexpected", "sig A {} name: run {}"


def _body(paragraph: Paragraph) -> int | None:
    """The place of a paragraph's opening brace."""
    return next((place for place, token in enumerate(paragraph.tokens) if token.text == "{"), None)


def _signatures(outline: Outline) -> Found:
    """What stands in signatures, and behind them."""
    fields = {name for _, name in outline.fields}
    for paragraph in outline.paragraphs:
        body = _body(paragraph)
        if paragraph.word != "sig" or body is None:
            continue
        row = paragraph.tokens
        yield from _parents(row[:body])
        end = closing(row, body)
        if end + 1 < len(row) and row[end + 1].text == "{":
            yield row[end + 1], "unsupported appended", "sig A { f: A } { f != this }"
        for place in range(body + 1, end):
            if row[place].text == "disj" and row[place - 1].text in ("{", ","):
                yield row[place], "unexpected", "sig A {} sig B { disj f, g: A }"
        for declared in field_declarations(row[body : end + 1]):
            yield from _field(declared, outline, fields)


def _parents(head: tuple[Token, ...]) -> Found:
    """A signature in a union of others."""
    for place, token in enumerate(head):
        if token.text == "in" and place + 2 < len(head) and head[place + 2].text in ("+", "|"):
            yield head[place + 2], "unexpected", "sig A, C {} sig B in A + C {}"


def _field(declared: Declaration, outline: Outline, fields: set[str]) -> Found:
    """A field: its names, and its bound."""
    for name in declared.names:
        if name.text in REFUSED:
            yield name, f"unsupported {name.text}", "sig A { after: A }"
        elif name.text in KEYWORDS:
            yield name, "unexpected", "sig A { exactly: A }"
    bound = declared.bound
    arrows = [place for place, token in enumerate(bound) if token.text == "->"]
    beside = [bound[side] for at in arrows for side in (at - 1, at + 1) if 0 <= side < len(bound) and bound[side].text in _COUNTING]
    if len(arrows) > 1 and beside:
        yield from ((token, "unsupported arrow_multiplicity", "sig A { f: A -> A lone -> A } run {}") for token in beside)
    elif len(arrows) > 1 and declared.names:
        yield declared.names[0], "arity_too_large", "sig A { f: A -> A -> A }"
    for token in bound:
        if token.kind == "symbol" and token.text not in ("+", "->", "(", ")", ",") and token.text in _SYMBOLS:
            yield token, "unexpected", "sig A {} sig B { f: set A - A }"
            break
        if token.is_name and token.text in fields and token.text not in outline.signatures:
            yield token, "unknown", "sig A {} sig B { f: set A, g: f } run {}"


def _inner(outline: Outline) -> Iterator[tuple[Paragraph, tuple[Token, ...]]]:
    """Paragraphs with formulas, and the tokens of their bodies; what is appended to a signature is told as a whole."""
    for paragraph in outline.paragraphs:
        body = _body(paragraph)
        if paragraph.word in ("fact", "pred", "fun", "assert", "run", "check") and body is not None:
            yield paragraph, paragraph.tokens[body : closing(paragraph.tokens, body) + 1]


def _comprehensions(outline: Outline) -> Found:
    """Sets that are said by a variable and a formula."""
    for _, row in _inner(outline):
        for place in range(1, len(row)):
            if row[place].text == "{" and _names_before_colon(row, place + 1):
                yield row[place], "unsupported comprehension", "sig A {} run { some { x: A | some x } }"


def _names_before_colon(row: tuple[Token, ...], place: int) -> list[Token]:
    """The names of a declaration that begins at a place, or none where there is no colon behind them."""
    names = []
    if place < len(row) and row[place].text == "disj":
        place += 1
    while place + 1 < len(row) and row[place].is_name:
        names.append(row[place])
        if row[place + 1].text == ":":
            return names
        if row[place + 1].text != ",":
            return []
        place += 2
    return []


def _quantifiers(outline: Outline) -> Found:
    """Variables that aren't single atoms, and `lone` or `one` over several."""
    for _, row in _inner(outline):
        for place, token in enumerate(row):
            names = _names_before_colon(row, place + 1) if token.text in _QUANTIFIERS and row[place - 1].text != ":" else []
            if not names:
                continue
            if len(names) > 1 and token.text in ("lone", "one"):
                yield names[1], "unsupported several", "sig A {} run { lone x, y: A | some x }"
            yield from _bounds(row, place + 1)


def _bounds(row: tuple[Token, ...], place: int) -> Found:
    """The bounds of a quantifier's declarations, the first of which begins at a place."""
    while names := _names_before_colon(row, place):
        colon = next(at for at in range(place, len(row)) if row[at].text == ":")
        end, depth = colon + 1, 0
        while end < len(row) and (depth or row[end].text not in ("|", ",", "{", "}")):
            depth += (row[end].text in "([") - (row[end].text in ")]")
            end += 1
        bound = row[colon + 1 : end]
        if bound and bound[0].text in ("set", "some", "lone"):
            yield bound[0], "higher_order", "sig A {} run { all x: set A | some x }"
        elif any(token.text == "->" for token in bound):
            yield bound[0], "not_unary", "sig A {} run { some f: A -> A | some f }"
        if not names or end >= len(row) or row[end].text != ",":
            return
        place = end + 1


def _calls(outline: Outline) -> Found:
    """Calls with a receiver, and `disj` as one."""
    fields = {name for _, name in outline.fields}
    for _, row in _inner(outline):
        for place in range(1, len(row) - 1):
            token, behind = row[place], row[place + 1]
            if token.text == "disj" and behind.text == "[":
                yield token, "unexpected", "sig A {} run { some a, b: A | disj[a, b] }"
            elif row[place - 1].text == "." and token.text in outline.called and token.text not in fields:
                if _parameters(outline.called[token.text]):
                    alone = "sig A {} pred p [x: A] { some x } run { some u: A | u.p }"
                    with_more = "sig A {} pred p [x, y: A] { x = y } run { some u: A | u.p[u] }"
                    yield token, "arguments", with_more if behind.text == "[" else alone


def _parameters(paragraph: Paragraph) -> tuple[Token, ...]:
    """The tokens between the brackets behind the name of a predicate or function."""
    row = paragraph.tokens
    if len(row) > 2 and row[2].text in ("[", "("):
        return row[3 : closing(row, 2)]
    return ()


def _run_parameters(outline: Outline) -> Found:
    """Predicates that are run, with a parameter that isn't one atom."""
    for paragraph in outline.paragraphs:
        row = paragraph.tokens
        if paragraph.word != "run" or len(row) < 2 or row[1].text not in outline.called:
            continue
        if len(row) > 2 and row[2].text == "{":
            continue
        inner = _parameters(outline.called[row[1].text])
        for declared in field_declarations((row[0], *inner, row[0])) if inner else []:
            if any(token.text in ("set", "some", "lone", "->") for token in declared.bound):
                yield row[1], "higher_order", "sig A {} pred p [s: set A] { some s } run p"
                break


def _arrows(outline: Outline) -> Found:
    """Words that count, beside an arrow that isn't a field's whole bound."""
    for paragraph in outline.paragraphs:
        if paragraph.word in ("sig", "module", "open"):
            continue
        row = paragraph.tokens
        for place in range(1, len(row) - 1):
            if row[place].text == "->":
                for side in (row[place - 1], row[place + 1]):
                    if side.text in _COUNTING:
                        yield side, "unsupported arrow_multiplicity", "sig A { f: set A } fact { f in A -> lone A }"


def _counts(outline: Outline) -> Found:
    """Counts beside counts, and arithmetic."""
    for _, row in _inner(outline):
        for place in range(1, len(row) - 1):
            before, token, behind = row[place - 1], row[place], row[place + 1]
            if token.text in _COMPARED and behind.text == "#":
                if before.kind == "number":
                    yield before, "sort", "sig A {} run { 2 < #A }"
                else:
                    yield behind, "sort", "sig A {} sig B {} run { #A = #B }"
            elif token.text in ("+", "-") and before.kind == "number":
                yield before, "sort", "sig A {} run { #A = 1 + 1 }"
            elif token.text in _ARITHMETIC and behind.text == "[" and token.text not in outline.called:
                yield token, "unknown", "sig A {} run { plus[1, 1] = 2 }"


def _words(outline: Outline) -> Found:
    """Words of Alloy that are refused wherever they stand."""
    rows = {"Int": "sig A { n: Int }", "enum": "enum E { X, Y }"}
    for paragraph in outline.paragraphs:
        body = _body(paragraph)
        for place, token in enumerate(paragraph.tokens):
            path = place + 1 < len(paragraph.tokens) and paragraph.tokens[place + 1].text == "/"
            if token.text in REFUSED and not path and not _is_appended(paragraph, body, place):
                scope = token.text == "Int" and paragraph.word in ("run", "check") and (body is None or place > closing(paragraph.tokens, body))
                is_name = place > 0 and paragraph.tokens[place - 1].text in _NAMING and token.text not in ("Int", "int", "String")
                row = "sig A { after: A }" if is_name else rows.get(token.text, "sig A {} run { always some A }")
                row = "sig A {} run {} for 5 but 3 Int" if scope else row
                yield token, f"unsupported {token.text}", row


def _is_appended(paragraph: Paragraph, body: int | None, place: int) -> bool:
    """Whether a place is in the fact that is appended to a signature."""
    return paragraph.word == "sig" and body is not None and place > closing(paragraph.tokens, body)


def _primes(outline: Outline) -> Found:
    """Fields and signatures with a prime, where that isn't a name of its own."""
    declared = {name for _, name in outline.fields} | outline.signatures.keys()
    bound = {
        token.text
        for paragraph in outline.paragraphs
        for token, behind in zip(paragraph.tokens, paragraph.tokens[1:])
        if token.text.endswith("'") and behind.text in (":", ",", "=") and token.kind == "name" and token.text.rstrip("'") not in declared
    }
    for _, row in _inner(outline):
        for token in row:
            if token.text.endswith("'") and token.text.rstrip("'") in declared and token.text not in declared | bound:
                yield token, "unknown", "sig A { f: A } run { f' = f }"


def _lets(outline: Outline) -> Found:
    """A function whose body is a `let`."""
    for paragraph, row in _inner(outline):
        if paragraph.word == "fun" and len(row) > 1 and row[1].text == "let":
            yield row[1], "unexpected", "sig A {} fun f: set A { let x = A | x }"


def _characters(outline: Outline) -> Found:
    """Characters that no token begins with."""
    rows = {"@": "sig A { f: A } fact { all a: A | some a.@f }"}
    for token in outline.tokens:
        if token.kind == "symbol" and token.text not in _SYMBOLS:
            yield token, "bad_character", rows.get(token.text, "sig A {} run { some A @ }")


_RULES: tuple[Callable[[Outline], Found], ...] = (
    _opens,
    _paths,
    _paragraph_forms,
    _signatures,
    _comprehensions,
    _quantifiers,
    _calls,
    _run_parameters,
    _arrows,
    _counts,
    _words,
    _primes,
    _lets,
    _characters,
)
