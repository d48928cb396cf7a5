"""A scenario as text: tables, blocks, and differences. All of this is the loop's own, so `~` stands before each line of it."""

from __future__ import annotations

import textwrap

from .likeness import Likeness
from .outline import Outline
from .scenario import Scenario, Tuple, names_in

WIDTH = 110


def joined(row: Tuple) -> str:
    return "->".join(row)


def table(scenario: Scenario, outline: Outline) -> list[str]:
    """A line for each relation that has tuples, atoms with their deepest signature, and one line for the empty ones."""
    names = names_in(scenario, outline)
    wide = max((len(relation.name) for relation in scenario.relations), default=0)
    lines = []
    for relation in scenario.relations:
        if relation.tuples:
            is_top = len(relation.tuples[0]) == 1 and outline.top(relation.name) == relation.name
            items = [names.both(row[0]) if is_top else joined(row) for row in relation.tuples]
            lines += wrapped(f"{relation.name:<{wide}}  ", items, " " * (wide + 2))
    empty = [relation.name for relation in scenario.relations if not relation.tuples]
    if empty:
        lines += wrapped("empty: ", empty, "       ")
    return lines


def wrapped(head: str, items: list[str], indent: str) -> list[str]:
    """Items in lines of some width, none of them cut."""
    text = head + "  ".join(item.replace(" ", "\0") for item in items)
    lines = textwrap.wrap(text, WIDTH, subsequent_indent=indent, break_long_words=False, break_on_hyphens=False, drop_whitespace=True)
    return [line.replace("\0", " ") for line in lines]


def line_of_atoms(scenario: Scenario, atoms: list[str]) -> tuple[list[str], str | None]:
    """The atoms in the order of the one relation that puts all of them in a line, with its name; else as they are."""
    found = []
    for relation in scenario.relations:
        pairs = [row for row in relation.tuples if len(row) == 2 and row[0] in atoms and row[1] in atoms]
        if len(pairs) != len(atoms) - 1 or len(pairs) != len(relation.tuples) or not pairs:
            continue
        behind = {row[0]: row[1] for row in pairs}
        first = [atom for atom in atoms if atom not in behind.values()]
        line = first[:1]
        while line and line[-1] in behind and len(line) <= len(atoms):
            line.append(behind[line[-1]])
        if sorted(line) == sorted(atoms):
            found.append((line, relation.name))
    return found[0] if len(found) == 1 else (atoms, None)


def by(scenario: Scenario, signature: str, outline: Outline) -> list[str]:
    """A block for each atom of a signature: what stands behind it in tuples, `+` and `-` for what changed from block to block."""
    relation = scenario.of_name(signature)
    if relation is None or not relation.tuples or len(relation.tuples[0]) != 1:
        return []
    names = names_in(scenario, outline)
    atoms, line = line_of_atoms(scenario, [row[0] for row in relation.tuples])
    lines = [f"in the order of {line}" if line else "in the order of the reply"]
    before: dict[str, list[Tuple]] | None = None
    shown = [r.name for r in scenario.relations if any(len(row) > 1 and row[0] in atoms for row in r.tuples)]
    wide = max((len(name) for name in shown if name != line), default=0)
    for atom in atoms:
        now = {r.name: [row[1:] for row in r.tuples if len(row) > 1 and row[0] == atom] for r in scenario.relations}
        lines.append(names.both(atom))
        for name, rows in now.items():
            if name != line:
                lines += _block_line(name, rows, None if before is None else before.get(name, []), wide)
        before = now
    return lines


def _block_line(name: str, rows: list[Tuple], before: list[Tuple] | None, wide: int) -> list[str]:
    """A relation's line in a block: what stays, what is new with `+`, and what has gone with `-`."""
    items = [("+" if before is not None and row not in before else "") + joined(row) for row in rows]
    items += ["-" + joined(row) for row in before or [] if row not in rows]
    return wrapped(f"    {name:<{wide}}  ", items, " " * (wide + 6)) if items else []


def difference(like: Likeness) -> list[str]:
    """The difference from an earlier scenario, under its names."""
    moved = like.moved()
    lines = wrapped("names: ", [name + "," for name in moved[:-1]] + moved[-1:], "       ") if moved else []
    for sign, cells in (("+", like.more), ("-", like.fewer)):
        lines += [f"{sign} {relation} {joined(row)}" for relation, row in cells]
    return lines


def groups_of_offers(offers: list[str]) -> dict[str, list[tuple[int, str]]]:
    """The offers by relation, each with its number from 1."""
    found: dict[str, list[tuple[int, str]]] = {}
    for number, line in enumerate(offers, 1):
        relation, _, row = line.partition(" ")
        found.setdefault(relation, []).append((number, row))
    return found
