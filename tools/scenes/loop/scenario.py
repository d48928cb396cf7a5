"""A scenario, and how its atoms are called."""

from __future__ import annotations

import re
from dataclasses import dataclass, field

from .outline import Outline

Tuple = tuple[str, ...]
Cell = tuple[str, Tuple]  # a relation's name, and a tuple of it

LINE = re.compile(r"(\w[\w'/]*(?:\.\w[\w']*)?) = \{(.*)\}\Z")


@dataclass(frozen=True)
class Relation:
    """A relation of a scenario: its name as the program prints it, and its tuples in the program's order."""

    name: str
    tuples: tuple[Tuple, ...]


@dataclass(frozen=True)
class Scenario:
    """A scenario as it was printed: its first line, and its relations in the order of the reply."""

    head: str
    relations: tuple[Relation, ...]
    cells: frozenset[Cell] = field(compare=False, default=frozenset())

    @staticmethod
    def of(head: str, lines: list[str]) -> "Scenario":
        relations = []
        for line in lines:
            said = LINE.match(line)
            if said:
                row = tuple(tuple(item.split("->")) for item in said[2].split(", ")) if said[2] else ()
                relations.append(Relation(said[1], row))
        cells = frozenset((relation.name, row) for relation in relations for row in relation.tuples)
        return Scenario(head, tuple(relations), cells)

    def lines(self) -> list[str]:
        """The lines of the reply, as they were printed."""
        shown = (", ".join("->".join(row) for row in relation.tuples) for relation in self.relations)
        return [self.head, *(f"{relation.name} = {{{row}}}" for relation, row in zip(self.relations, shown))]

    def atoms(self) -> list[str]:
        """The atoms, in the order in which they are first named."""
        return list(dict.fromkeys(atom for relation in self.relations for row in relation.tuples for atom in row))

    def of_name(self, name: str) -> Relation | None:
        """The relation of a name."""
        return next((relation for relation in self.relations if relation.name == name), None)


def top_of(atom: str) -> str:
    """The top-level signature that an atom is called by."""
    return atom.split("$")[0]


@dataclass(frozen=True)
class Names:
    """How atoms are called in pictures and tables: by the deepest signature, with the program's own number."""

    kinds: dict[str, str]  # the deepest signature of an atom, over `extends`
    marks: dict[str, tuple[str, ...]]  # the signatures by `in` that have it

    def short(self, atom: str) -> str:
        """`CheckIn$1` for the program's `Step$1`."""
        return f"{self.kinds.get(atom, top_of(atom))}${atom.split('$')[-1]}"

    def both(self, atom: str) -> str:
        """The program's own name, and behind it the other one where that says more."""
        more = [self.kinds[atom]] if self.kinds.get(atom, top_of(atom)) != top_of(atom) else []
        more += self.marks.get(atom, ())
        return atom + (f" ({', '.join(more)})" if more else "")


def names_in(scenario: Scenario, outline: Outline) -> Names:
    """The names of a scenario's atoms. A signature that the text isn't seen to declare counts as one by `extends`."""
    kinds: dict[str, str] = {}
    marks: dict[str, list[str]] = {}
    deep: dict[str, int] = {}
    for relation in scenario.relations:
        declared = outline.signatures.get(relation.name)
        for row in relation.tuples:
            if len(row) != 1:
                continue
            depth = outline.depth(relation.name)
            if declared is not None and _is_marked(declared.name, outline):
                marks.setdefault(row[0], []).append(relation.name)
            elif row[0] not in kinds or depth > deep[row[0]]:
                kinds[row[0]], deep[row[0]] = relation.name, depth
    return Names(kinds, {atom: tuple(row) for atom, row in marks.items()})


def _is_marked(name: str, outline: Outline) -> bool:
    """Whether a signature is a part of another by `in`, or lies in one that is."""
    seen = set()
    while name in outline.signatures and name not in seen:
        seen.add(name)
        if outline.signatures[name].is_subset:
            return True
        name = outline.signatures[name].parent or ""
    return False
