"""What two scenarios have in common up to the names of their atoms, which are exchanged within top-level signatures alone."""

from __future__ import annotations

import itertools
from collections import Counter, defaultdict
from dataclasses import dataclass

from .scenario import Cell, Scenario, Tuple, top_of

# How many atoms are tried at most in a search for a renaming: beyond, two scenarios aren't told to be the same.
MOST_TRIES = 20000


@dataclass(frozen=True)
class Likeness:
    """How a scenario compares with an earlier one when its atoms are renamed: the names, and the cells that differ."""

    names: dict[str, str]
    more: tuple[Cell, ...]  # here, under the names of the other one, and not there
    fewer: tuple[Cell, ...]  # there, and not here

    @property
    def size(self) -> int:
        return len(self.more) + len(self.fewer)

    def moved(self) -> list[str]:
        """The atoms that are called otherwise there."""
        return [f"{atom} here is {other} there" for atom, other in self.names.items() if atom != other]


def renamed(cells: frozenset[Cell], names: dict[str, str]) -> frozenset[Cell]:
    """Cells with their atoms renamed."""
    return frozenset((relation, tuple(names.get(atom, atom) for atom in row)) for relation, row in cells)


def at_least(one: Scenario, other: Scenario) -> int:
    """A number of cells in which two scenarios differ under any names."""
    mine = Counter(relation for relation, _ in one.cells)
    its = Counter(relation for relation, _ in other.cells)
    return sum(abs(mine[name] - its[name]) for name in mine.keys() | its.keys())


def kinds_of_atoms(cells: frozenset[Cell]) -> dict[str, int]:
    """A number for each atom, such that atoms of one renaming have the same: where an atom stands, beside which others."""
    kinds = {atom: hash(top_of(atom)) for _, row in cells for atom in row}
    for _ in range(len(kinds)):
        seen: dict[str, list[int]] = defaultdict(list)
        for relation, row in cells:
            told = hash((relation, tuple(kinds[atom] for atom in row)))
            for place, atom in enumerate(row):
                seen[atom].append(hash((told, place)))
        new = {atom: hash((kinds[atom], tuple(sorted(seen[atom])))) for atom in kinds}
        if len(set(new.values())) == len(set(kinds.values())):
            return new
        kinds = new
    return kinds


def renaming(one: Scenario, other: Scenario) -> dict[str, str] | None:
    """Names under which a scenario is another one; none where there are no such names, or where they weren't found in time."""
    if at_least(one, other):
        return None
    mine, its = kinds_of_atoms(one.cells), kinds_of_atoms(other.cells)
    if Counter(mine.values()) != Counter(its.values()):
        return None
    alike = Counter(mine.values())
    atoms = sorted(mine, key=lambda atom: (alike[mine[atom]], atom))
    rows: dict[str, list[Cell]] = defaultdict(list)  # the cells that are whole once an atom has a name
    place = {atom: number for number, atom in enumerate(atoms)}
    for relation, row in one.cells:
        rows[max(row, key=place.__getitem__)].append((relation, row))
    names: dict[str, str] = {}
    tries = 0

    def fits(at: int) -> bool:
        nonlocal tries
        if at == len(atoms):
            return True
        atom = atoms[at]
        for name in sorted(its, key=lambda name: name != atom):
            if its[name] != mine[atom] or name in names.values():
                continue
            tries += 1
            if tries > MOST_TRIES:
                return False
            names[atom] = name
            if all((relation, _named(row, names)) in other.cells for relation, row in rows[atom]) and fits(at + 1):
                return True
            del names[atom]
        return False

    return names if fits(0) else None


def _named(row: Tuple, names: dict[str, str]) -> Tuple:
    return tuple(names[atom] for atom in row)


def likeness(one: Scenario, other: Scenario) -> Likeness:
    """How a scenario differs from another one. Where no names make it the same, names are exchanged as long as that brings it
    nearer: the difference that is found so need not be the smallest one."""
    names = renaming(one, other)
    if names is None:
        names = min((_nearer(one, other, start) for start in (_as_they_are(one, other), _by_kinds(one, other))), key=lambda found: found[1])[0]
    mine = renamed(one.cells, names)
    return Likeness(dict(sorted(names.items())), tuple(sorted(mine - other.cells)), tuple(sorted(other.cells - mine)))


def _as_they_are(one: Scenario, other: Scenario) -> dict[str, str]:
    return {atom: atom for atom in sorted({atom for _, row in one.cells | other.cells for atom in row})}


def _by_kinds(one: Scenario, other: Scenario) -> dict[str, str]:
    """Names by which atoms that stand alike are called alike, as far as there are any."""
    atoms = list(_as_they_are(one, other))
    mine, its = kinds_of_atoms(one.cells), kinds_of_atoms(other.cells)
    names: dict[str, str] = {}
    for same_kind in (True, False):
        for atom in atoms:
            for name in atoms if atom not in names else ():
                if name not in names.values() and top_of(name) == top_of(atom) and (not same_kind or mine.get(atom, 0) == its.get(name, 1)):
                    names[atom] = name
                    break
    return names


def _nearer(one: Scenario, other: Scenario, names: dict[str, str]) -> tuple[dict[str, str], int]:
    """Exchanges two names of one top-level signature as long as fewer cells differ then."""
    best, again = len(renamed(one.cells, names) ^ other.cells), True
    pairs = [(a, b) for a, b in itertools.combinations(sorted(names), 2) if top_of(a) == top_of(b)]
    while again and best:
        again = False
        for a, b in pairs:
            tried = {**names, a: names[b], b: names[a]}
            size = len(renamed(one.cells, tried) ^ other.cells)
            if size < best:
                names, best, again = tried, size, True
    return names, best


def nearest(one: Scenario, earlier: list[Scenario]) -> tuple[int, Likeness] | None:
    """The place of the earlier scenario with the smallest difference that was found, and that difference."""
    found: tuple[int, Likeness] | None = None
    for place in sorted(range(len(earlier)), key=lambda at: at_least(one, earlier[at])):
        if found is not None and at_least(one, earlier[place]) >= found[1].size:
            break
        like = likeness(one, earlier[place])
        if found is None or like.size < found[1].size:
            found = place, like
    return found


def same_as(scenario: Scenario, earlier: list[Scenario]) -> int | None:
    """The place of an earlier scenario that is the same, or else of one that is so up to names."""
    for place, other in enumerate(earlier):
        if scenario.cells == other.cells:
            return place
    return next((place for place, other in enumerate(earlier) if renaming(scenario, other) is not None), None)


def up_to_names(found: list[Scenario]) -> int:
    """How many scenarios there are when those that were seen to be the same up to names count once."""
    return sum(same_as(scenario, found[:place]) is None for place, scenario in enumerate(found))
