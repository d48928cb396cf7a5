"""A scenario as a graph for Graphviz."""

from __future__ import annotations

import colorsys
import shutil
import subprocess
from dataclasses import dataclass, field
from html import escape

from .outline import Outline
from .scenario import Names, Scenario, Tuple, names_in, top_of

# The hues of top-level signatures, in the order of declaration, each with how strong it is; the signatures below one have its hue,
# lighter and darker. All are light enough for black letters.
HUES = ((210, 72), (36, 84), (108, 46), (344, 66), (262, 56), (176, 46), (54, 74), (20, 30), (148, 34), (300, 36), (232, 46), (84, 56))
LIGHT = (89, 81, 94, 75, 85, 78, 91, 72)
# Lines for relations, dark enough for a white ground.
LINES = (
    "#1f5fa8", "#b3501e", "#2c7a3f", "#b0246e", "#6a3fa0", "#0f7a80", "#7d6608", "#55606b", "#c0271f", "#5a8a00", "#6b4423", "#9a4fa8",
)  # fmt: skip


class NoGraphviz(Exception):
    """There is no program `dot`, or it drew nothing."""


@dataclass(frozen=True)
class Wanted:
    """What is drawn of a scenario: without these relations; of a signature one atom alone, where one is looked at."""

    hidden: frozenset[str] = frozenset()
    only: dict[str, str] = field(default_factory=dict)  # a signature, and the atom of it that is looked at
    before: str | None = None  # the atom that was looked at before it: what that had not is drawn bold
    base: Scenario | None = None  # the scenario of the floor below: without `before`, what that had not is drawn bold
    without_lonely: bool = False  # leaves out the atoms that no arrow and no word is at


@dataclass(frozen=True)
class Arrow:
    """What is drawn for a tuple, or for two that are each other's converse."""

    relation: str
    row: Tuple
    is_new: bool = False
    is_both: bool = False


@dataclass(frozen=True)
class Mark:
    """A word in an atom's box: a set that it is in, or a relation of which nothing but it is left."""

    name: str
    is_new: bool = False


@dataclass
class Part:
    """What is left to draw: atoms, words in their boxes, and arrows."""

    atoms: list[str]
    marks: dict[str, list[Mark]]
    arrows: list[Arrow]
    loose: list[tuple[str, Tuple]]  # tuples of which nothing but looked-at atoms is left
    fresh: set[str]  # atoms that are drawn bold


def part(scenario: Scenario, outline: Outline, wanted: Wanted) -> Part:
    """The part of a scenario that is drawn.

    A tuple with another atom of a looked-at signature is left out. Of the others the looked-at atoms are taken away; what has one
    atom left then is a word in its box.
    """
    looked_at = {atom: chosen for signature, chosen in wanted.only.items() for atom in _atoms_of(scenario, signature)}
    earlier = {atom: wanted.before or "" for atom in looked_at}
    base = wanted.base.cells if wanted.base and not wanted.before else None
    found = Part([atom for atom in scenario.atoms() if atom not in looked_at], {}, [], [], set())
    names = names_in(scenario, outline)
    for atom in found.atoms:
        here = [name for name in names.marks.get(atom, ()) if name not in wanted.hidden]
        found.marks[atom] = [Mark(name, base is not None and (name, (atom,)) not in base) for name in here]
        if base is not None and (top_of(atom), (atom,)) not in base:
            found.fresh.add(atom)
    for relation in scenario.relations:
        if relation.name in wanted.hidden or not relation.tuples or len(relation.tuples[0]) == 1:
            continue
        was = set(_left(relation.tuples, earlier)) if wanted.before else None
        for row, left in zip(relation.tuples, _left(relation.tuples, looked_at)):
            is_new = left not in was if was is not None else base is not None and (relation.name, row) not in base
            if left == ():
                found.loose.append((relation.name, row))
            elif left is not None and len(left) == 1:
                found.marks[left[0]].append(Mark(relation.name, is_new))
            elif left is not None:
                found.arrows.append(Arrow(relation.name, left, is_new))
    found.arrows = _paired(found.arrows)
    if wanted.without_lonely:
        used = {atom for arrow in found.arrows for atom in arrow.row} | {atom for atom, marks in found.marks.items() if marks}
        found.atoms = [atom for atom in found.atoms if atom in used]
    return found


def _left(rows: tuple[Tuple, ...], looked_at: dict[str, str]) -> list[Tuple | None]:
    """Each tuple without the looked-at atoms, or nothing in the place of one that has another atom of their signature."""
    return [None if any(looked_at.get(atom, atom) != atom for atom in row) else tuple(atom for atom in row if atom not in looked_at) for row in rows]


def _paired(arrows: list[Arrow]) -> list[Arrow]:
    """The arrows, with one that points both ways in the place of two."""
    pairs = {(arrow.relation, arrow.row, arrow.is_new) for arrow in arrows if len(arrow.row) == 2 and arrow.row[0] != arrow.row[1]}
    found = []
    for arrow in arrows:
        key, converse = (arrow.relation, arrow.row, arrow.is_new), (arrow.relation, arrow.row[::-1], arrow.is_new)
        if key in pairs and converse in pairs:
            found.append(Arrow(arrow.relation, arrow.row, arrow.is_new, True))
            pairs.discard(converse)
        elif key in pairs or len(arrow.row) != 2 or arrow.row[0] == arrow.row[1]:
            found.append(arrow)
    return found


def _atoms_of(scenario: Scenario, signature: str) -> list[str]:
    relation = scenario.of_name(signature)
    return [row[0] for row in relation.tuples if len(row) == 1] if relation else []


def quoted(text: str) -> str:
    """A string of the language of Graphviz, in which nothing has a meaning of its own."""
    return '"' + text.replace("\\", "\\\\").replace('"', '\\"').replace("\n", "\\n") + '"'


def colours(outline: Outline, scenario: Scenario) -> tuple[dict[str, str], dict[str, str]]:
    """A fill for each signature by `extends`, and a line for each relation. They hang on the declarations alone, so they stay the
    same from one scenario to the next."""
    tops = list(dict.fromkeys(outline.top(name) for name in outline.signatures))
    count: dict[str, int] = {}
    fills = {}
    for name, signature in outline.signatures.items():
        if signature.is_subset or signature.is_abstract:
            continue
        hue, strong = HUES[tops.index(outline.top(name)) % len(HUES)]
        place = count[outline.top(name)] = count.get(outline.top(name), -1) + 1
        fills[name] = _colour(hue, strong, LIGHT[place % len(LIGHT)])
    fields = [relation.name for relation in scenario.relations if relation.name not in outline.signatures]
    return fills, {name: LINES[place % len(LINES)] for place, name in enumerate(fields)}


def _colour(hue: int, strong: int, light: int) -> str:
    red, green, blue = colorsys.hls_to_rgb(hue / 360, light / 100, strong / 100)
    return "#" + "".join(f"{round(part * 255):02x}" for part in (red, green, blue))


def dot(scenario: Scenario, outline: Outline, wanted: Wanted | None = None) -> str:
    """The text for Graphviz. The program's own name of an atom is its node's name, and the tooltip."""
    wanted = wanted or Wanted()
    drawn = part(scenario, outline, wanted)
    names = names_in(scenario, outline)
    fills, lines = colours(outline, scenario)
    text = [
        "digraph scenario {",
        '  graph [rankdir=TB, nodesep=0.4, ranksep=0.55, bgcolor=transparent, tooltip=" "];',
        '  node [shape=box, style="rounded,filled", color="#4d5966", fontname="Helvetica", fontsize=13, margin="0.16,0.08", height=0.42];',
        '  edge [fontname="Helvetica", fontsize=11, arrowsize=0.75];',
    ]
    for atom in drawn.atoms:
        text.append(_node(atom, drawn, names, fills.get(names.kinds.get(atom, top_of(atom)), "#f0f0f0")))
    places = {relation.name: place for place, relation in enumerate(scenario.relations)}
    for arrow in drawn.arrows:
        text.append(_edge(arrow, names, lines.get(arrow.relation, "#5b5b5b"), places[arrow.relation]))
    return "\n".join([*text, "}"]) + "\n"


def _node(atom: str, drawn: Part, names: Names, fill: str) -> str:
    """A box: the atom's short name, and below it the words for it in smaller letters."""
    words = [f"<B>{escape(mark.name)}</B>" if mark.is_new else escape(mark.name) for mark in dict.fromkeys(drawn.marks.get(atom, []))]
    lines = [", ".join(words[place : place + 3]) for place in range(0, len(words), 3)]
    below = "".join(f'<BR/><FONT POINT-SIZE="11" COLOR="#39444f">{line}</FONT>' for line in lines)
    wide = ", penwidth=2.8" if atom in drawn.fresh else ""
    return f"  {quoted(atom)} [label=<{escape(names.short(atom))}{below}>, fillcolor={quoted(fill)}, tooltip={quoted(atom)}{wide}];"


def _edge(arrow: Arrow, names: Names, colour: str, place: int) -> str:
    """An arrow, with the relation's name and the atoms in its middle."""
    row = arrow.row
    middle = f" [{', '.join(names.short(atom) for atom in row[1:-1])}]" if len(row) > 2 else ""
    tip = f"{arrow.relation} {'->'.join(row)}" + (", and back" if arrow.is_both else "")
    said = {
        "label": f" {arrow.relation}{middle} ",
        "color": colour,
        "fontcolor": colour,
        "penwidth": "2.8" if arrow.is_new else "1.2",
        "dir": "both" if arrow.is_both else "forward",
        "class": f"relation{place}",
        "tooltip": tip,
        "labeltooltip": tip,
    }
    return f"  {quoted(row[0])} -> {quoted(row[-1])} [{', '.join(f'{name}={quoted(value)}' for name, value in said.items())}];"


def has_graphviz() -> bool:
    return shutil.which("dot") is not None


def draw(text: str, form: str) -> bytes:
    """What `dot` draws of a text, as `svg` or `png`."""
    try:
        done = subprocess.run(["dot", f"-T{form}"], input=text.encode("utf-8"), capture_output=True, timeout=60)
    except FileNotFoundError:
        raise NoGraphviz("there is no program dot: Debian's package graphviz has it") from None
    except subprocess.TimeoutExpired:
        raise NoGraphviz("dot took longer than a minute, and was stopped") from None
    if done.returncode:
        raise NoGraphviz(f"dot drew nothing: {done.stderr.decode(errors='replace').strip()}")
    return done.stdout
