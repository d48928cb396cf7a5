"""The words of the shell: each function is one, and its first line is what `help` tells of it."""

from __future__ import annotations

import json
import re
from pathlib import Path

from . import drawing, source, views
from .likeness import likeness, nearest
from .session import Fault
from .shell import Leave, Shell, Words

_TUPLE = re.compile(r"\S+ [\w'/]+\$\d+(->[\w'/]+\$\d+)*\Z")


def on_next(shell: Shell, rest: str) -> None:
    """next: the next scenario at this floor, or an end."""
    shell.say(shell.session.ask(["next"]))


def on_all(shell: Shell, rest: str) -> None:
    """all N: asks up to N times for the next, in lines of their own, so that nothing that was found is lost."""
    number = rest or "10"
    if not re.fullmatch(r"[0-9]{1,4}", number) or not 1 <= int(number) <= 1000:
        shell.out.own("all N: N is from 1 to 1000")
        return
    shell.ask_up_to(int(number))


def on_offers(shell: Shell, rest: str) -> None:
    """offers: the tuples that the current scenario could be given, with numbers for add."""
    shell.ask_offers()


def on_add(shell: Shell, rest: str) -> None:
    """add K, or add RELATION TUPLE: a floor with one tuple more, and its first scenario."""
    if rest.isascii() and rest.isdigit() and 1 <= int(rest) <= len(shell.offers):
        rest = shell.offers[int(rest) - 1]
    if not _TUPLE.match(rest):
        shell.out.own("add K takes a number of the last offers; add RELATION TUPLE a tuple, as add holds Reader$0->Book$0")
        return
    shell.out.own(f"augment {rest}")
    shell.say(shell.session.ask([f"augment {rest}", "next"], until_end=True))


def on_back(shell: Shell, rest: str) -> None:
    """back: the floor below, as it was left."""
    shell.say(shell.session.ask(["back"]))
    shell.tell_where()


def on_undo(shell: Shell, rest: str) -> None:
    """undo: the script without what the last word added to it."""
    taken = shell.session.undo()
    shell.offers = []
    if not taken:
        shell.out.own("there is nothing to take back")
        return
    shell.out.own("taken back: " + (f"{len(taken)} lines of next" if len(taken) > 1 and set(taken) == {"next"} else ", ".join(taken)))
    shell.tell_where()


def on_budget(shell: Shell, rest: str) -> None:
    """budget B: at most so many units for each step that follows."""
    if not re.fullmatch(r"[0-9]{1,6}", rest):
        shell.out.own("budget B: B is from 0 to 100000")
        return
    shell.say(shell.session.ask([f"budget {rest}"]))


def on_proof(shell: Shell, rest: str) -> None:
    """proof [FILE]: asks for the proof that nothing is left at this floor, and hands its lines to the program's check."""
    reply = shell.session.ask(["proof"], keep=False)[0]
    shell.out.programs(reply.lines[0])
    if reply.word != "proof":
        return
    if rest:
        _write(Path(rest), "".join(f"{line}\n" for line in reply.lines[1:]))
        shell.out.own(f"its lines are in {rest}")
    answer = shell.session.check(reply)
    shell.out.own("explore check says of these lines:")
    shell.out.programs(*answer.lines)
    if not answer.lines:
        shell.out.own("it gave no answer", *answer.errors)


def on_show(shell: Shell, rest: str) -> None:
    """show [K]: prints the current scenario again, or the one with number K."""
    scenario = shell.numbered(rest)
    if scenario:
        shell.out.programs(*scenario.lines())


def on_table(shell: Shell, rest: str) -> None:
    """table [K]: the scenario as a table, atoms with their deepest signature, empty relations on one line."""
    scenario = shell.numbered(rest)
    if scenario:
        shell.out.own(*views.table(scenario, shell.session.source.outline))


def on_by(shell: Shell, rest: str) -> None:
    """by SIG: a block for each atom of a signature, with + and - where it changed from block to block."""
    scenario = shell.current()
    if scenario is None:
        return
    lines = views.by(scenario, rest, shell.session.source.outline)
    shell.out.own(*lines or [f"by SIG: the scenario has no atoms of {rest or 'it'}"])


def on_diff(shell: Shell, rest: str) -> None:
    """diff [K]: what the current scenario has more and less than the nearest earlier one, or number K, up to names."""
    scenario = shell.current()
    if scenario is None:
        return
    shown = shell.session.shown()
    if rest:
        other = shell.numbered(rest)
        if other is None:
            return
        number, like = int(rest), likeness(scenario, other)
    else:
        own = next(place for place, one in enumerate(shown) if one == scenario)
        found = nearest(scenario, shown[:own])
        if found is None:
            shell.out.own("no scenario was printed before this one")
            return
        number, like = found[0] + 1, found[1]
    if like.size == 0:
        shell.out.own(f"the same as number {number}" + (" up to the names of the atoms" if like.moved() else ""))
    else:
        count = "1 tuple differs" if like.size == 1 else f"{like.size} tuples differ"
        shell.out.own(f"beside number {number}, {count} (names are exchanged one pair at a time: fewer may do)")
    shell.out.own(*views.difference(like))


def on_dot(shell: Shell, rest: str) -> None:
    """dot FILE [ATOM]: the drawing; FILE.svg and FILE.png are drawn by Graphviz. With an atom, the part that it has."""
    scenario = shell.current()
    path, _, atom = rest.partition(" ")
    if scenario is None:
        return
    if not path or (atom and atom not in scenario.atoms()):
        shell.out.own(f"dot FILE [ATOM]{f': no atom is called {atom}' if atom else ''}")
        return
    wanted = drawing.Wanted(only={atom.split("$")[0]: atom} if atom else {})
    text = drawing.dot(scenario, shell.session.source.outline, wanted)
    if path.endswith((".svg", ".png")):
        Path(path).write_bytes(drawing.draw(text, path[-3:]))
    else:
        _write(Path(path), text)
    shell.out.own(f"written to {path}")


def on_json(shell: Shell, rest: str) -> None:
    """json [FILE]: the current scenario for other tools."""
    scenario = shell.current()
    if scenario is None:
        return
    relations = {relation.name: [list(row) for row in relation.tuples] for relation in scenario.relations}
    text = json.dumps({"reply": scenario.head, "relations": relations}, ensure_ascii=False)
    _write_or_say(shell, rest, text)


def on_script(shell: Shell, rest: str) -> None:
    """script [FILE]: the script whose replies were shown; offers, proofs and refused steps aren't in it."""
    _write_or_say(shell, rest, shell.session.script().rstrip("\n"))


def on_look(shell: Shell, rest: str) -> None:
    """look: the commands of the text, and its faults."""
    shell.tell_commands()
    shell.session.look()


def on_reload(shell: Shell, rest: str) -> None:
    """reload: reads the file again, and keeps the steps whose replies stay the same."""
    was = shell.session.source
    new = source.read(was.path, was.session if was.others else None).on(was.command)
    before, shell.offers = shell.session.steps, []
    try:
        same = shell.session.replace(new)
    except Fault as fault:
        shell.tell_fault(str(fault), new)
        if before:
            shell.out.own("the session goes on with the text as it was")
        else:
            shell.session.restart(new)
            shell.usable = False
        return
    shell.usable = True
    shell.out.own(f"{same} of {len(before)} steps stay, with the same replies")
    if same < len(before):
        shell.out.own(f"from step {same + 1} ({before[same]}) on the replies are others: these steps are left out")
    if not before or same < len(before):
        shell.tell_facts()


def on_restart(shell: Shell, rest: str) -> None:
    """restart: forgets all steps, reads the file again, and begins anew."""
    was = shell.session.source
    shell.session.restart(source.read(was.path, was.session if was.others else None).on(was.command))
    shell.offers = []
    shell.begin()


def on_command(shell: Shell, rest: str) -> None:
    """command K, or command NAME: begins anew on another command of the model."""
    number = source.command_of(shell.session.source, rest)
    if number is None:
        shell.out.own(f"command K takes a number or a name of these; it is on {shell.session.source.command}")
        shell.tell_commands()
        return
    shell.session.restart(shell.session.source.on(number))
    shell.offers = []
    shell.begin()


def on_help(shell: Shell, rest: str) -> None:
    """help: these lines."""
    for act in dict.fromkeys(WORDS.values()):
        shell.out.own("  " + " ".join((act.__doc__ or "").split()))


def on_quit(shell: Shell, rest: str) -> None:
    """quit: leaves; so does the end of the input."""
    raise Leave


def _write_or_say(shell: Shell, path: str, text: str) -> None:
    """A text into a file, or on lines of the loop's own."""
    if path:
        _write(Path(path), text + "\n")
        shell.out.own(f"written to {path}")
    else:
        shell.out.own(text)


def _write(path: Path, text: str) -> None:
    """Writes a text file."""
    path.write_text(text, encoding="utf-8")


WORDS: Words = {
    "next": on_next,
    "all": on_all,
    "offers": on_offers,
    "add": on_add,
    "back": on_back,
    "undo": on_undo,
    "proof": on_proof,
    "budget": on_budget,
    "show": on_show,
    "table": on_table,
    "by": on_by,
    "diff": on_diff,
    "dot": on_dot,
    "json": on_json,
    "script": on_script,
    "look": on_look,
    "reload": on_reload,
    "restart": on_restart,
    "command": on_command,
    "help": on_help,
    "quit": on_quit,
}
