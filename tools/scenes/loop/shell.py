"""The shell: what it says of a session, and of whatever goes wrong. Its words are in `words`."""

from __future__ import annotations

from collections.abc import Callable, Iterator, Mapping

from . import drawing, source, views
from .cures import Cures
from .faults import Told, explain
from .likeness import same_as, up_to_names
from .out import Out
from .outline import Command
from .program import Missing, Stopped
from .replies import NotUnderstood, Reply
from .scenario import Scenario
from .session import Changed, Facts, Failed, Fault, Session

Words = Mapping[str, Callable[["Shell", str], None]]


class Leave(Exception):
    """The word `quit`."""


class Shell:
    """One session at a time on one model, and the words for it."""

    def __init__(self, session: Session, cures: Cures, out: Out, words: Words) -> None:
        self.session = session
        self.cures = cures
        self.out = out
        self.words = words
        self.offers: list[str] = []  # of the current scenario, as they were told last
        self.facts: Facts | None = None  # what the facts alone were asked last
        self.usable = False  # whether the program took the text and the command, when it was asked last

    # Where it begins

    def begin(self) -> None:
        """Tells what there is, and asks first whether the text and the command can be used, and whether the facts can hold."""
        self.tell_commands()
        self.facts = None
        steps = self.session.source.steps
        self.usable = self.guarded(self.session.look)
        if not self.usable:
            return
        self.guarded(self.tell_facts)
        if steps:
            self.out.own(f"the lines of the session {self.session.source.session}:")
            self.guarded(lambda: self.ask_lines(steps))

    def ask_lines(self, steps: tuple[str, ...]) -> None:
        """Asks the lines of a file's session, and an `all N` among them as lines of `next`."""
        waiting: list[str] = []
        for step in steps:
            word, _, number = step.partition(" ")
            # One with a wrong number goes to the program as it is, which tells what is wrong.
            if word != "all" or not number.isdecimal() or not 1 <= int(number) <= 1000:
                waiting.append(step)
                continue
            if waiting:
                self.say(self.session.ask(waiting))
                waiting = []
            self.out.own(f"{step}, as lines of next:")
            self.ask_up_to(int(number))
        if waiting:
            self.say(self.session.ask(waiting))

    def ask_up_to(self, number: int) -> None:
        """Asks so many times for the next, up to the first answer behind which nothing more comes."""
        replies = self.session.ask(["next"] * number, until_end=True)
        self.say(replies)
        found = [scenario for reply in replies for scenario in reply.scenarios()]
        kinds = up_to_names(found)
        if kinds < len(found):
            self.out.own(f"{len(found)} were printed; up to names these are at most {kinds}")

    def ask_offers(self) -> str:
        """Asks for the tuples that the current scenario could be given, and gives the line that the program begins with."""
        self.offers = []
        reply = self.session.ask(["offers"], keep=False)[0]
        self.out.programs(reply.lines[0])
        self.offers = list(reply.lines[1:])
        for relation, rows in views.groups_of_offers(self.offers).items():
            self.out.own(*views.wrapped(f"{relation}: ", [f"[{number}] {row}" for number, row in rows], "    "))
        return reply.lines[0]

    def tell_commands(self) -> None:
        """The commands of the text, each with its number, its line and itself."""
        now = self.session.source
        for note in now.notes:
            self.out.own(note)
        commands = now.outline.commands
        others = f", session {now.session} of {', '.join(now.others)}" if now.others else ""
        self.out.own(f"{now.path}: model {now.model}{others}")
        self.out.own("commands, by a look at the text:" if commands else "a look at the text finds no command in it")
        for command in commands:
            mark = "*" if command.number == now.command else " "
            self.out.own(f"{mark} {command.number} line {now.place(command.line, 1)[0]}: {_cut(command.text)}")

    def tell_facts(self) -> None:
        """The answer to the question whether the facts alone have a scenario in the command's scope."""
        facts = self.facts = self.session.facts()
        if facts is None:
            self.out.own("the facts alone can't be asked: the program counts other commands than the look at the text")
            return
        self.out.own(f'the facts alone, asked first as "{facts.asked}": the program says {facts.verdict}')
        if facts.verdict == "end 0":
            self.out.own("so an end says nothing about the command: no scenario of this scope keeps the facts")
        elif not facts.verdict.startswith("scenario"):
            self.out.own("so it is open whether the facts can hold in this scope")

    # Reading lines

    def read(self, lines: Iterator[str]) -> None:
        """Does what the lines say, up to their end or `quit`."""
        try:
            for line in lines:
                self.do(line)
        except Leave:
            pass

    def do(self, line: str) -> None:
        """Does what one line says."""
        name, _, rest = line.strip().partition(" ")
        if name in self.words:
            act = self.words[name]
            self.guarded(lambda: act(self, rest.strip()))
        elif name:
            self.out.own(f'there is no word "{name}": help tells them all')

    def guarded(self, act: Callable[[], None]) -> bool:
        """Does something, and tells what went wrong. Gives whether nothing did."""
        try:
            act()
            return True
        except Fault as fault:
            self.tell_fault(str(fault))
        except Changed as changed:
            self.out.own(
                f"the program answered step {changed.number} ({changed.step}) otherwise than before, so nothing was kept of this run",
                "restart begins anew",
            )
        except Failed as failed:
            self.out.own(f"the program gave no answer: {failed}")
        except NotUnderstood as wrong:
            self.out.own(f"the answer can't be taken apart: {wrong}")
        except Stopped:
            self.out.own("stopped: nothing was kept of it")
        except (Missing, source.Unreadable, drawing.NoGraphviz) as wrong:
            self.out.own(str(wrong))
        except OSError as wrong:
            self.out.own(f"{wrong.filename}: {wrong.strerror}" if wrong.filename else str(wrong))
        return False

    def tell_fault(self, line: str, text: source.Source | None = None) -> None:
        """The program's line, where it is in the file, and all other places at once."""
        self.out.programs(line)
        told = explain(line, text or self.session.source, self.cures)
        more = [place for place in told if not place.is_programs]
        cured: set[str] = set()
        for place in told:
            if more and place is more[0]:
                self.out.own(f"{len(more)} more, by a look at the text; the program tells the first one alone:")
            self.tell_place(place, place.cure in cured)
            cured.add(place.cure)

    def tell_place(self, place: Told, is_told: bool) -> None:
        """A place of the file, its line with a caret, and the cure, where that wasn't told before."""
        path = self.session.source.path
        if place.line:
            self.out.own(f"{path}:{place.line}:{place.column}: {place.kind}", f"    {place.shown}", f"    {place.caret()}")
        else:
            self.out.own(f"{path}: {place.kind}")
        if place.cure:
            self.out.own("  as above" if is_told else f"  {place.cure}")

    # Replies

    def say(self, replies: list[Reply]) -> None:
        """The program's lines, and behind each scenario its number here."""
        before = len(self.session.shown()) - sum(len(reply.scenarios()) for reply in replies)
        self.offers = []
        for reply in replies:
            if reply.step.startswith("proof"):
                self.out.programs(*reply.lines[:1])
                continue
            at = 0
            for scenario in reply.scenarios():
                self.out.programs(*scenario.lines())
                at += len(scenario.lines())
                before += 1
                self.tell_number(before)
            self.out.programs(*reply.lines[at:])
        self.compare_expectation()

    def tell_number(self, number: int) -> None:
        """The number of a scenario that was printed, and an earlier one that is the same up to names."""
        shown = self.session.shown()
        scenario = shown[number - 1]
        same = same_as(scenario, shown[: number - 1])
        if same is None:
            self.out.own(f"number {number}")
        elif scenario.cells == shown[same].cells:
            self.out.own(f"number {number}: printed before as number {same + 1}")
        else:
            self.out.own(f"number {number}: the same as number {same + 1} up to the names of the atoms")

    def compare_expectation(self) -> None:
        """What the command expects of its first answer, where another one came."""
        first = next((reply for reply in self.session.kept if reply.word in ("scenario", "end")), None)
        own = self.command()
        if first is None or own is None or own.expects is None or len(self.session.kept) != 1:
            return
        if (first.word == "scenario") == (own.expects == "0"):
            self.out.own(f"the text expects {own.expects}, and the program's first answer is {first.verdict}")

    def command(self) -> Command | None:
        """The command that the session is on."""
        return next((c for c in self.session.source.outline.commands if c.number == self.session.source.command), None)

    def current(self) -> Scenario | None:
        """The current scenario; where there is none, that is said."""
        scenario = self.session.current
        if scenario is None:
            self.out.own("nothing was shown at this floor yet: next asks for a scenario")
        return scenario

    def numbered(self, number: str) -> Scenario | None:
        """The scenario of a number, or the current one where none is given."""
        if not number:
            return self.current()
        shown = self.session.shown()
        if number.isascii() and number.isdigit() and 1 <= int(number) <= len(shown):
            return shown[int(number) - 1]
        self.out.own(f"no scenario has the number {number}: {len(shown)} were printed")
        return None

    def tell_where(self) -> None:
        """Which of the printed scenarios is the current one."""
        shown, scenario = self.session.shown(), self.session.current
        if scenario is None:
            self.out.own("nothing was shown at this floor yet")
        else:
            number = max(place for place, other in enumerate(shown, 1) if other is scenario or other == scenario)
            self.out.own(f"the current scenario is number {number}: show prints it again")


def _cut(text: str, most: int = 96) -> str:
    return text if len(text) <= most else text[: most - 3] + "..."
