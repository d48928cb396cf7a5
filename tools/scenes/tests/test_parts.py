"""The parts of the loop, each by itself."""

from __future__ import annotations

import contextlib
import io
import os
import re
import signal
import stat
import subprocess
import sys
import tempfile
import time
import unittest
from pathlib import Path

from loop import cures, drawing, forms, replies, source
from loop.outline import look
from loop.program import Program, find
from loop.likeness import likeness, nearest, up_to_names
from loop.scenario import Scenario, names_in
from loop.session import Changed, Failed, Fault, Session
from loop.out import Out, printable

from .transcript import TOOL, TOP, scenes

# Faults that the look at the text doesn't find: only the program knows names, types and scopes.
PROGRAMS_OWN = frozenset(
    "open_comment number_too_large end_of_text unknown twice cycle recursive arity not_unary not_binary sort ambiguous arguments "
    "not_plain no_command no_scope unknown_scope scope_too_large too_many_atoms too_many_cells too_many_terms".split()
)


class Folder(unittest.TestCase):
    """A test with a folder of its own."""

    def setUp(self) -> None:
        made = tempfile.TemporaryDirectory()
        self.addCleanup(made.cleanup)
        self.folder = Path(made.name)

    def file(self, name: str, text: str | bytes) -> Path:
        path = self.folder / name
        path.write_bytes(text.encode() if isinstance(text, str) else text)
        return path

    def program(self, text: str) -> Program:
        """A program of its own text, in the place of `explore`."""
        path = self.file("program", f"#!{sys.executable}\nimport sys\n{text}")
        path.chmod(path.stat().st_mode | stat.S_IXUSR)
        return Program(str(path))


class Faults(Folder):
    """The rows of docs/FAULTS.md."""

    def test_rows_are_found(self) -> None:
        """The text of each row has its fault where the list says so; of the rows that look for a form none is missed."""
        rows = cures.read().rows
        self.assertGreater(len(rows), 50)
        for row in rows:
            with self.subTest(row.text):
                found = [place for place in forms.places(row.text) if place.kind == row.kind]
                if row.kind in PROGRAMS_OWN and not found:
                    continue
                if row.text.startswith("module ") or row.text == "sig A { run { some A }":
                    continue
                places = [(place.line, place.column) for place in found]
                self.assertIn(row.place or (1, 1), places)

    def test_forms_have_rows(self) -> None:
        """Each form is named after a row of the list, and the row has a cure."""
        known = cures.read()
        named = re.findall(r'"((?:sig A|open |enum )[^"]*)"', (TOOL / "loop/forms.py").read_text(encoding="utf-8"))
        self.assertGreater(len(named), 25)
        for text in named:
            with self.subTest(text):
                self.assertNotEqual(known.of_text(text), "")

    def test_program_agrees(self) -> None:
        """The first place of a text is the one that the program tells."""
        program = Program(find())
        for text in ("enum E { X }", "sig A { f: A } { some f }", "sig A {} run { some { x: A | some x } }", "sig A {} pred A.p { }"):
            with self.subTest(text), self.assertRaises(Fault) as told:
                Session(program, source.Source(Path("m.als"), text)).look()
            first = forms.places(text)[0]
            self.assertEqual(str(told.exception), f"fault model m {first.line}:{first.column} {first.kind}")

    def test_examples_have_none(self) -> None:
        """In texts that the program takes, the look finds nothing."""
        for path in sorted((TOP / "examples").glob("*.explore")):
            if path.stem != "quantifier":
                with self.subTest(path.name):
                    self.assertEqual(forms.places(source.read(path).text), [])

    def test_all_at_once(self) -> None:
        """The shell tells each place with the file's own line and column, the line, a caret and the cure."""
        path = self.file("m.als", "module a/b/c\n\tsig A {} { some A }\nenum E { X }\nrun {} for 3 Int\n")
        done = scenes([str(path), "--look"], "")
        self.assertEqual(done.returncode, 4)
        lines = done.stdout.splitlines()
        self.assertIn("fault model m 2:11 unsupported appended", lines)
        self.assertEqual([line[2:].split(": ")[0][len(str(path)) :] for line in lines if re.match(rf"~ {path}:\d", line)], [":2:11", ":3:1", ":4:14"])
        at = lines.index(f"~ {path}:2:11: unsupported appended")
        self.assertEqual(lines[at + 1 : at + 3], ["~     \tsig A {} { some A }", "~     \t" + " " * 9 + "^"])
        self.assertTrue(all(line.startswith(("~", "fault ")) for line in lines))

    def test_scripts_lines(self) -> None:
        """In a script a place is that of the script."""
        path = self.file("m.explore", "# one\n== model m\n\nsig A {} run { some B }\n== session s m 1\nnext\n")
        self.assertIn(f"~ {path}:4:21: unknown", scenes([str(path)], "").stdout)


class Files(Folder):
    """What is read."""

    def test_module_line(self) -> None:
        """A path is blanked and nothing is moved; a name alone stays."""
        read = source.read(self.file("m.als", "module a/b\nsig A {}\n"))
        self.assertEqual(read.text, "          \nsig A {}\n")
        self.assertEqual(len(read.notes), 1)
        self.assertEqual(source.read(self.file("n.als", "module n\nsig A {}\n")).text, "module n\nsig A {}\n")

    def test_banner_is_no_directive(self) -> None:
        """A line that begins with == isn't taken for a directive of the script."""
        path = self.file("m.als", "/*\n===== model\n== model m\n== more\n*/\nsig A {} run {}\n")
        answer = Program(find()).run(source.read(path).script(["next"]))
        self.assertEqual(answer.lines, ("== s", "scenario 1", "A = {}"))

    def test_byte_order_mark_and_returns(self) -> None:
        path = self.file("m.als", b"\xef\xbb\xbfsig A {}\r\nrun { some A }\r\n")
        answer = Program(find()).run(source.read(path).script(["next"]))
        self.assertEqual(answer.lines, ("== s", "scenario 1", "A = {A$0}"))

    def test_unreadable(self) -> None:
        for path in (self.folder / "none.als", self.file("bytes.als", b"\xff\xfe"), self.folder):
            with self.subTest(path.name):
                done = scenes([str(path)], "next\n")
                self.assertEqual((done.returncode, done.stdout), (2, ""))
                self.assertTrue(done.stderr.startswith("scenes: "))

    def test_sessions_of_a_script(self) -> None:
        path = self.file("m.explore", "== model m\nsig A {} run {} check {}\n== session s m 2\nnext\n== session t m 1\n\n# no\nback\n== more s\nproof\n")
        self.assertEqual(source.read(path).steps, ("next", "proof"))
        self.assertEqual(source.read(path, "t").steps, ("back",))
        self.assertEqual(source.read(path).command, 2)


class Outlines(unittest.TestCase):
    """The look at a text."""

    def test_commands(self) -> None:
        text = "sig A { f: A, g, h: set A } // run no\npred p { some A => { some f } else some g }\nrun p for 3 expect 1 check { no A }\n  for 2 but 1 A\n"
        commands = look(text).commands
        self.assertEqual([(c.number, c.line, c.name, c.scope, c.expects) for c in commands], [(1, 3, "p", "for 3", "1"), (2, 3, None, "for 2 but 1 A", None)])

    def test_fields(self) -> None:
        outline = look("abstract sig A { f: B -> lone C, disj g, h: one (B + C) } sig B, C extends A { i: set B }")
        self.assertEqual(outline.fields, [("A", "f"), ("A", "g"), ("A", "h"), ("B", "i"), ("C", "i")])
        self.assertEqual((outline.top("C"), outline.depth("C")), ("A", 1))


def scenario(*lines: str) -> Scenario:
    return Scenario.of("scenario 1", list(lines))


class Scenarios(unittest.TestCase):
    """Scenarios and their likeness."""

    def test_lines_are_kept(self) -> None:
        lines = ["scenario 7", "A = {A$0, A$1}", "B = {}", "A.f = {A$0->A$1, A$1->A$0}", "o/Ord = {o/Ord$0}", "o/First = {o/Ord$0->A$1}"]
        self.assertEqual(Scenario.of(lines[0], lines[1:]).lines(), lines)

    def test_alike(self) -> None:
        one = scenario("A = {A$0, A$1, A$2}", "f = {A$0->A$1, A$1->A$2}")
        other = scenario("A = {A$0, A$1, A$2}", "f = {A$2->A$0, A$0->A$1}")
        third = scenario("A = {A$0, A$1, A$2}", "f = {A$2->A$0, A$1->A$0}")
        self.assertEqual(likeness(one, other).size, 0)
        self.assertGreater(likeness(one, third).size, 0)
        self.assertEqual(up_to_names([one, other, third]), 2)
        self.assertEqual((nearest(other, [third, one]) or (None,))[0], 1)

    def test_names(self) -> None:
        outline = look("sig A {} sig B extends A {} sig C extends B {} sig D in A {}")
        names = names_in(scenario("A = {A$0, A$1}", "B = {A$0}", "C = {A$0}", "D = {A$0}"), outline)
        self.assertEqual([names.short("A$0"), names.short("A$1"), names.both("A$0")], ["C$0", "A$1", "A$0 (C, D)"])

    def test_drawing_takes_names_as_text(self) -> None:
        """What stands in a label is a string of its own, whatever it has."""
        self.assertEqual(drawing.quoted('a"];b\\n'), '"a\\"];b\\\\n"')

    def test_colours_hang_on_declarations(self) -> None:
        outline = look("abstract sig A {} sig B, C extends A {} sig D in A {} sig E {}")
        fills, _ = drawing.colours(outline, scenario("A = {A$0}"))
        self.assertEqual(sorted(fills), ["B", "C", "E"])
        self.assertEqual(len(set(fills.values())), 3)
        self.assertEqual(fills, drawing.colours(outline, scenario("E = {E$0}"))[0])

    def test_part_of_an_atom(self) -> None:
        outline = look("sig S { f: A -> A, g: A } sig A { h: A }")
        shown = scenario("S = {S$0, S$1}", "A = {A$0, A$1}", "f = {S$0->A$0->A$1, S$1->A$1->A$0}", "g = {S$0->A$1}", "h = {A$0->A$0}")
        part = drawing.part(shown, outline, drawing.Wanted(frozenset({"h"}), {"S": "S$0"}, before="S$1"))
        self.assertEqual(part.atoms, ["A$0", "A$1"])
        self.assertEqual(part.arrows, [drawing.Arrow("f", ("A$0", "A$1"), is_new=True)])
        self.assertEqual(part.marks["A$1"], [drawing.Mark("g", is_new=True)])
        more = drawing.part(shown, outline, drawing.Wanted(base=scenario("S = {S$0}", "A = {A$0, A$1}", "h = {A$0->A$0}")))
        self.assertEqual((more.fresh, [arrow.relation for arrow in more.arrows if not arrow.is_new]), ({"S$1"}, ["h"]))
        both = drawing.part(scenario("A = {A$0, A$1}", "h = {A$0->A$1, A$1->A$0}"), outline, drawing.Wanted())
        self.assertEqual(both.arrows, [drawing.Arrow("h", ("A$0", "A$1"), is_both=True)])


class Replies(unittest.TestCase):
    """Answers are taken apart."""

    def test_split(self) -> None:
        lines = ["scenario 1", "A = {}", "offers 1", "A A$0", "refused present", "listed 1", "A = {}", "end 1", "proof 2", "c 1 0", "s 0 1"]
        found = replies.split(["next", "offers", "augment A A$0", "all 3", "proof"], lines)
        self.assertEqual([reply.verdict for reply in found], ["scenario 1", "offers 1", "refused present", "end 1", "proof 2"])

    def test_not_understood(self) -> None:
        for steps, lines in ((["next"], []), (["next"], ["end 0", "end 0"]), (["proof"], ["proof 9", "c 1 0"]), (["all 2"], ["scenario 1", "A = {}"])):
            with self.subTest(steps=steps, lines=lines), self.assertRaises(replies.NotUnderstood):
                replies.split(steps, lines)


class Sessions(Folder):
    """What is kept, with programs of another kind in the place of `explore`."""

    model = source.Source(Path("m.als"), "sig A {} run {}\n")

    def test_other_replies_are_told(self) -> None:
        """A run that answers otherwise than an earlier one is told, and nothing of it is kept."""
        count = self.file("count", "0")
        session = Session(
            self.program(
                f"n = int(open({str(count)!r}).read()) + 1\nopen({str(count)!r}, 'w').write(str(n))\n"
                "steps = sys.stdin.read().split('s m 1\\n')[1].split()\nprint('== s')\nfor step in steps: print('end', n)\n"
            ),
            self.model,
        )
        session.ask(["next"])
        with self.assertRaises(Changed) as changed:
            session.ask(["next"])
        self.assertEqual((changed.exception.number, session.steps), (1, ["next"]))

    def test_no_answer(self) -> None:
        session = Session(self.program("sys.stderr.write('explore: memory is wanting\\n')\nsys.exit(7)\n"), self.model)
        with self.assertRaisesRegex(Failed, "memory is wanting"):
            session.ask(["next"])

    def test_much_in_and_out(self) -> None:
        """A program that writes before it reads, and more than a pipe takes, isn't waited for in vain."""
        program = self.program("sys.stdout.write('x\\n' * 500000)\nsys.stdout.flush()\nsys.stderr.write('y\\n' * 500000)\nsys.stdin.read()\n")
        with contextlib.redirect_stderr(io.StringIO()):
            self.assertEqual(len(program.run("z\n" * 500000).lines), 500000)

    def test_refused_steps_are_not_kept(self) -> None:
        session = Session(Program(find()), self.model)
        session.ask(["back"])
        session.ask(["next"])
        session.ask(["next"] * 5, until_end=True)
        self.assertEqual(session.steps, ["next", "next"])
        self.assertEqual(session.undo(), ["next"])
        self.assertEqual(session.undo(), ["next"])
        self.assertEqual(session.undo(), [])

    def test_floors(self) -> None:
        """What a floor stands on is a part of each scenario there, under the same names."""
        session = Session(Program(find()), source.Source(Path("m.als"), "sig A, B {} run { some A } for 2\n"))
        session.ask(["next", "augment B B$1", "next", "augment A A$1", "next", "back"])
        shown = session.shown()
        self.assertEqual([session.below(place) for place in range(3)], [None, shown[0], shown[1]])
        self.assertEqual((session.current, len(session.floors)), (shown[1], 2))
        self.assertTrue(shown[0].cells < shown[1].cells < shown[2].cells)

    def test_facts(self) -> None:
        for text, said in (("sig A {} fact { some A && no A } run {} for 2", "end 0"), ("sig A {} check { no A } for 2", "scenario 1")):
            with self.subTest(text):
                facts = Session(Program(find()), source.Source(Path("m.als"), text)).facts()
                self.assertEqual(facts and (facts.asked, facts.verdict), ("run {} for 2", said))

    def test_reload(self) -> None:
        """Steps whose replies stay the same are kept, the others are left out; a fault changes nothing."""
        path = self.file("m.als", "sig A {} run { some A } for 2\n")
        words = [sys.executable, str(TOOL / "scenes"), str(path)]
        shell = subprocess.Popen(words, stdin=subprocess.PIPE, stdout=subprocess.PIPE, text=True, env={**os.environ, "EXPLORE": find()})
        self.addCleanup(shell.wait)
        assert shell.stdin and shell.stdout
        for word, text, awaited in (
            ("next", None, "~ number 1"),
            ("next", None, "end 1"),
            ("reload", "sig A {} run { some A && some univ } for 2\n", "~ 2 of 2 steps stay, with the same replies"),
            ("reload", "sig A {} run { some B }\n", "~ the session goes on with the text as it was"),
            ("reload", "sig A {} run { #A > 1 } for 2\n", "~ from step 1 (next) on the replies are others: these steps are left out"),
        ):
            if text:
                path.write_text(text)
            shell.stdin.write(word + "\n")
            shell.stdin.flush()
            seen = []
            while not seen or seen[-1] != awaited:
                line = shell.stdout.readline()
                self.assertNotEqual(line, "", f"{awaited} didn't come: {seen}")
                seen.append(line.rstrip("\n"))
        shell.stdin.close()
        shell.stdout.close()

    def test_break(self) -> None:
        """Ctrl-C ends a run with all that it started, and the shell goes on."""
        child = self.file("child", "")
        program = self.program(
            f"import os, subprocess, time\nn = subprocess.Popen(['sleep', '60'])\nopen({str(child)!r}, 'w').write(str(n.pid))\n"
            "time.sleep(60)\n"
        )
        words = [sys.executable, str(TOOL / "scenes"), str(self.file("m.als", "sig A {} run {}\n"))]
        # A job in the background ignores Ctrl-C, and so would the shell that it starts.
        self.addCleanup(signal.signal, signal.SIGINT, signal.signal(signal.SIGINT, signal.default_int_handler))
        shell = subprocess.Popen(words, stdin=subprocess.PIPE, stdout=subprocess.PIPE, text=True, env={**os.environ, "EXPLORE": program.path})
        until = time.monotonic() + 30
        while not child.read_text() and time.monotonic() < until:
            time.sleep(0.05)
        time.sleep(0.2)
        shell.send_signal(signal.SIGINT)
        out, _ = shell.communicate("help\n", timeout=30)
        self.assertIn("~ stopped: nothing was kept of it", out)
        self.assertIn("quit: leaves", out)
        self.assertEqual(shell.returncode, 0)
        self.assertFalse(_is_alive(int(child.read_text())))

    def test_end_of_the_shell_ends_the_run(self) -> None:
        """A shell that is ended leaves no run behind."""
        child = self.file("child", "")
        program = self.program(f"import os, time\nopen({str(child)!r}, 'w').write(str(os.getpid()))\ntime.sleep(60)\n")
        words = [sys.executable, str(TOOL / "scenes"), str(self.file("m.als", "sig A {} run {}\n"))]
        shell = subprocess.Popen(words, stdin=subprocess.PIPE, stdout=subprocess.DEVNULL, env={**os.environ, "EXPLORE": program.path})
        until = time.monotonic() + 30
        while not child.read_text() and time.monotonic() < until:
            time.sleep(0.05)
        shell.terminate()
        shell.communicate(timeout=30)
        self.assertEqual(shell.returncode, 128 + signal.SIGTERM)
        self.assertFalse(_is_alive(int(child.read_text())))

    def test_standard_error_is_handed_on_once(self) -> None:
        program = self.program(
            f"import subprocess\nsys.stderr.write('explore: a note\\n')\nsys.exit(subprocess.call([{find()!r}, *sys.argv[1:]]))\n"
        )
        words = [sys.executable, str(TOOL / "scenes"), str(self.file("m.als", "sig A {} run {}\n"))]
        done = subprocess.run(words, input="next\nnext\n", capture_output=True, text=True, env={**os.environ, "EXPLORE": program.path})
        self.assertEqual(done.stderr, "explore: a note\n")
        self.assertIn("\nend 1\n", done.stdout)


def _is_alive(process: int) -> bool:
    """Whether a process runs; one that has ended and wasn't waited for doesn't."""
    for _ in range(100):
        try:
            if Path(f"/proc/{process}/stat").read_text().rsplit(")", 1)[1].split()[0] == "Z":
                return False
        except OSError:
            return False
        time.sleep(0.05)
    return True


class Own(Folder):
    """Lines of the loop's own."""

    def test_all_else_is_the_programs(self) -> None:
        """Each line without the mark is one that the program printed: a stand-in notes all that it prints."""
        noted = self.folder / "noted"
        program = self.program(
            f"import subprocess\ndone = subprocess.run([{find()!r}, *sys.argv[1:]], stdin=sys.stdin, capture_output=True, text=True)\n"
            f"open({str(noted)!r}, 'a').write(done.stdout)\nsys.stdout.write(done.stdout)\nsys.exit(done.returncode)\n"
        )
        text = "// ~\nsig A { f: set A } sig B in A {}\nrun { some f } for 2\ncheck { no B } for 2\n"
        words = "next all_4 diff offers add_1 table by_A show show_1 back undo proof json script budget_1 next reload dot look command_2 next nex by restart all_9 proof".split()
        fed = "".join(word.replace("_", " ") + "\n" for word in words)
        done = subprocess.run(
            [sys.executable, str(TOOL / "scenes"), str(self.file("m.als", text))], input=fed, capture_output=True, text=True, env={**os.environ, "EXPLORE": program.path}
        )
        lines = done.stdout.splitlines()
        printed = set(noted.read_text().splitlines())
        self.assertEqual([line for line in lines if not line.startswith("~") and line not in printed], [])
        self.assertGreater(sum(not line.startswith("~") for line in lines), 20)
        self.assertEqual((done.stderr, done.returncode), ("", 0))

    def test_wrong_lines_of_a_session(self) -> None:
        """What isn't a command is told by the program."""
        for step in ("all x", "all 1001", "nex", "augment A"):
            with self.subTest(step):
                path = self.file("m.explore", f"== model m\nsig A {{}} run {{}}\n== session s m 1\n{step}\n")
                self.assertIn("\nfault script line 4 bad_", scenes([str(path)], "").stdout)

    def test_each_begins_with_its_mark(self) -> None:
        written: list[str] = []

        class Stream:
            def write(self, text: str) -> None:
                written.append(text)

            def flush(self) -> None:
                pass

        Out(Stream()).own("a\nscenario 1\n\nb", "c\x1b[2Jd")  # type: ignore[arg-type]
        self.assertEqual("".join(written), "~ a\n~ scenario 1\n~\n~ b\n~ c\N{REPLACEMENT CHARACTER}[2Jd\n")
        self.assertEqual(printable("\ta\r"), "\ta\N{REPLACEMENT CHARACTER}")

    def test_no_program(self) -> None:
        done = subprocess.run(
            [sys.executable, str(TOOL / "scenes"), "examples/none"], capture_output=True, text=True, cwd=TOP, env={**os.environ, "EXPLORE": "no-such-program"}
        )
        self.assertEqual((done.returncode, done.stdout), (2, ""))
        self.assertEqual(done.stderr, "scenes: EXPLORE names no-such-program, and no such program can be run\n")


if __name__ == "__main__":
    unittest.main()
