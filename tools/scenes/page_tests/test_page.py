"""The page in a browser, as somebody uses it."""

from __future__ import annotations

import os
import shutil
import subprocess
import sys
import tempfile
import time
import unittest
from collections.abc import Callable
from pathlib import Path
from typing import Any

from selenium import webdriver
from selenium.webdriver.chrome.service import Service
from selenium.webdriver.common.by import By
from selenium.webdriver.remote.webelement import WebElement
from selenium.webdriver.support.ui import Select, WebDriverWait

from loop.program import find

TOOL = Path(__file__).resolve().parents[1]
TOP = TOOL.parents[1]
WAIT = 180
OPTIONS = ("--headless=new", "--no-sandbox", "--disable-gpu", "--disable-dev-shm-usage", "--window-size=1400,900")
STEPS = """
sig Key {}
abstract sig Step { next: lone Step, holds: set Key }
one sig First extends Step {}
sig Later extends Step {}
sig Lit in Step {}
fact line { no next.First && Step in First.*next && no ^next & iden }
fact start { no First.holds }
fact grows { all s: Step, t: s.next | s.holds in t.holds && s.holds != t.holds }
run show { #Step > 2 && some Lit } for 3
run empty { some Key && no Key } for 2
"""


def browser() -> webdriver.Chrome:
    options = webdriver.ChromeOptions()
    for option in OPTIONS:
        options.add_argument(option)
    options.binary_location = shutil.which("chromium") or ""
    options.set_capability("goog:loggingPrefs", {"browser": "ALL"})
    made = webdriver.Chrome(options=options, service=Service(shutil.which("chromedriver") or "chromedriver"))
    made.set_page_load_timeout(WAIT)
    made.set_script_timeout(WAIT)
    return made


class Used(unittest.TestCase):
    """A server on a model, and a browser for all tests."""

    driver: webdriver.Chrome

    @classmethod
    def setUpClass(cls) -> None:
        cls.driver = browser()

    @classmethod
    def tearDownClass(cls) -> None:
        cls.driver.quit()

    def setUp(self) -> None:
        made = tempfile.TemporaryDirectory()
        self.addCleanup(made.cleanup)
        self.folder = Path(made.name)
        self.driver.get_log("browser")

    def tearDown(self) -> None:
        """Nothing was refused by the page's own rules, and no script of it failed."""
        wrong = [line for line in self.driver.get_log("browser") if line["level"] == "SEVERE" and self.expected not in line["message"]]
        self.assertEqual(wrong, [])

    expected = "no such message"

    def file(self, text: str, name: str = "m.als") -> Path:
        path = self.folder / name
        path.write_text(text, encoding="utf-8")
        return path

    def open(self, path: Path, *words: str, program: str = "", **environment: str) -> str:
        """Serves a page on a file, and opens it."""
        served = subprocess.Popen(
            [sys.executable, TOOL / "scenes", "--page", path, *words],
            stdout=subprocess.PIPE,
            text=True,
            env={**os.environ, **environment, "EXPLORE": program or find()},
        )
        assert served.stdout
        self.addCleanup(served.stdout.close)
        self.addCleanup(served.wait)
        self.addCleanup(served.terminate)
        address = served.stdout.readline().split()[1]
        self.driver.get(address)
        self.rest()
        return address

    def until(self, holds: Callable[[], Any]) -> None:
        WebDriverWait(self.driver, WAIT, 0.1).until(lambda _: holds())

    def rest(self) -> None:
        """Waits until nothing is under way."""
        self.until(lambda: self.driver.execute_script("return state !== null && !busy && !drawing && !byId('offers').textContent.includes('asking')"))

    def one(self, name: str) -> WebElement:
        return self.driver.find_element(By.ID, name)

    def all(self, which: str) -> list[WebElement]:
        return self.driver.find_elements(By.CSS_SELECTOR, which)

    def text(self, name: str) -> str:
        return str(self.one(name).get_property("textContent"))

    def press(self, name: str) -> None:
        self.one(name).click()
        self.rest()

    def boxes(self) -> list[str]:
        """The first lines of the boxes in the picture."""
        return sorted(str(box.find_element(By.CSS_SELECTOR, "text").get_property("textContent")) for box in self.all("#picture g.node"))

    def arrows(self) -> int:
        return len(self.all("#picture g.edge"))


class Asking(Used):
    """From a model to pictures."""

    def test_load(self) -> None:
        self.open(TOP / "examples/hotel.explore", "2")
        self.assertEqual(self.driver.title, "hotel.explore - scenes")
        self.assertEqual(len(Select(self.one("command")).options), 3)
        self.assertEqual(Select(self.one("command")).first_selected_option.get_attribute("value"), "2")
        self.assertIn("scenario 1", self.text("facts"))
        self.assertTrue(self.one("empty").is_displayed())
        self.assertEqual(self.all("#picture svg"), [])

    def test_next_and_picture(self) -> None:
        """A picture is there, atoms by their deepest signature; the text beside it is the program's."""
        self.open(self.file(STEPS))
        self.press("next")
        self.assertEqual(self.text("verdict"), "scenario 1")
        lines = self.text("text").split("\n")
        self.assertEqual(lines[0], "scenario 1")
        self.assertIn("Step = {Step$0, Step$1, Step$2}", lines)
        self.assertEqual(self.boxes(), ["First$0", "Key$0", "Key$1", "Later$1", "Later$2"])
        size = self.all("#picture svg")[0].size
        self.assertGreater(size["width"], 100)
        self.assertGreater(size["height"], 100)
        self.assertIn("Step$1", [title.get_property("textContent") for title in self.all("#picture g.node title")])

    def test_add_back_undo(self) -> None:
        self.open(self.file("sig Book, Reader {}\nrun { some Book } for 2\n"))
        self.press("next")
        offers = {button.get_attribute("title"): button for button in self.all("#offers .rows button")}
        self.assertEqual(sorted(map(str, offers)), ["augment Book Book$1", "augment Reader Reader$0", "augment Reader Reader$1"])
        offers["augment Reader Reader$0"].click()
        self.rest()
        self.assertEqual((self.boxes(), self.text("floor")), (["Book$0", "Reader$0"], "~ floor 1"))
        self.assertIn("not there in number 1", self.text("legend"))
        self.press("back")
        self.assertEqual((self.boxes(), self.text("floor")), (["Book$0"], ""))
        self.press("undo")
        self.assertEqual(self.boxes(), ["Book$0", "Reader$0"])
        self.press("undo")
        self.press("undo")
        self.assertEqual(self.all("#picture svg"), [])
        self.assertFalse(self.one("undo").is_enabled())

    def test_proof(self) -> None:
        self.open(self.file("sig Book {}\nrun { some Book } for 2\n"))
        self.assertFalse(self.one("prove").is_displayed())
        self.press("all")
        self.assertEqual(self.text("verdict"), "end 1")
        self.press("prove")
        shown = [str(row.get_property("textContent")) for row in self.all("#proof div")]
        self.assertRegex(shown[0], r"^proof \d+$")
        self.assertEqual(shown[1:], ["~ explore check says of these lines:", "accepted"])

    def test_earlier_scenarios(self) -> None:
        self.open(TOP / "examples/roles.explore", "handbook")
        self.assertEqual(len(self.all("#scenarios button")), 4)
        before = self.text("text")
        self.all("#scenarios button")[0].click()
        self.rest()
        self.assertNotEqual(self.text("text"), before)
        self.assertIn("offers are for the current scenario, number 4", self.text("offers"))

    def test_command(self) -> None:
        self.open(self.file(STEPS))
        self.press("next")
        Select(self.one("command")).select_by_value("2")
        self.rest()
        self.assertEqual(self.all("#picture svg"), [])
        self.press("next")
        self.assertEqual(self.text("verdict"), "end 0")

    def test_fault(self) -> None:
        """A fault is shown with its caret and its cure; after an edit, reload goes on."""
        path = self.file("module a/b/c\nsig A {}\nrun { some { x: A | some x } } for 2\n")
        self.open(path)
        lines = self.text("fault").rstrip("\n").split("\n")
        self.assertEqual(lines[0], "fault model m 3:12 unsupported comprehension")
        at = lines.index("~     run { some { x: A | some x } } for 2")
        self.assertEqual(lines[at + 1].index("^"), lines[at].index("{ x: A"))
        self.assertIn("operators", lines[at + 2])
        self.assertTrue(self.one("fault").is_displayed())
        self.assertFalse(self.one("next").is_enabled())
        self.file("sig A {}\nrun { some A } for 2\n")
        self.press("reload")
        self.assertFalse(self.one("fault").is_displayed())
        self.press("next")
        self.assertEqual(self.boxes(), ["A$0"])

    def test_nobody_waits_for_offers(self) -> None:
        """Whoever asks for the next while offers are asked for gets it, and the offers are asked anew."""
        program = self.file(
            f"#!{sys.executable}\nimport os, subprocess, sys, time\ntext = sys.stdin.read()\n"
            f"if text.endswith('next\\noffers\\n') and text.count('next') == 1: time.sleep(600)\n"
            f"sys.exit(subprocess.run([{find()!r}, *sys.argv[1:]], input=text, text=True).returncode)\n",
            "slow",
        )
        program.chmod(0o755)
        self.driver.get("about:blank")
        self.open(self.file("sig A {}\nsig B {}\nrun { some A + B } for 2\n"), program=str(program))
        self.one("next").click()
        self.until(lambda: "asking" in self.text("offers") and self.one("next").is_enabled())
        self.press("next")
        self.assertEqual(self.text("verdict"), "scenario 2")
        self.assertIn("offers 3", self.text("offers"))

    def test_stop(self) -> None:
        """A run that takes long can be stopped, and the page goes on."""
        program = self.file(
            f"#!{sys.executable}\nimport subprocess, sys, time\ntext = sys.stdin.read()\n"
            f"if text.endswith('next\\n') and 'run {{}}' not in text: time.sleep(600)\n"
            f"done = subprocess.run([{find()!r}, *sys.argv[1:]], input=text, text=True, capture_output=True)\n"
            "sys.stdout.write(done.stdout)\nsys.exit(done.returncode)\n",
            "slow",
        )
        program.chmod(0o755)
        self.open(self.file("sig A {}\nrun { some A } for 2\n"), program=str(program))
        self.one("next").click()
        self.until(lambda: self.one("stop").is_displayed())
        self.one("stop").click()
        self.rest()
        self.assertIn("~ stopped", self.text("notice"))
        self.assertTrue(self.one("next").is_enabled())


class Looking(Used):
    """What the picture can be asked for."""

    def test_hide(self) -> None:
        self.open(self.file(STEPS))
        self.press("next")
        before = self.arrows()
        self.assertEqual(before, 5)
        boxes = {str(label.get_property("textContent")).strip(): label for label in self.all("#relations label")}
        boxes["next2"].find_element(By.CSS_SELECTOR, "input").click()
        self.rest()
        self.assertEqual(self.arrows(), 3)

    def test_atoms_without_arrows(self) -> None:
        self.open(self.file("sig A { f: set A }\nrun { some f && #A > 2 && no iden & f } for 3\n"))
        self.press("next")
        self.assertEqual(len(self.boxes()), 3)
        self.press("lonely")
        self.assertEqual(len(self.boxes()), 2)

    def test_one_at_a_time(self) -> None:
        """One atom after the other, along the relation that puts them in a line; what is new is drawn bold."""
        self.open(self.file(STEPS))
        self.press("next")
        only = Select(self.one("only"))
        self.assertIn("Step, along next", [option.text for option in only.options])
        only.select_by_value("Step")
        self.rest()
        self.assertEqual((self.boxes(), self.text("atom")), (["Key$0", "Key$1"], "First$0 (1 of 3)"))
        words = []
        for place in (1, 2):
            self.driver.execute_script(f"byId('slider').value = {place}; byId('slider').dispatchEvent(new Event('input'))")
            self.rest()
            words.append(sorted(str(line.get_property("textContent")) for line in self.all("#picture g.node text") if "holds" in str(line.get_property("textContent"))))
            self.assertRegex(self.text("atom"), rf"Later\$\d \({place + 1} of 3\)")
        self.assertEqual(words, [["holds"], ["holds", "holds"]])
        self.assertEqual(len(self.all("#picture g.node text[font-weight=bold]")), 1)

    def test_colours_stay(self) -> None:
        self.open(TOP / "examples/family.explore", "two")
        fills = []
        for place in (0, 1):
            self.all("#scenarios button")[place].click()
            self.rest()
            fills.append(self.fills())
        self.assertEqual(sorted(fills[0]), ["Man", "Woman"])
        self.assertNotEqual(fills[0]["Man"], fills[0]["Woman"])
        self.assertEqual(fills[1], {"Man": fills[0]["Man"]})

    def fills(self) -> dict[str, str]:
        """The colour of the boxes of each signature."""
        found = {}
        for box in self.all("#picture g.node"):
            name = str(box.find_element(By.CSS_SELECTOR, "text").get_property("textContent"))
            found[name.split("$")[0]] = str(box.find_element(By.CSS_SELECTOR, "path, polygon").get_attribute("fill"))
        return found

    def test_tables_without_graphviz(self) -> None:
        self.open(self.file("sig A { f: A }\nrun { some A } for 2\n"), PATH=self.path_without("dot"))
        self.press("next")
        self.assertEqual(self.all("#picture svg"), [])
        self.assertTrue(self.one("tables").is_displayed())
        self.assertIn("Debian's package graphviz", self.text("tables"))
        self.assertEqual([cell.text for cell in self.all("#tables td")], ["A$0", "A$0", "A$0"])

    def path_without(self, name: str) -> str:
        """A folder with all commands but one: the program may be a script, which wants some of them."""
        folder = self.folder / "commands"
        folder.mkdir()
        for place in os.get_exec_path():
            for command in Path(place).iterdir() if Path(place).is_dir() else ():
                if command.name != name and not (folder / command.name).is_symlink():
                    (folder / command.name).symlink_to(command)
        return str(folder)

    def test_lines_of_its_own(self) -> None:
        """Whatever the page says by itself begins with its mark; all else in the log is what the program prints."""
        path = self.file("sig Book {}\nrun { some Book } for 2\n")
        self.open(path)
        self.press("all")
        known = {"scenario 1", "Book = {Book$0}", "end 1", "offers 1"}
        self.assertEqual({line for line in self.text("log").split("\n") if line and not line.startswith("~")}, known)
        for own in self.all("main .own, footer.own"):
            said = str(own.get_property("textContent")).strip()
            if own.is_displayed() and said:
                self.assertTrue(said.startswith("~"), said)


class Tabs(Used):
    """Several tabs."""

    def test_second_tab(self) -> None:
        """Another tab has a session of its own."""
        address = self.open(self.file("sig Book {}\nrun { some Book } for 2\n"))
        self.press("next")
        first = self.driver.current_window_handle
        self.driver.switch_to.new_window("tab")
        try:
            self.driver.get(address)
            self.rest()
            self.assertEqual(self.all("#scenarios button"), [])
            self.press("all")
            self.assertEqual(self.text("verdict"), "end 1")
        finally:
            self.driver.close()
            self.driver.switch_to.window(first)
        self.assertEqual((self.text("verdict"), len(self.all("#scenarios button"))), ("scenario 1", 1))

    def test_same_session_twice(self) -> None:
        """A tab that is behind is brought up to date in the place of doing what it can't know the effect of."""
        address = self.open(self.file("sig Book, Reader {}\nrun { some Book } for 2\n"))
        name = self.driver.execute_script("return tab")
        first = self.driver.current_window_handle
        self.driver.switch_to.new_window("tab")
        try:
            self.driver.get(address)
            self.driver.execute_script("sessionStorage.setItem('tab:' + location.pathname, arguments[0])", name)
            self.driver.get(address)
            self.rest()
            self.press("next")
        finally:
            self.driver.close()
            self.driver.switch_to.window(first)
        self.press("all")
        self.assertIn("went on in another tab", self.text("notice"))
        self.assertEqual((self.text("verdict"), self.boxes()), ("scenario 1", ["Book$0"]))

    def test_loading_again_goes_on(self) -> None:
        address = self.open(self.file("sig Book {}\nrun { some Book } for 2\n"))
        self.press("next")
        self.driver.get(address)
        self.rest()
        self.assertEqual(self.boxes(), ["Book$0"])


class Hostile(Used):
    """Nothing of a model is markup."""

    markup = "<img src=x onerror=window.hit=1><script>window.hit=1</script>"

    def unharmed(self) -> None:
        time.sleep(0.5)
        self.assertIsNone(self.driver.execute_script("return window.hit || null"))
        self.assertEqual(self.all("body img, body script, body iframe, body object"), [])

    def test_text(self) -> None:
        """A comment, a command and a file's name with markup are shown as they are."""
        path = self.file(f"// {self.markup}\nsig A {{}}\nrun {{ some A /* {self.markup} */ }} for 2\n", "<img src=x onerror=window.hit=1>.als")
        self.open(path)
        self.press("next")
        self.unharmed()
        self.assertIn(self.markup, self.text("model"))
        self.assertIn("<img src=x", self.text("file"))
        self.assertEqual(self.boxes(), ["A$0"])

    def test_fault(self) -> None:
        self.open(self.file(f"sig A {{}}\nrun {{ some {self.markup} }} for 2\n"))
        self.unharmed()
        self.assertIn(self.markup, self.text("fault"))

    def test_program(self) -> None:
        """Not even what a program of another kind prints is markup."""
        program = self.file(
            f"#!{sys.executable}\nimport sys\ntext = sys.stdin.read()\n"
            f"steps = text.split('s m 1\\n')[-1].split() if 's m 1' in text else []\n"
            f"print('== s')\nfor step in steps: print('scenario 1'); print('A = {{A${self.markup}, A$1\"];x}}'); print('f = {{A${self.markup}->A$1\"];x}}')\n",
            "other",
        )
        program.chmod(0o755)
        self.open(self.file("sig A { f: A }\nrun { some A } for 2\n"), program=str(program))
        self.one("next").click()
        self.rest()
        self.unharmed()
        self.assertIn(self.markup, self.text("text"))
        self.assertEqual(len(self.all("#picture g.node")), 2)
        self.assertIn(f"A${self.markup}", self.boxes())

    def test_copy_of_a_picture(self) -> None:
        """What Graphviz never draws isn't copied: scripts, foreign elements, and attributes that run."""
        self.expected = "Content Security Policy"  # the parser tells of what it wouldn't have run either
        self.open(self.file("sig A {}\nrun {} for 2\n"))
        drawn = (
            '<svg xmlns="http://www.w3.org/2000/svg" xmlns:xlink="http://www.w3.org/1999/xlink" onload="window.hit=1" viewBox="0 0 1 1"><script>window.hit=1</script>'
            '<a xlink:href="javascript:window.hit=1" xlink:title="tip"><text onclick="window.hit=1" style="color:red">A</text></a>'
            '<foreignObject><img xmlns="http://www.w3.org/1999/xhtml" src="x" onerror="window.hit=1"/></foreignObject><image href="x"/></svg>'
        )
        kept = self.driver.execute_script(
            "const made = copied(new DOMParser().parseFromString(arguments[0], 'image/svg+xml').documentElement);"
            "document.body.append(made); const text = made.outerHTML; made.remove(); return text",
            drawn,
        )
        self.assertEqual(kept, '<svg viewBox="0 0 1 1"><g><title>tip</title><text>A</text></g></svg>')
        self.unharmed()

    def test_other_pages_cannot_hold_it(self) -> None:
        self.expected = "frame"  # that it was refused is told
        address = self.open(self.file("sig A {}\nrun {} for 2\n"))
        self.driver.get("about:blank")
        self.driver.execute_script("const f = document.createElement('iframe'); f.src = arguments[0]; document.body.append(f)", address)
        time.sleep(1)
        self.driver.switch_to.frame(0)
        self.assertEqual(self.all("#next"), [])
        self.driver.switch_to.default_content()


if __name__ == "__main__":
    unittest.main()
