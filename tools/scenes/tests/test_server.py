"""The page's server, asked without a browser: who is answered, and what a tab may say."""

from __future__ import annotations

import http.client
import json
import subprocess
import sys
import tempfile
import threading
import unittest
from pathlib import Path
from typing import Any

from loop import cures, source
from loop.program import Program, find
from loop.server import MOST_TABS, Page
from loop.session import Session

from .transcript import TOOL, environment

MODEL = "sig A { f: set A }\nsig B extends A {}\nrun { some B } for 2\nrun { some f } for 2\n"


class Served(unittest.TestCase):
    """A page on a model."""

    def setUp(self) -> None:
        made = tempfile.TemporaryDirectory()
        self.addCleanup(made.cleanup)
        self.path = Path(made.name) / "m.als"
        self.path.write_text(MODEL)
        self.page = Page(Session(Program(find()), source.read(self.path)), cures.read())
        self.addCleanup(self.page.server_close)
        threading.Thread(target=self.page.serve_forever, daemon=True).start()
        self.addCleanup(self.page.shutdown)
        self.port = self.page.server_address[1]

    def ask(self, method: str, path: str, body: str | None = None, **headers: str) -> tuple[int, str, dict[str, str]]:
        """The status, the body and the headers of an answer; a header's name has `_` for `-`."""
        connection = http.client.HTTPConnection("127.0.0.1", self.port, timeout=60)
        self.addCleanup(connection.close)
        connection.request(method, path, body, {name.replace("_", "-"): value for name, value in headers.items()})
        answer = connection.getresponse()
        return answer.status, answer.read().decode(), dict(answer.getheaders())

    def post(self, what: str, **asked: Any) -> tuple[int, dict[str, Any]]:
        status, body, _ = self.ask("POST", f"/{self.page.token}/{what}", json.dumps(asked), Content_Type="application/json")
        return status, json.loads(body)

    def opened(self) -> dict[str, Any]:
        return self.post("open")[1]

    def say(self, tab: dict[str, Any], word: str, argument: str = "") -> dict[str, Any]:
        """Says a word in a tab whose state is given, and gives the one that comes."""
        status, told = self.post("do", tab=tab["tab"], version=tab["version"], word=word, argument=argument)
        self.assertEqual(status, 200, told)
        return {"tab": tab["tab"], **told}


class Who(Served):
    """Who is answered."""

    def test_only_this_address(self) -> None:
        good = f"/{self.page.token}/"
        self.assertEqual(self.ask("GET", good)[0], 200)
        self.assertEqual(self.ask("GET", good, Host=f"localhost:{self.port}")[0], 200)
        for path, headers in (
            ("/", {}),
            ("/x/", {}),
            (f"/{self.page.token[:-1]}/", {}),
            (f"/{self.page.token}", {}),
            (good, {"Host": "example.org"}),
            (good, {"Host": f"example.org:{self.port}"}),
            (good, {"Host": f"127.0.0.1.example.org:{self.port}"}),
            (good, {"Origin": "http://example.org"}),
            (good, {"Origin": "null"}),
        ):
            with self.subTest(path=path, headers=headers):
                status, body, _ = self.ask("GET", path, **headers)
                self.assertEqual((status, body), (403, ""))

    def test_only_the_loopback_interface(self) -> None:
        self.assertEqual(self.page.server_address[0], "127.0.0.1")

    def test_nothing_else_is_served(self) -> None:
        for path in ("page.html", "../server.py", "%2e%2e/server.py", "page.js/", "state"):
            with self.subTest(path):
                self.assertEqual(self.ask("GET", f"/{self.page.token}/{path}")[0], 404)

    def test_headers(self) -> None:
        for name in ("", "page.js", "page.css"):
            _, _, headers = self.ask("GET", f"/{self.page.token}/{name}")
            self.assertIn("default-src 'none'; script-src 'self'", headers["Content-Security-Policy"])
            self.assertEqual((headers["X-Content-Type-Options"], headers["Cache-Control"]), ("nosniff", "no-store"))

    def test_page_needs_no_network(self) -> None:
        """No file of the page names another place."""
        for name in ("", "page.js", "page.css"):
            body = self.ask("GET", f"/{self.page.token}/{name}")[1].replace("http://www.w3.org/2000/svg", "").replace("http://www.w3.org/1999/xlink", "")
            self.assertNotIn("http", body)
            self.assertNotIn("innerHTML", body)

    def test_requests_are_json(self) -> None:
        where = f"/{self.page.token}/open"
        self.assertEqual(self.ask("POST", where, "{}", Content_Type="text/plain")[0], 400)
        self.assertEqual(self.ask("POST", where, "[]", Content_Type="application/json")[0], 400)
        self.assertEqual(self.ask("POST", where, "{", Content_Type="application/json")[0], 400)
        self.assertEqual(self.ask("POST", where, " " * 70000, Content_Type="application/json")[0], 400)
        self.assertEqual(self.ask("POST", where, "{}", Content_Type="application/json", Origin="http://example.org")[0], 403)
        self.assertEqual(self.ask("POST", where, "{}", Content_Type="application/json", Origin=f"http://127.0.0.1:{self.port}")[0], 200)


    def test_port_in_use(self) -> None:
        words = [sys.executable, str(TOOL / "scenes"), "--page", "--port", str(self.port), str(self.path)]
        done = subprocess.run(words, capture_output=True, text=True, env=environment(), timeout=60)
        self.assertEqual((done.returncode, done.stdout), (2, ""))
        self.assertTrue(done.stderr.startswith(f"scenes: the port {self.port} can't be had: "))


class Words(Served):
    """What a tab may say, and what comes."""

    def test_next_add_back(self) -> None:
        tab = self.say(self.opened(), "next")
        self.assertEqual((tab["verdict"], tab["current"], tab["floor"]), ("scenario 1", 0, 0))
        _, offers = self.post("offers", tab=tab["tab"], version=tab["version"])
        self.assertEqual((offers["said"], offers["offers"]["A"]), ("offers 6", ["A$1"]))
        tab = self.say(tab, "add", "A A$1")
        self.assertEqual((tab["verdict"], tab["current"], tab["floor"], tab["steps"]), ("scenario 1", 1, 1, ["next", "augment A A$1", "next"]))
        tab = self.say(tab, "back")
        self.assertEqual((tab["current"], tab["floor"]), (0, 0))
        tab = self.say(tab, "undo")
        self.assertEqual((tab["current"], tab["floor"]), (1, 1))

    def test_tabs_are_apart(self) -> None:
        one, other = self.opened(), self.opened()
        one = self.say(one, "next")
        self.assertEqual(len(one["scenarios"]), 1)
        self.assertEqual(self.post("state", tab=other["tab"])[1]["scenarios"], [])

    def test_outdated(self) -> None:
        """A tab that doesn't know of the last word is told where the session stands, and its own word isn't said."""
        before = self.opened()
        self.say(before, "next")
        told = self.say(before, "next")
        self.assertTrue(told["outdated"])
        self.assertEqual(told["steps"], ["next"])

    def test_refused_requests(self) -> None:
        tab = self.opened()
        for word, argument in (("script", "x"), ("dot", "x.svg"), ("proof", "file"), ("next", "x"), ("add", "A\nproof"), ("quit", ""), ("command", "9")):
            with self.subTest(word=word, argument=argument):
                status, told = self.post("do", tab=tab["tab"], version=tab["version"], word=word, argument=argument)
                if (word, argument) == ("command", "9"):
                    self.assertEqual((status, told["usable"]), (200, False))
                else:
                    self.assertEqual(status, 400)
        self.assertEqual(self.post("state", tab="none")[0], 400)
        self.assertEqual(self.post("draw", tab=tab["tab"], number=5)[0], 400)

    def test_many_tabs(self) -> None:
        first = self.opened()
        for _ in range(MOST_TABS):
            self.page.open_tab()
        self.assertEqual(self.post("state", tab=first["tab"])[0], 400)

    def test_proof(self) -> None:
        tab = self.say(self.opened(), "all", "5")
        self.assertTrue(tab["ended"])
        tab = self.say(tab, "proof")
        self.assertRegex(tab["proof"][0], r"^proof \d+$")
        self.assertEqual(tab["proof"][-1], "accepted")
        self.assertIsNone(self.say(tab, "undo")["proof"])

    def test_offers_are_refused(self) -> None:
        """What the program says in the place of offers is what the page gets, and no number that it didn't print."""
        tab = self.say(self.opened(), "next")
        program = self.path.parent / "program"
        program.write_text(
            f"#!{sys.executable}\nimport subprocess, sys\ntext = sys.stdin.read()\nassert text.endswith('offers\\n')\n"
            f"subprocess.run([{find()!r}, 'run'], input=text[:-7], text=True)\nprint('refused spent 0')\n"
        )
        program.chmod(0o755)
        self.page.tabs[tab["tab"]].program.path = str(program)
        _, told = self.post("offers", tab=tab["tab"], version=tab["version"])
        self.assertEqual((told["said"], told["offers"]), ("refused spent 0", {}))

    def test_offers_without_an_answer(self) -> None:
        tab = self.say(self.opened(), "next")
        self.page.tabs[tab["tab"]].program.path = "/nonexistent/explore"
        _, told = self.post("offers", tab=tab["tab"], version=tab["version"])
        self.assertIsNone(told["said"])

    def test_drawing(self) -> None:
        tab = self.say(self.opened(), "next")
        _, told = self.post("draw", tab=tab["tab"], number=0, hidden=["f"])
        self.assertEqual(told["lines"], ["scenario 1", "A = {A$0}", "B = {A$0}", "f = {}"])
        self.assertEqual(told["names"], {"A$0": "B$0"})
        self.assertIn("digraph", told["dot"])

    def test_command_and_reload(self) -> None:
        tab = self.say(self.opened(), "command", "2")
        self.assertEqual((tab["command"], tab["usable"]), (2, True))
        tab = self.say(tab, "next")
        self.path.write_text("sig A {} run { some }\n")
        tab = self.say(tab, "reload")
        self.assertIn("fault model m 1:21 unexpected", tab["log"])
        self.assertEqual((tab["usable"], len(tab["scenarios"])), (True, 1))
        self.path.write_text(MODEL)
        self.assertIn("1 of 1 steps stay", self.say(tab, "reload")["log"])

    def test_reload_of_a_fault(self) -> None:
        """A file with a fault, with another one, and with none."""
        self.path.write_text("sig A {} run { some }\n")
        self.page.first.source = source.read(self.path)
        tab = self.opened()
        self.assertFalse(tab["usable"])
        self.path.write_text("sig A {} run { some B }\n")
        tab = self.say(tab, "reload")
        self.assertEqual((tab["usable"], tab["log"].count("fault model m 1:21 unknown")), (False, 1))
        self.path.write_text(MODEL)
        tab = self.say(tab, "reload")
        self.assertEqual((tab["usable"], tab["text"]), (True, MODEL))


if __name__ == "__main__":
    unittest.main()
