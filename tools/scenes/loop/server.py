"""The page: one address on the loopback interface, with a random token in it."""

from __future__ import annotations

import hmac
import json
import secrets
import sys
import threading
from http import HTTPStatus
from http.server import BaseHTTPRequestHandler, ThreadingHTTPServer
from pathlib import Path
from typing import Any

from .cures import Cures
from .drawing import Wanted
from .session import Session
from .tab import Tab, Wrong

HOST = "127.0.0.1"
MOST_TABS = 32
MOST_BYTES = 65536
PAGE = Path(__file__).resolve().parent / "page"
FILES = {"": ("page.html", "text/html"), "page.js": ("page.js", "text/javascript"), "page.css": ("page.css", "text/css")}
# Nothing is loaded but the three files of the page, nothing runs but its script, and no other page may hold it.
HEADERS = {
    "Content-Security-Policy": "default-src 'none'; script-src 'self'; style-src 'self'; img-src 'self' data:; connect-src 'self'; "
    "base-uri 'none'; form-action 'none'; frame-ancestors 'none'",
    "X-Content-Type-Options": "nosniff",
    "Referrer-Policy": "no-referrer",
    "Cross-Origin-Resource-Policy": "same-origin",
    "Cross-Origin-Opener-Policy": "same-origin",
    "Cache-Control": "no-store",
}


class Page(ThreadingHTTPServer):
    """The server with its tabs. Each tab has a session of its own, and the oldest one goes where there are too many."""

    daemon_threads = True
    # Two servers of one port would share its requests.
    allow_reuse_address = False

    def __init__(self, session: Session, cures: Cures, port: int = 0) -> None:
        super().__init__((HOST, port), Handler)
        self.token = secrets.token_urlsafe(24)
        self.first = session
        self.cures = cures
        self.tabs: dict[str, Tab] = {}
        self.lock = threading.Lock()

    @property
    def address(self) -> str:
        return f"http://{HOST}:{self.server_address[1]}/{self.token}/"

    @property
    def hosts(self) -> tuple[str, ...]:
        """The names under which the page may be asked for: else a foreign name that leads here could read it."""
        port = self.server_address[1]
        return f"{HOST}:{port}", f"localhost:{port}"

    def open_tab(self) -> tuple[str, Tab]:
        """A new tab, whose session begins with the file as it was read."""
        name = secrets.token_urlsafe(12)
        tab = Tab(self.first.program.path, self.first.source, self.cures)
        with self.lock:
            while len(self.tabs) >= MOST_TABS:
                oldest = self.tabs.pop(next(iter(self.tabs)))
                oldest.program.stop()
            self.tabs[name] = tab
        return name, tab

    def tab(self, name: Any) -> Tab:
        with self.lock:
            found = self.tabs.get(name) if isinstance(name, str) else None
        if found is None:
            raise Wrong("there is no such tab any more")
        return found

    def stop(self) -> None:
        """Stops what the tabs have under way."""
        with self.lock:
            for tab in self.tabs.values():
                tab.program.stop()


class Handler(BaseHTTPRequestHandler):
    """One request. What isn't the page's own is refused without a word on why."""

    server: Page
    protocol_version = "HTTP/1.1"
    server_version = "scenes"
    sys_version = ""
    timeout = 60

    def do_GET(self) -> None:
        rest = self._rest()
        if rest is None:
            return
        if rest not in FILES:
            self._refuse(HTTPStatus.NOT_FOUND)
            return
        name, kind = FILES[rest]
        self._send(HTTPStatus.OK, (PAGE / name).read_bytes(), f"{kind}; charset=utf-8")

    def do_POST(self) -> None:
        rest = self._rest()
        if rest is None:
            return
        try:
            answer = self._answer(rest, self._asked())
        except (Wrong, KeyError, TypeError, ValueError) as wrong:
            self._json(HTTPStatus.BAD_REQUEST, {"error": str(wrong)})
            return
        self._json(HTTPStatus.OK, answer)

    def _rest(self) -> str | None:
        """What stands behind the token in the path; nothing where the host or the token is another one."""
        host = self.headers.get("Host", "")
        origin = self.headers.get("Origin")
        token, slash, rest = self.path.removeprefix("/").partition("/")
        is_ours = host in self.server.hosts and (origin is None or origin == f"http://{host}")
        if not is_ours or not slash or not hmac.compare_digest(token.encode("latin-1", "replace"), self.server.token.encode()):
            self._refuse(HTTPStatus.FORBIDDEN)
            return None
        return rest

    def _asked(self) -> dict[str, Any]:
        """The body of a request: an object as JSON."""
        length = int(self.headers.get("Content-Length", "0"))
        if self.headers.get_content_type() != "application/json" or not 0 < length <= MOST_BYTES:
            self.close_connection = True
            raise Wrong("a request is an object as JSON")
        asked = json.loads(self.rfile.read(length))
        if not isinstance(asked, dict):
            raise Wrong("a request is an object as JSON")
        return asked

    def _answer(self, what: str, asked: dict[str, Any]) -> dict[str, Any]:
        if what == "open":
            name, tab = self.server.open_tab()
            with tab.lock:
                return {"tab": name, **tab.begin()}
        tab = self.server.tab(asked["tab"])
        if what == "stop":
            return {"stopped": tab.program.stop()}
        with tab.lock:
            if what == "state":
                return tab.state()
            if what == "do":
                return tab.do(asked["version"], str(asked["word"]), str(asked["argument"]))
            if what == "offers":
                return tab.ask_offers(asked["version"])
            if what == "draw":
                return tab.draw(int(asked["number"]), _wanted(asked))
        raise Wrong("there is nothing of this name")

    def _json(self, status: HTTPStatus, answer: dict[str, Any]) -> None:
        self._send(status, json.dumps(answer).encode(), "application/json")

    def _refuse(self, status: HTTPStatus) -> None:
        self.close_connection = True
        self._send(status, b"", "text/plain")

    def _send(self, status: HTTPStatus, body: bytes, kind: str) -> None:
        self.send_response(status)
        for name, value in {**HEADERS, "Content-Type": kind, "Content-Length": str(len(body))}.items():
            self.send_header(name, value)
        try:
            self.end_headers()
            self.wfile.write(body)
        except ConnectionError:
            # Who asked is gone: a tab that was closed.
            self.close_connection = True

    def log_message(self, format: str, *arguments: Any) -> None:
        """Nothing is written on requests."""


def _wanted(asked: dict[str, Any]) -> Wanted:
    """What a request wants drawn."""
    only = {str(name): str(atom) for name, atom in dict(asked.get("only") or {}).items()}
    before = asked.get("before")
    hidden = frozenset(map(str, asked.get("hidden") or ()))
    return Wanted(hidden, only, str(before) if before else None, without_lonely=bool(asked.get("withoutLonely")))


def serve(session: Session, cures: Cures, port: int) -> int:
    """Serves the page until Ctrl-C."""
    try:
        page = Page(session, cures, port)
    except (OSError, OverflowError) as wrong:
        print(f"scenes: the port {port} can't be had: {wrong}", file=sys.stderr)
        return 2
    with page:
        print(f"~ {page.address}", flush=True)
        print("~ the page is served to this machine alone, by this address; Ctrl-C ends it", flush=True)
        try:
            page.serve_forever()
        except KeyboardInterrupt:
            pass
        finally:
            page.stop()
    return 0
