"""The program `explore`: where it is, and one run of it."""

from __future__ import annotations

import os
import resource
import shutil
import signal
import subprocess
import sys
import threading
from dataclasses import dataclass
from pathlib import Path

# What a model that is nested deep can want of the stack; the script `explore` raises it likewise.
STACK = 262144 * 1024


class Missing(Exception):
    """There is no program to run."""


class Stopped(Exception):
    """A run was stopped before it answered."""


@dataclass(frozen=True)
class Answer:
    """What one run wrote: its status, the lines of its standard output, and those of its standard error."""

    status: int
    lines: tuple[str, ...]
    errors: tuple[str, ...]


def find() -> str:
    """The program by the name in EXPLORE, else that of the repository or of the installation, else the one on the PATH."""
    named = os.environ.get("EXPLORE")
    if named:
        found = shutil.which(named)
        if found is None:
            raise Missing(f"EXPLORE names {named}, and no such program can be run")
        return os.path.abspath(found)
    above = Path(__file__).resolve().parents
    for here in (above[3] / "explore", above[2] / "explore"):
        if here.is_file() and os.access(here, os.X_OK):
            return str(here)
    found = shutil.which("explore")
    if found is None:
        raise Missing("no program explore: neither in EXPLORE, nor in the repository, nor on the PATH")
    return os.path.abspath(found)


def give_stack() -> None:
    """Lets the program's runs have as much stack as the script `explore` gives it."""
    soft, hard = resource.getrlimit(resource.RLIMIT_STACK)
    wanted = STACK if hard == resource.RLIM_INFINITY else min(STACK, hard)
    if soft != resource.RLIM_INFINITY and soft < wanted:
        resource.setrlimit(resource.RLIMIT_STACK, (wanted, hard))
    threading.stack_size(16 * 1024 * 1024)


class Program:
    """Runs the program, one run at a time for each call; a run can be stopped from another thread."""

    def __init__(self, path: str) -> None:
        self.path = path
        self._lock = threading.Lock()
        self._children: set[subprocess.Popen[bytes]] = set()
        self._stopped: set[int] = set()
        self._told: set[str] = set()

    def run(self, script: str) -> Answer:
        """Answers a script."""
        return self._call("run", script)

    def check(self, proof: str) -> Answer:
        """Checks a proof text."""
        return self._call("check", proof)

    def stop(self) -> int:
        """Stops all runs that are under way, and tells how many they were."""
        with self._lock:
            for child in self._children:
                self._stopped.add(child.pid)
                _end(child)
            return len(self._children)

    def _call(self, word: str, text: str) -> Answer:
        """Runs the program with one word. What it writes is read while it is fed, so neither side waits for the other."""
        try:
            child = subprocess.Popen(
                [self.path, word], stdin=subprocess.PIPE, stdout=subprocess.PIPE, stderr=subprocess.PIPE, start_new_session=True
            )
        except OSError as wrong:
            raise Missing(f"{self.path}: {wrong.strerror or wrong}") from None
        with self._lock:
            self._children.add(child)
        try:
            out, err = child.communicate(text.encode("utf-8"))
        except BaseException as broken:
            # Whatever ends this call ends the run: a child has a process group of its own, and would go on.
            _end(child)
            child.communicate()
            if isinstance(broken, KeyboardInterrupt):
                raise Stopped from None
            raise
        finally:
            with self._lock:
                self._children.discard(child)
                was_stopped = child.pid in self._stopped
                self._stopped.discard(child.pid)
        if was_stopped:
            raise Stopped
        answer = Answer(child.returncode, _lines(out), _lines(err))
        if answer.lines:
            self._tell(answer.errors)
        return answer

    def _tell(self, lines: tuple[str, ...]) -> None:
        """Hands on what the program wrote on standard error beside its answer, each line once."""
        for line in lines:
            if line not in self._told:
                self._told.add(line)
                print(line, file=sys.stderr, flush=True)


def _end(child: "subprocess.Popen[bytes]") -> None:
    """Ends a child with all that it started: it has a process group of its own."""
    if child.poll() is None:
        try:
            os.killpg(child.pid, signal.SIGKILL)
        except ProcessLookupError:
            pass


def _lines(written: bytes) -> tuple[str, ...]:
    text = written.decode("utf-8", errors="replace")
    return tuple(text.split("\n")[:-1] if text.endswith("\n") else text.split("\n") if text else [])
