"""The words of the command line, and the end of it."""

from __future__ import annotations

import argparse
import os
import signal
import sys
from pathlib import Path
from types import FrameType

from . import cures, program, source
from .session import Session
from .out import Out
from .reading import lines_of
from .shell import Shell
from .words import WORDS

ABOUT = 'scenes stands beside the proved core and proves nothing. What it says begins with "~"; all other lines are the program\'s.'


def words() -> argparse.ArgumentParser:
    """What the command line may have."""
    parser = argparse.ArgumentParser(prog="scenes", description="Asks `explore` for the scenarios of an Alloy model.", epilog=ABOUT)
    parser.add_argument("file", type=Path, help="a model (.als), or a script with models and sessions")
    parser.add_argument("start", nargs="?", help="the command to begin with, by number or name; of a script, the name of a session")
    mode = parser.add_mutually_exclusive_group()
    mode.add_argument("--look", action="store_true", help="tell the commands and all faults, and end: with status 4 where there is one")
    mode.add_argument("--page", action="store_true", help="serve one page with pictures on the loopback address")
    parser.add_argument("--port", type=int, default=0, help="with --page: the port (any free one if none is given)")
    return parser


def opened(path: Path, start: str | None) -> source.Source:
    """The file with the command or session that it begins with."""
    found = source.read(path)
    if start is None:
        return found
    if start in found.others:
        return source.read(path, start)
    number = source.command_of(found, start)
    if number is None:
        raise source.Unreadable(f"{path}: {start} is neither the number nor the name of a command" + (", nor a session" if found.others else ""))
    return found.on(number)


def main(given: list[str]) -> int:
    """Runs the shell or the page. The status is 0, 2 for wrong words or no program, 4 where `--look` finds a fault."""
    asked = words().parse_args(given)
    out = Out(sys.stdout)
    for number in (signal.SIGTERM, signal.SIGHUP):
        signal.signal(number, _leave)
    try:
        program.give_stack()
        runs = program.Program(program.find())
        session = Session(runs, opened(asked.file, asked.start))
        return _serve(session, asked.port) if asked.page else _talk(session, asked.look, out)
    except (program.Missing, source.Unreadable) as wrong:
        print(f"scenes: {wrong}", file=sys.stderr)
        return 2
    except KeyboardInterrupt:
        return 130
    except BrokenPipeError:
        # Whoever read the output has left: nothing more is to be written, not even at the end.
        os.dup2(os.open(os.devnull, os.O_WRONLY), sys.stdout.fileno())
        return 128 + signal.SIGPIPE


def _leave(number: int, frame: FrameType | None) -> None:
    """Ends the program as an exception does, so that no run of `explore` goes on behind it."""
    raise SystemExit(128 + number)


def _talk(session: Session, only_look: bool, out: Out) -> int:
    shell = Shell(session, cures.read(), out, WORDS)
    if only_look:
        shell.tell_commands()
        return 0 if shell.guarded(session.look) else 4
    out.own(ABOUT)
    shell.begin()
    shell.read(lines_of(sys.stdin, out))
    return 0


def _serve(session: Session, port: int) -> int:
    from .server import serve

    return serve(session, cures.read(), port)
