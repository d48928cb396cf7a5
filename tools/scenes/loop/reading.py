"""Where the shell's lines come from: a terminal, or a file or a pipe."""

from __future__ import annotations

import sys
from collections.abc import Iterator
from typing import TextIO

from .out import PROMPT, Out, printable
from .words import WORDS


def typed() -> Iterator[str]:
    """Lines of a terminal, with a prompt; Ctrl-C gives up a line, and the end of the input ends them."""
    import readline

    readline.set_completer(lambda text, state: ([word + " " for word in WORDS if word.startswith(text)] + [None])[state])
    readline.parse_and_bind("tab: complete")
    while True:
        try:
            yield input(PROMPT)
        except KeyboardInterrupt:
            print()
        except EOFError:
            print()
            return


def piped(stream: TextIO, out: Out) -> Iterator[str]:
    """Lines of a file or a pipe, each told before it is done."""
    for line in stream:
        out.stream.write(f"{PROMPT}{printable(line.rstrip())}\n")
        out.stream.flush()
        yield line


def lines_of(stream: TextIO, out: Out) -> Iterator[str]:
    """The lines that are read."""
    return typed() if stream.isatty() and sys.stdout.isatty() else piped(stream, out)
