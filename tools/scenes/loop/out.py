"""Where everything is written that the shell says."""

from __future__ import annotations

from typing import TextIO

# What stands before a word that is typed. It too begins with the mark of what isn't the program's.
PROMPT = "~> "


class Out:
    """Where everything is written. Each line of the loop's own begins with `~`; the program's lines stand as they are."""

    def __init__(self, stream: TextIO) -> None:
        self.stream = stream

    def own(self, *lines: str) -> None:
        """Lines of the loop's own. A line break inside of one begins a further one."""
        for line in lines:
            for part in line.split("\n") or [""]:
                self.stream.write(f"~ {printable(part)}".rstrip() + "\n")
        self.stream.flush()

    def programs(self, *lines: str) -> None:
        """Lines that the program printed."""
        self.stream.writelines(f"{line}\n" for line in lines)
        self.stream.flush()


def printable(text: str) -> str:
    """A text without characters that a terminal obeys, each of them in the place of one."""
    return "".join(c if c == "\t" or c.isprintable() else "\N{REPLACEMENT CHARACTER}" for c in text)
