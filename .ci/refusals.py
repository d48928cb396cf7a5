"""Runs of a program in which one request for memory is refused: how they end, and how they may end."""

import os
import shutil
import subprocess
import tempfile
from collections import Counter
from concurrent.futures import ThreadPoolExecutor
from pathlib import Path

HERE = Path(__file__).resolve().parent


def library(room):
    """The library that refuses, put together by a compiler of C."""
    made = Path(room) / "refuse.so"
    compiler = shutil.which("cc") or shutil.which("gcc") or shutil.which("clang")
    if compiler is None:
        raise FileNotFoundError("a compiler of C")
    subprocess.run([compiler, "-O1", "-fno-builtin", "-shared", "-fPIC", HERE / "refuse.c", "-o", made, "-ldl"], check=True)
    return made


def ran(program, script, word="run", **more):
    """The status and the output of a run by one worker: with several, requests would come in another order each time."""
    done = subprocess.run([program, word, "--workers", "1"], input=script, capture_output=True, env={**os.environ, **more})
    return done.returncode, done.stdout


def commands(lines):
    """The numbers of the lines that are commands of sessions."""
    in_session = False
    for number, line in enumerate(lines):
        if line.startswith(b"=="):
            in_session = line.split()[1] == b"session"
        elif in_session and line.strip() and not line.startswith(b"#"):
            yield number


def answers(program, script, word):
    """The whole output, and under `run` each output in which one command is answered by `memory`."""
    lines = script.splitlines(keepends=True)
    yield ran(program, script, word)[1]
    for number in commands(lines) if word == "run" else ():
        before = ran(program, b"".join(lines[:number]))[1]
        without = ran(program, b"".join(lines[:number] + lines[number + 1 :]))[1]
        if without.startswith(before):
            yield before + b"memory\n" + without[len(before) :]


def refusals(program, script, first=1, last=None, word="run"):
    """How runs ended in which one request was refused, and what was otherwise."""
    with tempfile.TemporaryDirectory(prefix="memory-") as room:
        front = {"LD_PRELOAD": str(library(room))}
        counted = Path(room) / "counted"
        whole, *cut = answers(program, script, word)
        ran(program, script, word, **front, COUNTED=str(counted))
        requests = int(counted.read_text())

        def ended(number):
            status, output = ran(program, script, word, **front, REFUSED=str(number))
            if (status, output) == (7, b""):
                return number, "status 7 and nothing written"
            if status == 0 and output in cut:
                return number, "one command answered by `memory`"
            return number, "no effect" if (status, output) == (0, whole) else None

        with ThreadPoolExecutor(os.cpu_count()) as side_by_side:
            ends = list(side_by_side.map(ended, range(first, min(last or requests, requests) + 1)))
    return requests, Counter(how for _, how in ends if how), [number for number, how in ends if how is None]
