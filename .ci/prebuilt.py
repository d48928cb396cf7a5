"""The program that the gate has built, beside the one in prebuilt/; and the script ./explore, which runs one of them."""

import gzip
import hashlib
import re
import subprocess
import sys
import zlib
from pathlib import Path

PROGRAM = Path("crates/explore/out/explore")
PREBUILT = Path("prebuilt")


def program():
    """The program that `rt ci` has built from the proved sources, for checks that run it."""
    return PROGRAM


def builds():
    """That program, as LLVM has built it, and as Rattle's own compiler has."""
    return PROGRAM, PROGRAM.with_name("explore.by-rattle")


def noted(folder):
    """What the note of a program's folder says: the text behind each word."""
    note = folder / "built_from"
    lines = note.read_text(encoding="utf-8").splitlines() if note.is_file() else []
    return {word: text for word, _, text in (line.partition(" ") for line in lines)}


def prebuilt(status):
    """The program in prebuilt/ is what its note says; where it is of these sources and this kit, it is the one built here."""
    if status != "0":
        return
    here, kept = noted(PROGRAM.parent), noted(PREBUILT)
    yield "the sources stayed as they were while the gate ran", bool(here)
    try:
        packed = gzip.decompress((PREBUILT / "explore.gz").read_bytes())
    except (OSError, EOFError, zlib.error):
        packed = b""
    yield "the program in prebuilt/ is the one that its note says", hashlib.blake2b(packed, digest_size=32).hexdigest() == kept.get("program")
    if not here:
        return
    is_same = packed == PROGRAM.read_bytes()
    other = [word for word in ("sources", "kit") if here[word] != kept.get(word)]
    if not other:
        yield "the program in prebuilt/ is the one built here, byte for byte", is_same
        return
    what = "of earlier sources" if "sources" in other else f"built with {kept.get('kit')}"
    print(f"gate: the program in prebuilt/ is {what}; the one built here {'is the same' if is_same else 'differs'}")


def script():
    """The script ./explore does what it says."""
    if not program().is_file():
        return
    ran = subprocess.run([sys.executable, ".ci/script_tests", program()], stdout=subprocess.PIPE, text=True, errors="replace")
    told = re.findall(r"^(ok|not so): (.*)$", ran.stdout, re.M)
    yield "the tests of ./explore came to their end", ran.returncode == 0 and bool(told)
    for how, what in told:
        yield f"./explore: {what}", how == "ok"
