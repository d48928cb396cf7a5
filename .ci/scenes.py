"""The shell beside the program, `tools/scenes`, does what its tests say, with the program that the gate has built."""

import os
import re
import subprocess

from prebuilt import program


def scenes():
    """The tests of `tools/scenes` pass. Those of its page need a browser, and `.ci/page` runs them."""
    if not program().is_file():
        return
    ran = subprocess.run(
        ["tools/scenes/test"],
        env={**os.environ, "EXPLORE": str(program().resolve()), "PYTHONDONTWRITEBYTECODE": "1"},
        stdin=subprocess.DEVNULL,
        stdout=subprocess.PIPE,
        stderr=subprocess.STDOUT,
        text=True,
        errors="replace",
    )
    counted = re.search(r"^Ran (\d+) tests? in ", ran.stdout, re.M)
    passed = ran.returncode == 0 and counted is not None and int(counted[1]) > 0
    if not passed:
        print(ran.stdout[-4000:])
    yield "the tests of tools/scenes pass", passed
