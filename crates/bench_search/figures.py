"""Runs the measures of `bench_search` beside MiniSat, on the same clauses, and prints a table.

    python3 figures.py PROGRAM [RUNS]

PROGRAM is the built `bench_search`, and `minisat` has to be on the PATH. Times are those that the processor worked for the
process, so that what else the machine does counts little; each is the least and, in brackets, the median of the runs. A run of
PROGRAM makes its clauses and solves them, one of MiniSat reads them and solves them. What MiniSat calls a propagation is a
literal that was decided or forced, so both are counted on this side too.
"""

import math
import os
import re
import statistics
import subprocess
import sys
import tempfile

CALLS = 20


def run(words):
    """The output of a program, and the seconds that the processor worked for it."""
    before = os.times()
    output = subprocess.run(words, capture_output=True, text=True, check=False).stdout
    after = os.times()
    spent = after.children_user - before.children_user + after.children_system - before.children_system
    return output, spent


def runs(words, count):
    """The output, and the least and the median of the times."""
    done = [run(words) for _ in range(count)]
    times = [max(spent, 0.001) for _, spent in done]
    return done[0][0].strip(), min(times), statistics.median(times)


def number(pattern, text):
    return int(re.search(pattern, text)[1])


def minisat(program, words, count, *options):
    """What MiniSat says of the clauses, its literals, and the least and the median of its times."""
    with tempfile.NamedTemporaryFile("w", suffix=".cnf") as file:
        file.write(run([program, "dimacs", *words])[0])
        file.flush()
        output, least, median = runs(["minisat", *options, file.name], count)
    literals = number(r"propagations\s*: (\d+)", output)
    return "refuted" if "UNSATISFIABLE" in output else "found", literals, least, median


def beside(program, words, count):
    """A line of the table, and what the sums are made of."""
    _, made, _ = runs([program, "make", *words], count)
    output, least, median = runs([program, "solve", *words], count)
    _, checked, _ = runs([program, "check", *words], count)
    effort, _ = run([program, "effort", *words])
    literals = number(r"(\d+) decided", effort) + number(r"(\d+) forced", effort)
    steps, hints = number(r"(\d+) steps", output), number(r"(\d+) hints", output)
    end = output.split(": ")[1].split(",")[0]
    other, its_literals, its_least, its_median = minisat(program, words, count)
    assert end == other, (words, end, other)
    print(
        f"| {' '.join(words)} | {end} | {steps:,} | {hints:,} | {made:.2f} | {least:.2f} ({median:.2f}) | {checked:.2f} |"
        f" {literals:,} | {its_least:.2f} ({its_median:.2f}) | {its_literals:,} | {least / its_least:.1f} |",
        flush=True,
    )
    return least, literals, its_least, its_literals


def total(name, lines):
    """The sums over several lines, and the geometric mean of the times' ratios."""
    time, literals, its_time, its_literals = (sum(column) for column in zip(*lines))
    mean = math.exp(statistics.mean(math.log(line[0] / line[2]) for line in lines))
    print(
        f"{name}: {literals / time / 1e6:.2f} million literals a second, MiniSat {its_literals / its_time / 1e6:.2f} million;"
        f" {time:.2f} s, MiniSat {its_time:.2f} s; the geometric mean of the ratios is {mean:.2f}",
        flush=True,
    )


def main():
    program, count = os.path.abspath(sys.argv[1]), int(sys.argv[2]) if len(sys.argv) > 2 else 3
    print("load", os.getloadavg())
    random = [beside(program, ["random", "200", str(seed)], count) for seed in range(1, 21)]
    total("random", random)
    pigeons = [beside(program, ["pigeons", "7", "0"], count)]
    total("pigeons", pigeons)
    chain = [beside(program, ["chain", "300000", "0"], count)]
    total("chain", chain)
    total("all", random + pigeons + chain)
    output, least, median = runs([program, "solve", "calls", "100000", "1000"], count)
    print(output, f"{least:.2f} ({median:.2f}) s")
    alone = [minisat(program, ["calls", "100000", str(call)], count, "-no-pre") for call in range(CALLS)]
    print(f"MiniSat on {CALLS} of the calls, each alone, with no preprocessing: {sum(line[2] for line in alone):.2f} s")
    print("load", os.getloadavg())


main()
