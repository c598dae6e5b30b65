#!/usr/bin/env python3
"""Times of `mm check` on generated inputs. Usage: bench/check.py MM [MM ..] [REPEATS]

MM is the proved program, crates/mm/out/mm after `rt run` in crates/mm. Several programs are run by turns. Each line
tells the least time of the runs, the time of the same rows without the work that is measured, the peak memory, which is
never less than this script's own, and how many times the text that is, where the text is long; for each program after the first also the ratio of
the medians to those of the first.
"""
import os
import random
import statistics
import subprocess
import sys
import tempfile
import time

random.seed(7)


def monomials(count, degree, variables):
    """So many different monomials of a degree, in monomial order."""
    found = set()
    while len(found) < count:
        found.add(tuple(sorted(random.randrange(variables) for _ in range(degree))))
    return sorted(found)


def factors(monomial):
    text = []
    for variable in sorted(set(monomial)):
        exponent = monomial.count(variable)
        text.append(f"x{variable}" + (f"^{exponent}" if exponent > 1 else ""))
    return "*".join(text)


def polynomial(count, degree=3, variables=40, most=9):
    """The text of a polynomial with so many terms, all of one degree."""
    text = ""
    for place, monomial in enumerate(monomials(count, degree, variables)):
        coefficient = random.choice([-1, 1]) * random.randint(2, most)
        if place == 0:
            text += "-" if coefficient < 0 else ""
        else:
            text += " - " if coefficient < 0 else " + "
        text += f"{abs(coefficient)}*{factors(monomial)}"
    return text


def run(mm, text):
    """The time, the peak memory in MiB and the answer of one run."""
    with tempfile.NamedTemporaryFile("w", suffix=".check", delete=False) as file:
        file.write(text)
    try:
        start = time.monotonic()
        with open(file.name) as source:
            child = subprocess.Popen([mm, "check"], stdin=source, stdout=subprocess.PIPE)
            answer = child.stdout.read().decode().strip()
            _, _, usage = os.wait4(child.pid, 0)
        return time.monotonic() - start, usage.ru_maxrss / 1024, answer
    finally:
        os.unlink(file.name)


def measure(programs, repeats, name, text, base, unit, count):
    runs, bases = ([], [])
    for _ in range(repeats):
        runs.append([run(mm, text) for mm in programs])
        bases.append([run(mm, base) for mm in programs])
    first = None
    for place, mm in enumerate(programs):
        times = [turn[place][0] for turn in runs]
        spent, before = min(times), min(turn[place][0] for turn in bases)
        median = statistics.median(times)
        first = first or median
        peak = min(turn[place][1] for turn in runs)
        share = f" ({peak * 2**20 / len(text):.1f} times the text)" if len(text) >> 20 else ""
        print(
            f"{name}, {os.path.basename(mm)}: {spent:.3f} s, without the work {before:.3f} s, "
            f"{(spent - before) / count * 1e9:.0f} ns {unit}, {peak:.0f} MiB{share}, "
            f"{median / first:.2f} of the first, {runs[0][place][2]}",
            flush=True,
        )


def of_size(line, size):
    """A text of a size whose certificate looks at none of its rows, and how many bytes the rows have."""
    count = (size << 20) // len(line)
    return line * count + "cert done\n", count * len(line)


def main():
    words = sys.argv[1:]
    repeats = int(words.pop()) if words[-1].isdigit() else 3
    programs = words

    # Products of n by n terms: a polynomial times an equality, 20 times over.
    for n, degree in ((100, 3), (250, 3), (100, 1)):
        variables = 200 if degree == 1 else 40
        row = f"row {polynomial(n, degree, variables)} = 0\n"
        step = f"rat mulp({polynomial(n, degree, variables)}, in 0); "
        text = row + "cert " + step * 20 + "done\n"
        # The same text is read, but the expression has a fault before anything is multiplied.
        base = row + "cert rat in 9; " + step * 20 + "done\n"
        measure(programs, repeats, f"20 products of {n} by {n} terms of degree {degree}", text, base, "a product of terms", 20 * n * n)

    # 200 products of 30 by 30 terms.
    row = f"row {polynomial(30)} = 0\n"
    step = f"rat mulp({polynomial(30)}, in 0); "
    text = row + "cert " + step * 200 + "done\n"
    base = row + "cert rat in 9; " + step * 200 + "done\n"
    measure(programs, repeats, "200 products of 30 by 30 terms", text, base, "a product of terms", 200 * 900)

    # 2,000 steps, each the sum of two of 100 rows of 20 terms.
    rows = "".join(f"row {polynomial(20)} >= 0\n" for _ in range(100))
    steps = "".join(f"rat add(in {random.randrange(100)}, in {random.randrange(100)}); " for _ in range(2000))
    base = rows + "cert rat in 2000; " + steps + "done\n"
    measure(programs, repeats, "2,000 sums over 100 rows of 20 terms", rows + "cert " + steps + "done\n", base, "a step", 2000)

    # Rows of 16 and 64 MiB, and a certificate that looks at none.
    line = "".join(f"row {polynomial(20)} >= 0\n" for _ in range(200))
    for name, rows, size in (
        ("of 20 terms of degree 3", line, 16),
        ("of 20 terms of degree 3", line, 64),
        ("of 20 terms of degree 1", "".join(f"row {polynomial(20, 1)} >= 0\n" for _ in range(200)), 16),
        ("`row x0 >= 0`", "row x0 >= 0\n", 16),
    ):
        text, count = of_size(rows, size)
        measure(programs, repeats, f"{size} MiB of rows {name}", text, "cert done\n", "a byte", count)


main()
