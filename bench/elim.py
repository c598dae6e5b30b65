#!/usr/bin/env python3
"""Times of elimination. Usage: bench/elim.py CASES [REPEATS]

CASES is the proved program of cases, crates/mm_cases/out/mm_cases after `rt run` in crates/mm_cases. It is asked lines
`eliminate ROWS => END`, and the same rows after a row that is false, which ends the elimination at once; the difference is
the time of the elimination, its certificate and the check of it. Each line tells the least time of a clause, and for each row
that is made where their number is known.
"""
import random
import subprocess
import sys
import time

random.seed(7)


def run(cases, text):
    begin = time.monotonic()
    answer = subprocess.run([cases], input=text.encode(), stdout=subprocess.PIPE).stdout.decode()
    return time.monotonic() - begin, answer


def linear(terms, constant, op=">="):
    """The text of a row; terms is a list of a coefficient and the number of its variable, rising."""
    text = ""
    for place, (coefficient, variable) in enumerate(terms):
        sign = ("-" if coefficient < 0 else "") if place == 0 else (" - " if coefficient < 0 else " + ")
        magnitude = "" if abs(coefficient) == 1 else f"{abs(coefficient)}*"
        text += f"{sign}{magnitude}x{variable}"
    if constant:
        text += (" - " if constant < 0 else " + ") + str(abs(constant))
    return f"{text} {op} 0"


def pairs(lower, upper, terms):
    """So many lower and upper rows of x0, each with so many other variables of its own coefficients."""
    rows = []
    for place in range(lower + upper):
        others = [(random.choice([-1, 1]) * random.randint(2, 9), variable) for variable in range(1, terms)]
        rows.append(linear([(1 if place < lower else -1, 0)] + others, random.randint(-9, 9)))
    return rows


def some(count, unknowns, terms):
    """Rows with some of the unknowns, of which no point is known."""
    rows = []
    for _ in range(count):
        chosen = sorted(random.sample(range(unknowns), terms))
        rows.append(linear([(random.choice([-3, -2, -1, 1, 2, 3]), v) for v in chosen], random.randint(-20, 5)))
    return rows


def differences(count, unknowns):
    """Rows that bound the differences of unknowns."""
    rows = []
    for _ in range(count):
        a, b = sorted(random.sample(range(unknowns), 2))
        sign = random.choice([-1, 1])
        rows.append(linear([(sign, a), (-sign, b)], random.randint(-9, 12)))
    return rows


def chain(length):
    """x0 >= 0, each x at least the one before it and 1, and the last one at most 0."""
    rows = [linear([(1, 0)], 0)]
    rows += [linear([(-1, v), (1, v + 1)], -1) for v in range(length)]
    return rows + [linear([(-1, length)], 0)]


def times(cases, clauses, repeats):
    """The least seconds a clause of the elimination alone, and the ends."""
    asked = "".join(f"eliminate {'; '.join(rows)} => ?\n" for rows in clauses)
    ended = "".join(f"eliminate -1 >= 0; {'; '.join(rows)} => ?\n" for rows in clauses)
    whole, base, answer = [], [], ""
    for _ in range(repeats):
        seconds, answer = run(cases, asked)
        whole.append(seconds)
        base.append(run(cases, ended)[0])
    ends = sorted({line.split()[0] for line in answer.splitlines() if line.startswith("  ")})
    return (min(whole) - min(base)) / len(clauses), ends


def main():
    if len(sys.argv) < 2:
        sys.exit(__doc__)
    cases = sys.argv[1]
    repeats = int(sys.argv[2]) if len(sys.argv) > 2 else 5
    for name, clauses, made in (
        ("256 by 256 pairs of 7 terms", [pairs(256, 256, 7) for _ in range(3)], 65536),
        ("20 differences of 6 unknowns", [differences(20, 6) for _ in range(2000)], None),
        ("40 differences of 6 unknowns", [differences(40, 6) for _ in range(1000)], None),
        ("20 differences of 12 unknowns", [differences(20, 12) for _ in range(2000)], None),
        ("20 rows in 6 unknowns", [some(20, 6, 3) for _ in range(500)], None),
        ("40 rows in 6 unknowns", [some(40, 6, 3) for _ in range(200)], None),
        ("20 rows in 12 unknowns", [some(20, 12, 3) for _ in range(500)], None),
        ("a chain of 10", [chain(10) for _ in range(1000)], 11),
        ("a chain of 100", [chain(100) for _ in range(100)], 101),
        ("a chain of 400", [chain(400) for _ in range(20)], 401),
    ):
        seconds, ends = times(cases, clauses, repeats)
        each = f", {seconds * 1e6 / made:.2f} us a row made" if made else ""
        print(f"{name}: {seconds * 1e6:.1f} us{each}; {' '.join(ends)}")


main()
