#!/usr/bin/env python3
"""Pivots a second of the simplex, and the greatest number that it meets. Usage: bench/simplex.py CASES [REPEATS]

CASES is the proved program of cases, crates/mm_cases/out/mm_cases after `rt run` in crates/mm_cases: its `simplex`
cases ask `solve`. The rows are random and sparse, two or three unknowns in each. The same question stands in the input
many times, once with the turns that it needs and once with none; the difference is the time of the pivots. How many
pivots there are is found by halving, and the walk that the program tells is followed here over fractions for the
greatest number of a basic form in whole numbers without common divisor.
"""
import random
import subprocess
import sys
import time
from fractions import Fraction
from math import gcd


def system(rows, unknowns, most, seed):
    """Rows of two or three unknowns with small coefficients; a fifth of them are equalities."""
    draw = random.Random(seed)
    lines = []
    for _ in range(rows):
        coefficients = [0] * unknowns
        for unknown in draw.sample(range(unknowns), draw.choice((2, 3))):
            coefficients[unknown] = draw.choice((-1, 1)) * draw.randint(1, most)
        lines.append((draw.random() < 0.2, coefficients, draw.randint(-30, 30)))
    return lines


def text_of(lines, turns):
    parts = [str(turns)]
    for equal, coefficients, constant in lines:
        parts.append(f"{'=' if equal else '>='} {' '.join(map(str, coefficients))} : {constant}")
    return "simplex " + "; ".join(parts)


def ask(cases, question, times=1):
    """What the program answers, and how long the same question so many times took."""
    text = (question + " => ?\n") * times
    start = time.monotonic()
    told = subprocess.run([cases], input=text, capture_output=True, text=True, check=True).stdout
    spent = time.monotonic() - start
    return told.split("\n")[1].split(), spent


def greatest_number(lines, walk):
    """The greatest number of the forms that a walk meets."""
    unknowns = len(lines[0][1])
    table = {}
    for place, (_, coefficients, constant) in enumerate(lines):
        form = {j: Fraction(c) for j, c in enumerate(coefficients) if c}
        table[unknowns + place] = (form, Fraction(constant))

    def whole(form, constant):
        numbers = [Fraction(1), constant, *form.values()]
        scale = 1
        for number in numbers:
            scale = scale * number.denominator // gcd(scale, number.denominator)
        numbers = [abs(int(number * scale)) for number in numbers]
        return max(numbers) // gcd(*numbers)

    most = max(whole(*line) for line in table.values())
    for leaves, enters in walk:
        form, constant = table.pop(leaves)
        by = form.pop(enters)
        entering = {j: -c / by for j, c in form.items()}
        entering[leaves] = 1 / by
        offset = -constant / by
        for basic, (other, value) in list(table.items()):
            if enters in other:
                factor = other.pop(enters)
                for j, c in entering.items():
                    other[j] = other.get(j, Fraction(0)) + factor * c
                    if other[j] == 0:
                        del other[j]
                table[basic] = (other, value + factor * offset)
        table[enters] = (entering, offset)
        most = max(most, *(whole(*line) for line in table.values()))
    return most


def measure(cases, repeats, name, lines):
    whole = 100_000
    answer, _ = ask(cases, text_of(lines, whole))
    low, high = 0, whole
    while low < high:
        middle = (low + high) // 2
        if ask(cases, text_of(lines, middle))[0][0] == "turns":
            low = middle + 1
        else:
            high = middle
    pivots = low
    if pivots == 0:
        print(f"{name}: no pivots")
        return
    # One turn fewer tells all pivots but the last.
    told, _ = ask(cases, text_of(lines, pivots - 1))
    walk = [tuple(map(int, pivot.split(">"))) for pivot in told[1:]]
    times = max(1, 20_000 // pivots)
    spent = min(ask(cases, text_of(lines, pivots), times)[1] for _ in range(repeats))
    before = min(ask(cases, text_of(lines, 0), times)[1] for _ in range(repeats))
    rate = pivots * times / (spent - before)
    print(f"{name}: {pivots} pivots, {answer[0]}, {rate:,.0f} pivots a second, greatest number {greatest_number(lines, walk):,}")


def main():
    cases = sys.argv[1]
    repeats = int(sys.argv[2]) if len(sys.argv) > 2 else 3
    for seed in range(5):
        measure(cases, repeats, f"50 rows in 20 unknowns, {seed}", system(50, 20, 5, seed))


if __name__ == "__main__":
    main()
