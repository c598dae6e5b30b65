#!/usr/bin/env python3
"""Times of translations beside reading and sorting. Usage: bench/translate.py CASES [REPEATS]

CASES is the proved program of cases, crates/mm_cases/out/mm_cases after `rt run` in crates/mm_cases. Each goal stands in the
input many times: as a `truth` case of no values, which is read and sorted and no more, since the values don't fit, and as
a `translate` case, which is also translated and spelled. The difference bounds the time of the translation.
"""
import subprocess
import sys
import time


def spent(cases, line, times):
    text = f"{line} => ?\n" * times
    start = time.monotonic()
    subprocess.run([cases], input=text, capture_output=True, text=True, check=True)
    return time.monotonic() - start


def measure(cases, repeats, name, goal, times=200):
    both = [(spent(cases, f"truth ; {goal}", times), spent(cases, f"translate {goal}", times)) for _ in range(repeats)]
    sort, translate = (min(turn[place] for turn in both) / times * 1e6 for place in (0, 1))
    print(f"{name}: read and sorted in {sort:.0f} us, translated and spelled in {translate - sort:.0f} us, {(translate - sort) / sort:.2f} times that")


def main():
    cases = sys.argv[1]
    repeats = int(sys.argv[2]) if len(sys.argv) > 2 else 5
    # Four comparisons of sums of 100 operations and 20 numbers; one sum may have 256 terms.
    for name, operation in (
        ("400 different operations", lambda k: f"x / {k + 2}"),
        ("400 equal operations", lambda k: "x / 2"),
        ("no operation", lambda k: "x * 2"),
    ):
        sums = [" + ".join([operation(100 * part + k) for k in range(100)] + ["1"] * 20) for part in range(4)]
        body = " /\\ ".join(f"{total} = 0" for total in sums)
        measure(cases, repeats, f"{name} in {len(body.split())} tokens", f"forall x : Z, {body}")


main()
