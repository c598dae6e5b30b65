#!/usr/bin/env python3
"""Times of clauses and of the names of their keys. Usage: bench/clauses.py CASES [REPEATS]

CASES is the proved program of cases, crates/mm_cases/out/mm_cases after `rt run` in crates/mm_cases. A question stands in
the input many times; the least time of several runs counts. The clauses of a goal are also written out, so their figure
is an upper bound; the same goal as a `translate` case, which makes no clauses, is taken off. A key's name is asked by
`key-name`; the same rows as a `row-order` case, which are read and no more, are taken off, so what is left is the making
of the key's bytes and their SHA-256.
"""
import subprocess
import sys
import time


def spent(cases, line, times):
    text = f"{line} => ?\n" * times
    start = time.monotonic()
    subprocess.run([cases], input=text, capture_output=True, text=True, check=True)
    return time.monotonic() - start


def least(cases, repeats, line, times):
    return min(spent(cases, line, times) for _ in range(repeats)) / times


def clauses(cases, repeats, name, goal, rows, times):
    base = least(cases, repeats, f"translate {goal}", times)
    whole = least(cases, repeats, f"clauses {goal}", times)
    print(f"{name}: {(whole - base) * 1e6:.0f} us for {rows} rows, {(whole - base) / rows * 1e6:.2f} us a row, written out")


def name_of(cases, repeats, rows, length, times):
    text = "; ".join(rows)
    base = least(cases, repeats, f"row-order {text}", times)
    whole = least(cases, repeats, f"key-name {text}", times)
    print(f"the name of a key of {length} bytes: {(whole - base) * 1e6:.2f} us, {(whole - base) / length * 1e9:.1f} ns a byte")


def main():
    cases = sys.argv[1]
    repeats = int(sys.argv[2]) if len(sys.argv) > 2 else 5
    for n in (9, 10, 11, 12):
        goal = "forall x : Z, " + " -> ".join(f"x <> {k}" for k in range(1, n + 1)) + " -> False"
        clauses(cases, repeats, f"{n} disequalities", goal, n * 2**n, 4)
    for n in (11, 12):
        goal = "forall x y : Z, " + " /\\ ".join(f"(x = {k} \\/ y = {k})" for k in range(1, n + 1)) + " -> False"
        clauses(cases, repeats, f"{n} disjunctions in a conjunction", goal, n * 2**n, 4)
    body = "x = 13"
    for k in range(12, 0, -1):
        body = f"(x = {k} \\/ {body})"
    clauses(cases, repeats, "13 nested disjunctions", f"forall x : Z, {body} -> False", 13, 2000)
    name_of(cases, repeats, ["-x0 + x1 >= 0", "x0 - x1 - 1 >= 0"], 134, 20000)
    # A row x0 - k >= 0 has 59 bytes - a coefficient, its factor, and the constant.
    many = [f"x0 - {k} >= 0" for k in range(100, 275)]
    name_of(cases, repeats, many, 4 + 175 * (1 + 4 + 16 + 4 + 5 + 16 + 4), 500)


main()
