#!/usr/bin/env python3
"""search.py MM [TURNS ..]: how many goals of four kinds `mm prove` settles within so many turns, and how long a goal takes.

MM is the proved binary of mm. Elimination says nothing of these goals: narrow strips between two pairs of parallel lines,
sums of multiples of numbers from 0 on, the same with two sums, and sums over words of 32 bits. The goals are the same in
each run. With `--goals` alone the goal file is written out.
"""
import random
import subprocess
import sys
import time


def strip(r):
    a, b, c, d = (r.randint(3, 40) for _ in range(4))
    low, high = r.randint(-200, 200), r.randint(-200, 200)
    return ('x y', f'{low} <= {a}*x + {b}*y <= {low + r.randint(0, a)} -> '
            f'{high} <= {c}*x - {d}*y <= {high + r.randint(0, c)} -> False')


def purse(r):
    coins = [r.randint(7, 60) for _ in range(3)]
    names = ['x', 'y', 'z']
    total = ' + '.join(f'{c}*{n}' for c, n in zip(coins, names))
    return ('x y z', f'{total} = {r.randint(60, 400)} -> ' + ' -> '.join(f'{n} >= 0' for n in names) + ' -> False')


def two(r):
    names = ['x', 'y', 'z', 't']
    sums = []
    for _ in range(2):
        total = ' + '.join(f'{r.randint(2, 12)}*{n}' for n in names)
        sums.append(f'{total} = {r.randint(30, 90)}')
    return ('x y z t', ' -> '.join(sums + [f'{n} >= 0' for n in names]) + ' -> False')


def words(r):
    a, b = r.randint(3, 9), r.randint(3, 9)
    most = (a + b) * (2 ** 32 - 1)
    low = most - r.randint(0, 40)
    return ('x y', f'0 <= x < 4294967296 -> 0 <= y < 4294967296 -> {low} <= {a}*x + {b}*y <= {low + r.randint(0, 3)} -> False')


KINDS = [('strips', strip), ('sums', purse), ('two sums', two), ('words', words)]
EACH = 25


def goal_file(kind):
    r = random.Random(7)
    lines = ['Session s.']
    for _ in range(EACH):
        names, body = kind(r)
        lines.append(f'Goal forall {names} : Z, {body}. lia.')
    return '\n'.join(lines) + '\n'


def answers(out):
    first = [line.split()[0] for line in out.splitlines() if line.split()]
    return {word: first.count(word) for word in ('proved', 'refuted', 'unsettled')}


def main():
    if sys.argv[1:] == ['--goals']:
        for _, kind in KINDS:
            sys.stdout.write(goal_file(kind))
        return
    mm = sys.argv[1]
    for turns in sys.argv[2:] or ['50', '200', '20000']:
        for name, kind in KINDS:
            text = goal_file(kind)
            start = time.monotonic()
            subprocess.run([mm, 'prove', '--turns', turns], input='', capture_output=True, text=True)
            middle = time.monotonic()
            out = subprocess.run([mm, 'prove', '--turns', turns], input=text, capture_output=True, text=True).stdout
            spent = time.monotonic() - middle - (middle - start)
            print(f'{turns} turns, {name}: {answers(out)}, {1000 * spent / EACH:.3f} ms a goal')


main()
