#!/usr/bin/env python3
"""gate.py [--under PID] [--to FILE]: what each crate costs in a run of the gate, in processor minutes and in memory.

Without --under it runs `rt ci` itself, in this folder; with it, it watches a run that goes on, by the number of its process. Twice
a second it reads the kernel's account of each prover that stands below the run (/proc/PID/stat and /proc/PID/status: processor time with
that of its workers, and the greatest memory that one of them held), and books the last reading of each to its crate, and to proofs,
tests or edits by its command line. A prover that lives less than half a second is missed; none of them does.
At the end it prints the table of docs/GATE.md. A crate that an earlier run on this machine passed costs nothing again: a run
from nothing wants a machine on which nothing was kept, or `rt ci --anew`.
"""
import collections
import os
import subprocess
import sys
import time

TICKS = os.sysconf('SC_CLK_TCK')
PAGE = 1024 * 1024


def read(path):
    try:
        with open(path, 'rb') as f:
            return f.read()
    except OSError:
        return b''


def parents():
    """The parent and the processor time (own, and that of children that ended) of each process."""
    found = {}
    for name in os.listdir('/proc'):
        if name.isdigit():
            text = read(f'/proc/{name}/stat').rpartition(b')')[2].split()
            if text:
                found[int(name)] = int(text[1]), sum(map(int, text[11:15])) / TICKS
    return found


def children(found):
    """The processes below each process."""
    below = collections.defaultdict(list)
    for pid, (parent, _) in found.items():
        below[parent].append(pid)
    return below


def kind_of(words):
    """The crate and the phase that a prover works for, by its command line; None for another program."""
    if not words or not words[0].endswith('/rattle') or len(words) < 2 or words[1] not in ('build', 'check'):
        return None
    if '--crate-name' not in words:
        return None
    crate = words[words.index('--crate-name') + 1]
    phase = 'tests' if '--test' in words else 'edits' if '--incremental' in words else 'proofs'
    return crate, phase


def total(pid, found, below):
    """The processor time of a process, of its children that ended, and of those that live."""
    return found[pid][1] + sum(total(child, found, below) for child in below[pid])


def peak(pid, below):
    """The greatest memory that a process or one below it held."""
    lines = read(f'/proc/{pid}/status').splitlines()
    own = next((int(line.split()[1]) for line in lines if line.startswith(b'VmHWM')), 0)
    return max([own, *(peak(child, below) for child in below[pid])])


def sample(root, spent):
    found = parents()
    below = children(found)
    left = list(below[root])
    while left:
        pid = left.pop()
        words = [w.decode('utf8', 'replace') for w in read(f'/proc/{pid}/cmdline').split(b'\0')]
        kind = kind_of(words)
        if kind is None:
            left.extend(below[pid])
            continue
        # (the workers of a prover have its command line, and are booked with it)
        start = read(f'/proc/{pid}/stat').rpartition(b')')[2].split()[19:20]
        key = pid, tuple(start)
        _, seconds, held = spent.get(key, (kind, 0, 0))
        spent[key] = kind, max(seconds, total(pid, found, below)), max(held, peak(pid, below))


def table(spent, to):
    phases = 'proofs', 'tests', 'edits'
    minutes, peaks = collections.Counter(), collections.Counter()
    for (crate, phase), seconds, held in spent.values():
        minutes[crate, phase] += seconds / 60
        peaks[crate, phase] = max(peaks[crate, phase], held / PAGE)
    print('| crate | proofs | tests | edits | all | peak of a prover (GiB) |\n|---|---|---|---|---|---|', file=to)
    crates = sorted({crate for crate, _ in minutes})
    for crate in crates:
        row = [minutes[crate, phase] for phase in phases]
        most = max(peaks[crate, phase] for phase in phases)
        print('| `%s` | %s | %.1f | %.1f |' % (crate, ' | '.join('%.1f' % m for m in row), sum(row), most), file=to)
    whole = [sum(minutes[crate, phase] for crate in crates) for phase in phases]
    print('| all | %s | %.1f | |' % (' | '.join('%.1f' % m for m in whole), sum(whole)), file=to)


def main(words):
    spent, run = {}, None
    if '--under' in words:
        root = int(words[words.index('--under') + 1])
    else:
        run = subprocess.Popen(['rt', 'ci'])
        root = run.pid
    began = time.time()
    while (run.poll() is None) if run else os.path.isdir(f'/proc/{root}'):
        sample(root, spent)
        time.sleep(0.5)
    to = open(words[words.index('--to') + 1], 'w') if '--to' in words else sys.stdout
    table(spent, to)
    print('\n%.0f minutes by the clock.' % ((time.time() - began) / 60), file=to)
    return run.returncode if run else 0


if __name__ == '__main__':
    sys.exit(main(sys.argv[1:]))
