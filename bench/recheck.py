#!/usr/bin/env python3
"""recheck.py MM [GOALS ..]: `mm recheck` on reports of `mm prove`, beside `prove` itself.

MM is the proved binary of mm. First come reports of 8, 24 and 56 goals with 4,096 clauses each, to show the rate and that
memory doesn't grow with the report; then the reports of the goal files, with the time of `recheck` over that of `prove`.
Times are medians of five runs by turns, less that of an empty input; peaks are never less than this script's own.
"""
import os
import statistics
import subprocess
import sys
import tempfile
import time


def run(command, source, output=os.devnull):
    """The first line, the seconds and the peak memory in MiB of one run from a file, whose output goes to another."""
    with open(source, 'rb') as given, open(output, 'wb') as taken:
        begin = time.monotonic()
        process = subprocess.Popen(command, stdin=given, stdout=taken, stderr=subprocess.DEVNULL)
        _, _, usage = os.wait4(process.pid, 0)
        seconds = time.monotonic() - begin
    first = '' if output == os.devnull else open(output).readline().strip()
    return first, seconds, usage.ru_maxrss / 1024


def gaps(goals):
    """Goals of 4,096 clauses each: a number from 1 to 12 is none of these."""
    body = ' -> '.join(['1 <= x', 'x <= 12'] + [f'x <> {n}' for n in range(1, 13)] + ['False'])
    return ('Session s.\n' + f'Goal forall x : Z, {body}. lia.\n' * goals).encode()


def main():
    mm = os.path.abspath(sys.argv[1])
    with tempfile.TemporaryDirectory() as folder:
        source, report, verdict, nothing = (os.path.join(folder, name) for name in ('goals', 'report', 'verdict', 'nothing'))
        open(nothing, 'wb').close()
        for goals in (8, 24, 56):
            with open(source, 'wb') as it:
                it.write(gaps(goals))
            run([mm, 'prove'], source, report)
            answer, seconds, peak = run([mm, 'recheck'], report, verdict)
            size = os.path.getsize(report) / 2 ** 20
            print(f'{goals} goals, {size:.1f} MiB: {answer}, {size / seconds:.1f} MiB a second, peak {peak:.0f} MiB')
        for path in sys.argv[2:]:
            run([mm, 'prove'], path, report)
            times = {'prove': [], 'recheck': []}
            for _ in range(5):
                for word, text in (('prove', path), ('recheck', report)):
                    times[word].append(run([mm, word], text)[1] - run([mm, word], nothing)[1])
            prove, recheck = (statistics.median(times[word]) for word in ('prove', 'recheck'))
            answer = run([mm, 'recheck'], report, verdict)[0]
            print(f'{os.path.basename(path)}: {answer}, prove {1000 * prove:.1f} ms, recheck {1000 * recheck:.1f} ms, ratio {recheck / prove:.2f}')


main()
