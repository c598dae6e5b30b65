#!/usr/bin/env python3
"""Times of `mm prove` on goal files. Usage: bench/prove.py MM GOALS[=SMT2] .. [--runs N]

MM is the proved program, crates/mm/out/mm after `rt run` in crates/mm. SMT2 holds the same goals for z3, which is run
by turns with mm where it is installed. Each line tells the answers, the median time a goal without that of an empty
input, and the peak memory, which is never less than this script's own.
"""
import os
import shutil
import statistics
import subprocess
import sys
import tempfile
import time

ANSWERS = ("proved", "refuted", "unsettled", "oversize", "ill-sorted", "unsat", "sat", "unknown")


def run(command, text):
    """The output, the seconds and the peak memory in MiB of one run."""
    with tempfile.TemporaryFile() as source, tempfile.TemporaryFile() as output:
        source.write(text)
        source.seek(0)
        begin = time.monotonic()
        process = subprocess.Popen(command, stdin=source, stdout=output, stderr=subprocess.DEVNULL)
        _, _, usage = os.wait4(process.pid, 0)
        seconds = time.monotonic() - begin
        output.seek(0)
        return output.read().decode(errors="replace"), seconds, usage.ru_maxrss / 1024


def answers(output):
    """How many lines begin with each word of an answer."""
    found = {}
    for line in output.splitlines():
        word = line.split(" ", 1)[0]
        if word in ANSWERS:
            found[word] = found.get(word, 0) + 1
    return found


def main():
    words = sys.argv[1:]
    runs = 5
    if "--runs" in words:
        place = words.index("--runs")
        runs = int(words[place + 1])
        del words[place:place + 2]
    if len(words) < 2:
        sys.exit(__doc__)
    mm, z3 = os.path.abspath(words[0]), shutil.which("z3")
    for pair in words[1:]:
        goals, _, script = pair.partition("=")
        programs = [("mm", [mm, "prove"], goals)]
        if z3 and script:
            programs.append(("z3", [z3, "-in"], script))
        texts = {name: open(path, "rb").read() for name, _, path in programs}
        times, starts, peaks, outputs = ({name: [] for name, _, _ in programs} for _ in range(4))
        for _ in range(runs):
            for name, command, _ in programs:
                starts[name].append(run(command, b"")[1])
                output, seconds, peak = run(command, texts[name])
                times[name].append(seconds)
                peaks[name].append(peak)
                outputs[name] = output
        each = {}
        for name, _, path in programs:
            found = answers(outputs[name])
            count = max(sum(found.values()), 1)
            each[name] = (statistics.median(times[name]) - statistics.median(starts[name])) * 1000 / count
            told = ", ".join(f"{number} {word}" for word, number in sorted(found.items()))
            print(f"{os.path.basename(path)}: {name} {each[name]:.4f} ms a goal, {max(peaks[name]):.1f} MiB; {told}")
        if len(each) == 2:
            print(f"  mm takes {each['mm'] / max(each['z3'], 1e-9):.2f} times as long as z3")


main()
