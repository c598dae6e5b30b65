#!/usr/bin/env python3
"""Times of reading, sorting and printing goals. Usage: bench/goals.py [MIB]

The server doesn't read goals yet, so a small program round `read_file`, `sorts` and `print_goal` is made, proved and
built in a copy of the crates that it stands on, outside the repository. Each line tells the time of one run that
reads, of one that sorts and prints too, and of one that only reads the bytes, each with its peak memory, which is
never less than this script's own.
"""
import os
import shutil
import subprocess
import sys
import tempfile
import time

MAIN = """//! Reads its input, as goals where it is told so, and sorts and prints these where it is told so too.
#![tactic(auto)]

ghost use Rattle.std.specs.List.{AllByRecursion};
ghost use Rattle.goal_sort.specs.Sorting.{IsReadable};
ghost use Rattle.goal_text.specs.GoalsRead.{IsGoalOfFile};

use goal_print::print_goal;
use goal_text::{RawGoal, RawSession, read_file, sorts};
use std::alloc::{AllocError, Global};
use std::io::Read;
use std::process::ExitCode;
use std::{env, io};

fn printed(alloc: Global, raw: &RawGoal) -> Result<usize, AllocError>
    requires { IsReadable raw.now }
{
    match sorts(alloc, raw) {
        Ok(goal) => Ok(print_goal(alloc, &goal)?.len()),
        Err(_) => Ok(0),
    }
}

fn print_all(alloc: Global, goals: &[RawGoal]) -> Result<(), AllocError>
    requires { AllByRecursion IsGoalOfFile goals.now }
{
    for goal in goals {
        let _ = printed(alloc, goal)?;
    }
    Ok(())
}

fn main(rt: HostRuntime) -> io::Result<ExitCode> {
    let alloc = rt.alloc();
    let words = env::args(&rt)?.count();
    let mut bytes = Vec::new(alloc);
    rt.stdin().read_to_end(&mut bytes)?;
    if words == 1 {
        return Ok(ExitCode::from(0));
    }
    if let Ok(sessions) = read_file(alloc, &bytes) {
        if words == 2 {
            return Ok(ExitCode::from(0));
        }
        for session in sessions.as_slice() {
            print_all(alloc, session.goals.as_slice())?;
        }
        return Ok(ExitCode::from(0));
    }
    Ok(ExitCode::from(1))
}
"""

CRATES = ["mm_num", "goal_ast", "goal_token", "goal_sort", "goal_text", "goal_print"]

GOALS = [
    "Goal forall lo hi : Z, 0 <= lo <= hi -> lo <= (lo + hi) / 2 <= hi. lia.\n",
    "Goal forall (n : nat) (x : Z), x = Z.of_nat n -> Z.to_nat (x + 1) = S n. lia.\n",
    "Goal forall b c : bool, b && c = true -> c = true. Proof. lia. Qed.\n",
    "Goal forall x y : Z, 7*x + 11*y <> 100000 /\\ ~ (x = y) \\/ x mod 4 - y < 3. nia.\n",
]


def text(size):
    """Sessions of as many goals as a file may have, long bodies until the size is met."""
    body = " -> ".join("x + %d * y <= z ^ 2 - (n mod 7)" % (k % 10) for k in range(115))
    pieces = ["Session s. "]
    total = 0
    count = 0
    while total < size and count < 1024:
        pad = "(* " + "-" * 1000 + " *) " if count % 4 == 0 else ""
        goal = f"Goal forall x y z n : Z, {pad}{body} -> True. lia.\n" if count % 2 else GOALS[count % 4]
        pieces.append(goal)
        total += len(goal)
        count += 1
    return "".join(pieces)


def padded(size):
    """The same with comments up to the size."""
    base = text(size)
    rest = size - len(base)
    return base + ("(* " + "comment " * 100 + "*)\n") * (rest // 807 + 1) if rest > 0 else base


def run(program, words, data):
    with tempfile.NamedTemporaryFile(delete=False) as file:
        file.write(data.encode())
    try:
        start = time.monotonic()
        with open(file.name) as source:
            child = subprocess.Popen([program] + words, stdin=source)
            _, status, usage = os.wait4(child.pid, 0)
        return time.monotonic() - start, usage.ru_maxrss / 1024, os.waitstatus_to_exitcode(status)
    finally:
        os.unlink(file.name)


def main():
    size = (int(sys.argv[1]) if len(sys.argv) > 1 else 16) << 20
    root = os.path.dirname(os.path.dirname(os.path.abspath(__file__)))
    with tempfile.TemporaryDirectory() as copy:
        for name in CRATES:
            shutil.copytree(f"{root}/crates/{name}", f"{copy}/crates/{name}")
        os.makedirs(f"{copy}/crates/goal_bench/src")
        with open(f"{copy}/crates/goal_bench/src/main.rt", "w") as file:
            file.write(MAIN)
        with open(f"{root}/crates.txt") as file:
            lines = [line for line in file if line.split(":")[0] in CRATES]
        with open(f"{copy}/crates.txt", "w") as file:
            file.writelines(lines + ["goal_bench: goal_print goal_text goal_sort goal_ast goal_token sqlite_items\n"])
        subprocess.run(
            ["rt", "run"],
            cwd=f"{copy}/crates/goal_bench",
            stdin=subprocess.DEVNULL,
            stdout=subprocess.DEVNULL,
            check=True,
        )
        program = f"{copy}/crates/goal_bench/out/goal_bench"
        for name, data in [("goals", text(size)), ("goals and comments", padded(size))]:
            spent, memory, status = run(program, ["read"], data)
            whole, most, _ = run(program, ["read", "print"], data)
            before, held, _ = run(program, [], data)
            print(
                f"{name}, {len(data) / 2**20:.1f} MiB: {spent:.2f} s and {memory:.0f} MiB, "
                f"sorted and printed too {whole:.2f} s and {most:.0f} MiB, "
                f"input alone {before:.2f} s and {held:.0f} MiB, status {status}"
            )


main()
