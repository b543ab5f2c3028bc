#!/usr/bin/env python3
"""gate_times.py [WORD..]: runs the gate, `.ci/run` with these words, and prints the processor minutes of each of its steps, crate by crate.

A step's processes are looked at twice a second, so each process may be counted half a second short. What is left over,
as building and running the tests, stands under `other`. Last it says how long the gate would take on two and on four
processors by these figures, if each step had one. The exit status is that of the gate.
"""

import collections
import functools
import os
import pathlib
import subprocess
import sys
import time

from crate_list import ROOT, read_crates
from trying import ROOM

STEPS = ("proof", "tests", "edits")
TICKS = os.sysconf("SC_CLK_TCK")
SECONDS_BETWEEN_LOOKS = 0.5

# What it has used so far, with those of its children that have ended; and the crate and the step that it works on, or None
# if it is no check or build.
Process = collections.namedtuple("Process", "parent started seconds step")


def read_process(pid):
    """The process, or None if it is gone."""
    try:
        fields, line = (pathlib.Path(f"/proc/{pid}/{it}").read_text() for it in ("stat", "cmdline"))
        folder = os.readlink(f"/proc/{pid}/cwd")
    except OSError:
        return None
    fields, words, step = fields.rpartition(")")[2].split(), line.split("\0"), None
    if words[0].endswith("/rattle") and "--crate-name" in words:
        # Wrong bodies are tried on a copy of the crate.
        kind = "tests" if "--test" in words else "edits" if f"/{ROOM}" in folder else "proof"
        step = words[words.index("--crate-name") + 1], kind
    return Process(int(fields[1]), int(fields[19]), sum(map(int, fields[11:15])) / TICKS, step)


def look(root, used):
    """Notes in `used` what each process below `root` that works on a step has used so far."""
    pids = [int(name) for name in os.listdir("/proc") if name.isdigit()]
    processes = {pid: process for pid in pids if (process := read_process(pid))}
    for pid, process in processes.items():
        above = pid
        while above in processes and above != root:
            above = processes[above].parent
        # A check may split into copies of itself, whose time is its own once they have ended.
        is_part = process.parent in processes and processes[process.parent].step
        if process.step and not is_part and above == root:
            used[pid, process.started] = process.step, process.seconds


def run_gate(words):
    """The status of the gate, the seconds of the processor that it took, and what `look` notes meanwhile."""
    used = {}
    gate = subprocess.Popen([ROOT / ".ci" / "run", *words])
    while not (ended := os.wait4(gate.pid, os.WNOHANG))[0]:
        look(gate.pid, used)
        time.sleep(SECONDS_BETWEEN_LOOKS)
    _, status, resources = ended
    return os.waitstatus_to_exitcode(status), resources.ru_utime + resources.ru_stime, used.values()


def print_table(minutes, runs, total, began):
    crates = sorted({crate for crate, _ in minutes}, key=lambda it: -sum(minutes[it, step] for step in STEPS))
    print(f"{'processor minutes':<20}" + "".join(f"{step:>8}" for step in STEPS) + f"{'all':>8}{'edit checks':>14}")
    for crate in crates:
        row = [minutes[crate, step] for step in STEPS]
        print(f"{crate:<20}" + "".join(f"{it:8.1f}" for it in [*row, sum(row)]) + f"{runs[crate, 'edits']:14}")
    sums = [sum(minutes[crate, step] for crate in crates) for step in STEPS]
    print(f"{'all crates':<20}" + "".join(f"{it:8.1f}" for it in [*sums, sum(sums)]))
    print(f"{'other':<20}{total / 60 - sum(sums):32.1f}")
    print(f"{'the gate':<20}{total / 60:32.1f} in {(time.time() - began) / 60:.1f} minutes")


def waits(step):
    """The proofs that a step waits for: those below its crate, and if it tries edits its own."""
    return {(it, "proof") for it in [*read_crates().get(step[0], []), *([step[0]] if step[1] == "edits" else [])]}


def simulate(minutes, processors):
    """How long the steps take side by side, each on one processor, first those with the longest chain behind them."""

    @functools.cache
    def chain(step):
        return minutes[step] + max((chain(it) for it in minutes if step in waits(it)), default=0)

    left, running, now = sorted(minutes, key=lambda it: -chain(it)), [], 0.0
    # A proof that was kept is no step.
    done = {proof for step in minutes for proof in waits(step)} - {*minutes}
    while left or running:
        for step in [it for it in left if done >= waits(it)][: processors - len(running)]:
            left.remove(step)
            running.append((now + minutes[step], step))
        now, ended = min(running)
        running.remove((now, ended))
        done.add(ended)
    return now


def main():
    began, minutes = time.time(), collections.Counter()
    status, total, used = run_gate(sys.argv[1:])
    for step, seconds in used:
        minutes[step] += seconds / 60
    print_table(minutes, collections.Counter(step for step, _ in used), total, began)
    for processors in (2, 4):
        within = f"{simulate(minutes, processors):.1f} minutes"
        print(f"its proofs, tests and edits on {processors} processors, by these figures: {within}")
    return status


if __name__ == "__main__":
    sys.exit(main())
