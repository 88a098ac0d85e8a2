"""Runs the measured program and the twin by turns on each shape, and writes the table.

usage: turns_of.py FOLDER SHAPE ..
"""
import os
import pathlib
import statistics
import subprocess
import sys

TURNS = 5
STEPS = ["linked", "called", "tagged", "subject", "locks"]


class Run:
    """What a run of a program wrote: seconds a step, the longest lock, violations, how it ended; and its peak of memory."""

    def __init__(self, words):
        child = subprocess.Popen(words, stdout=subprocess.PIPE, text=True)
        rows = [line.split() for line in child.stdout]
        _, status, usage = os.wait4(child.pid, 0)
        child.returncode = os.waitstatus_to_exitcode(status)
        if child.returncode:
            sys.exit(f"{words} ended with {child.returncode}")
        times = {row[1]: int(row[2]) / 1e6 for row in rows if row[0] == "time"}
        locks = [times.pop(name) for name in list(times) if name.startswith("lock")]
        self.seconds = {**times, "locks": sum(locks)}
        self.lock = max(locks, default=0)
        self.violations = {tuple(row[1:]) for row in rows if row[0] == "violation"}
        self.other = [" ".join(row) for row in rows if row[0] not in ("time", "view", "size", "violation")]
        self.peak = usage.ru_maxrss // 1024

    def step(self, name):
        return self.seconds.get(name, 0)


def middle(runs, value):
    return statistics.median(value(run) for run in runs)


def ratio(ours, other):
    return f"{ours / other:.1f}" if other > 0.0005 else "-"


class Table:
    """A line for each shape."""

    def __init__(self, folder):
        self.folder, self.twin, self.before = folder, folder / "twin", {}
        print(f'{"":16}' + "".join(f"{step:>16}" for step in STEPS) + f'{"a lock":>16}{"growth":>8}{"peak":>16}  violations')

    def measure(self, shape):
        words = [self.folder / f"{shape}.toml", self.folder / f"{shape}.dex"]
        program = self.folder / "crates/solver_times/out/solver_times"
        ours, theirs = [], []
        for _ in range(TURNS):
            ours.append(Run([program, *words]))
            if self.twin.exists():
                theirs.append(Run([self.twin, *words]))
        self.write(shape, ours, theirs)

    def write(self, shape, ours, theirs):
        cells = []
        for value in [lambda run, step=step: run.step(step) for step in STEPS] + [lambda run: run.lock]:
            own = middle(ours, value)
            cells.append(f"{own:.4f}" + (f" ({ratio(own, middle(theirs, value))})" if theirs else ""))
        name, _, count = shape.partition("-")
        lock, peak = middle(ours, lambda run: run.lock), max(run.peak for run in ours)
        growth = ratio(lock, self.before[name]) if name in self.before else ""
        self.before[name] = lock
        peaks = f"{peak} MB" + (f" ({peak / max(run.peak for run in theirs):.1f})" if theirs else "")
        same = "" if not theirs else " same" if ours[0].violations == theirs[0].violations else " DIFFERENT"
        print(f"{shape:16}" + "".join(f"{cell:>16}" for cell in cells) + f"{growth:>8}{peaks:>16}  {len(ours[0].violations)}{same}",
              *ours[0].other, flush=True)


def main():
    table = Table(pathlib.Path(sys.argv[1]))
    for shape in sys.argv[2:]:
        table.measure(shape)


if __name__ == "__main__":
    main()
