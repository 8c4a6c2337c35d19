#!/usr/bin/env python3
"""Measures what a reduction costs, and what a pair of activities does, in runs and in replays.

    bench/reductions.py [--program PATH] [--parent PATH] [--turns N] [--scale F]

The seconds are medians of the processor's seconds of N runs, which take turns, so that all see the same
machine. Beside the program runs another build of it, where --parent names one, and CPython does the same
loop. All runs have one worker. A size is multiplied by F. Nothing here is a test: figures depend on the machine.
"""
import argparse
import os
import statistics
import sys
import tempfile

import measure

MOST = measure.MOST
PYTHON_LOOP = """
class Counter:
    def __init__(self):
        self.n = 0
    def add(self, v):
        self.n = self.n + v
        return 0
    def run(self, k):
        while True:
            if k == 0:
                return 0
            self.add(1)
            k = k - 1
Counter().run(%d)
"""


def loop(n):
    """A loop with get, put, call and if: 14 reductions a turn."""
    return (
        "let o = [n = 0; add(s, v) = s.n := s.n + v; 0, "
        "run(s, k) = if (k == 0) { 0 } else { s.add(1); s.run(k - 1) }] in "
        f"o.run({n}); print(o.n)"
    )


def recursion(n):
    """Recursion on numbers, three times."""
    down = f"print(o.down({n // 3}))"
    return f"let o = [; down(s, k) = if (k == 0) {{ 0 }} else {{ 1 + s.down(k - 1) }}] in {down}; {down}; {down}"


def repeat(_n):
    return "repeat(1)"


def objects(n):
    """A loop that makes an object with a captured place at each turn."""
    return (
        "let o = [; run(s, k) = if (k == 0) { 0 } else { [a = k; m(t) = k]; s.run(k - 1) }] in "
        f"o.run({n})"
    )


LOOPS = {
    "loop": (loop, 700_000, 40),
    "recursion": (recursion, 1_200_000, 40),
    "repeat": (repeat, 10_000_000, 15),
    "objects": (objects, 1_200_000, 60),
}
PAIRS = (2_000, 20_000)
PAIR_TIME, PAIR_SIZE, REPLAY = 25, 8, 1.2


def medians(commands, turns):
    """The median run of each command, which is a program and its words. The commands take turns."""
    runs = [[measure.once(*command) for command in commands] for _ in range(turns)]
    return [median(of_command) for of_command in zip(*runs)]


def median(runs):
    middle = statistics.median(run.seconds for run in runs)
    return min(runs, key=lambda run: abs(run.seconds - middle))._replace(seconds=middle)


def count(words):
    """The reductions of a run, as its report shows them."""
    return measure.once(measure.PROGRAM, words).reductions


def beside(name, own, others):
    return "".join(f", {other:,.1f} by {of} ({own / other:.2f} times)" for of, other in others.items() if other)


def show_loop(folder, name, options):
    text, size, most = LOOPS[name]
    words = [folder.text(text(int(size * options.scale))), *MOST]
    commands = [(program, words) for program in options.programs.values()]
    runs = medians(commands, options.turns)
    total = count(words)
    each = {of: run.seconds / total * 1e9 for of, run in zip(options.programs, runs)}
    if name == "loop":
        each["CPython"] = python_loop(int(size * options.scale), options.turns) / total * 1e9
    own = each.pop("here")
    print(f"{name}: {total:,} reductions, {own:.1f} ns each (at most {most} is wanted){beside(name, own, each)}; "
          f"{runs[0].peak * 1024 / total:,.1f} bytes each", flush=True)


def python_loop(n, turns):
    """The processor's seconds of CPython's loop, without its start."""
    full, empty = medians([(sys.executable, ["-c", PYTHON_LOOP % size]) for size in (n, 0)], turns)
    return full.seconds - empty.seconds


def show_pairs(folder, size, options):
    n = max(2, int(size * options.scale))
    words, half = ([folder.text(measure.make(pairs)), *MOST] for pairs in (n, n // 2))
    report = folder.new()
    measure.once(measure.PROGRAM, words, report)
    replays = [words[0], "--replay", report]
    programs = options.programs.values()
    commands = [(program, how) for program in programs for how in (words, replays)]
    runs = medians(commands, options.turns)
    least = measure.once(measure.PROGRAM, half)
    each = {of: run.seconds / n * 1e6 for of, run in zip(options.programs, runs[::2])}
    own = each.pop("here")
    bytes_each = (runs[0].peak - least.peak) / (n - n // 2)
    print(f"{n:,} pairs: {own:.1f} us each (at most {PAIR_TIME} is wanted){beside('', own, each)}; "
          f"{bytes_each:.1f} KiB each (at most {PAIR_SIZE}); "
          f"replay {runs[1].seconds / runs[0].seconds:.2f} times the run (at most {REPLAY})", flush=True)


def words():
    parser = argparse.ArgumentParser(description=__doc__, formatter_class=argparse.RawDescriptionHelpFormatter)
    parser.add_argument("--program", default=measure.PROGRAM)
    parser.add_argument("--parent")
    parser.add_argument("--turns", type=int, default=5)
    parser.add_argument("--scale", type=float, default=1.0)
    return parser.parse_args()


def main():
    options = words()
    options.programs = {"here": options.program}
    if options.parent:
        options.programs["the parent"] = options.parent
    if not all(os.access(program, os.X_OK) for program in options.programs.values()):
        sys.exit(measure.BUILD)
    measure.PROGRAM = options.program
    with tempfile.TemporaryDirectory() as path:
        folder = measure.Folder(path)
        for name in LOOPS:
            show_loop(folder, name, options)
        for size in PAIRS:
            show_pairs(folder, size, options)


if __name__ == "__main__":
    main()
