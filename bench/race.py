#!/usr/bin/env python3
"""Measures what several workers gain, and what they cost where only one of them can work.

    bench/race.py [--program PATH] [--parent PATH] [--turns N] [--scale F] [PART ..]

with no PART all of them: cpu pairs broadcast alone idle. Where --parent names the program of an earlier
commit, it does the same as one worker. The seconds are medians of N runs, which take turns, so that all see the
same machine: by the clock, and for idle those of the processor. By the clock they tell something only
where as many processors are free as there are workers; the first line says how busy the machine is. A
size is multiplied by F. Nothing here is a test.
"""
import argparse
import os
import statistics
import sys
import tempfile
from typing import NamedTuple

import measure

MOST = ["--budget", "10000000"]


def cpu(turns):
    """16 activities, each of which takes so many turns of a loop."""
    text = "let m = [; many(s, k) = if (k == 0) { 0 } else { active(w).go(%d); s.many(k - 1) }] in m.many(16)"
    go = "if (k == 0) { 0 } else { s.sum := s.sum + k; s.go(k - 1) }"
    return f"let w = [sum = 0; go(s, k) = {go}] in {text % turns}"


def idle(turns):
    """An activity that takes so many turns of a loop, and a hundred that await its end."""
    return (
        "let a = active([; work(s, k) = if (k == 0) { 7 } else { s.work(k - 1) }]) in "
        f"let f = a.work({turns}) in let m = [; many(s, k) = if (k == 0) {{ 0 }} else {{ "
        "let b = active([; wait(t, v) = print(v + k)]) in b.wait(f); s.many(k - 1) }] in m.many(100)"
    )


class Part(NamedTuple):
    name: str
    text: object  # the program's text at a size
    size: int
    most: dict  # for each number of workers the most times one worker's seconds that is wanted
    is_clock: bool = True
    crowd: float = None  # the most times 4 workers' seconds that 64 may take


PARTS = {
    "cpu": Part("cpu work in 16 activities", cpu, 40_000, {1: None, 2: 0.65, 4: 0.45, 64: None}, crowd=1.1),
    "pairs": Part("pairs", measure.make, 20_000, {1: None, 4: 1.3, 64: None}, crowd=1.1),
    "broadcast": Part("rounds of a broadcast to 100", measure.broadcast, 100, {1: None, 4: 1.3}),
    "alone": Part("turns of a loop of one activity", measure.loop, 100_000, {1: None, 4: 1.2}),
    "idle": Part("turns of a loop that 100 activities await", idle, 1_600_000, {1: None, 4: 1.3}, False),
}


def medians(commands, turns, is_clock):
    """The median seconds of each command, and one of its runs. The commands take turns."""
    runs = [[measure.once(*command) for command in commands] for _ in range(turns)]
    times = lambda of: [run.elapsed if is_clock else run.seconds for run in of]
    return [(statistics.median(times(of)), of[0]) for of in zip(*runs)]


def show(folder, part, options):
    size = max(2, int(part.size * options.scale))
    words = [folder.text(part.text(size)), *MOST]
    commands = [(options.program, [*words, "--workers", str(workers)]) for workers in part.most]
    if options.parent:
        commands.append((options.parent, [*words, "--workers", "1"]))
    found = medians(commands, options.turns, part.is_clock)
    one, run = found[0]
    if run.status not in (0, 4, 5):
        sys.exit(f"race: {part.name}: status {run.status}")
    clock = "by the clock" if part.is_clock else "of the processor"
    print(f"{size:,} {part.name}: {run.reductions:,} reductions, {one:.3f} s {clock} with 1 worker, "
          f"{one / size * 1e6:,.1f} us each", flush=True)
    for (workers, most), (other, run) in zip(part.most.items(), found):
        if most:
            print(f"    {workers} workers: {other:.3f} s, {other / one:.2f} times (at most {most} is wanted); "
                  f"peak {run.peak / 1024:,.0f} MiB", flush=True)
    if part.crowd:
        seconds = {workers: other for workers, (other, _) in zip(part.most, found)}
        print(f"    64 workers: {seconds[64]:.3f} s, {seconds[64] / seconds[4]:.2f} times 4 workers' "
              f"(at most {part.crowd} is wanted)", flush=True)
    if options.parent:
        parent = found[-1][0]
        print(f"    the parent: {parent:.3f} s, so 1 worker takes {one / parent:.2f} times (at most 1.1 is wanted)", flush=True)


def words():
    parser = argparse.ArgumentParser(description=__doc__, formatter_class=argparse.RawDescriptionHelpFormatter)
    parser.add_argument("--program", default=measure.PROGRAM)
    parser.add_argument("--parent")
    parser.add_argument("--turns", type=int, default=5)
    parser.add_argument("--scale", type=float, default=1.0)
    parser.add_argument("parts", nargs="*")
    return parser.parse_args()


def main():
    options = words()
    wanted = options.parts or list(PARTS)
    if not set(wanted) <= set(PARTS):
        sys.exit(f"race: the parts are {' '.join(PARTS)}")
    if not os.access(options.program, os.X_OK):
        sys.exit(measure.BUILD)
    measure.PROGRAM = options.program
    print(f"{os.cpu_count()} processors, {os.getloadavg()[0]:.1f} of them busy")
    with tempfile.TemporaryDirectory() as path:
        for name in wanted:
            show(measure.Folder(path), PARTS[name], options)


if __name__ == "__main__":
    main()
