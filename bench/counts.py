#!/usr/bin/env python3
"""Counts the instructions and the allocations of a reduction, and of what a pair of activities does.

    bench/counts.py [--program PATH] [--parent PATH] [--scale F] [PART ..]

A PART is loop, recursion, repeat, objects or pair; with none all of them. Each figure is the difference of two
runs, the second of twice the size, divided by what the second does more: what a run takes to begin and to end is
left out. valgrind counts: callgrind the instructions, dhat the allocations and their bytes. All runs have one
worker. Beside the program runs another build of it, where --parent names one. A size is multiplied by F.

Nothing here is a test. Times depend on the machine, and instructions hardly do: they are what two builds are
compared by.
"""
import argparse
import os
import re
import shutil
import subprocess
import sys
import tempfile
from typing import NamedTuple

import measure
import reductions

SIZES = {"loop": 10_000, "recursion": 30_000, "repeat": 200_000, "objects": 20_000, "pair": 500}
TOOLS = {
    "callgrind": (["--callgrind-out-file=/dev/null"], r"Collected : (\d+)"),
    "dhat": (["--dhat-out-file=/dev/null"], r"Total: +([\d,]+) bytes in ([\d,]+) blocks"),
}


class Counts(NamedTuple):
    instructions: float
    allocations: float
    bytes: float


def words_of(folder, part, size):
    """The words that run a part at a size."""
    if part == "repeat":
        return [folder.text(reductions.repeat(size)), "--budget", str(size), "--workers", "1"]
    text = measure.make(size) if part == "pair" else reductions.LOOPS[part][0](size)
    return [folder.text(text), *measure.MOST]


def counted(tool, program, words):
    """What a tool of valgrind counts in a run."""
    options, pattern = TOOLS[tool]
    command = ["valgrind", f"--tool={tool}", *options, program, *words]
    run = subprocess.run(command, stdout=subprocess.DEVNULL, stderr=subprocess.PIPE, text=True, errors="replace")
    found = re.search(pattern, run.stderr)
    if not found:
        sys.exit(f"counts: {' '.join(command)} counts nothing:\n{run.stderr}")
    return [int(number.replace(",", "")) for number in found.groups()]


def count(program, words):
    [instructions] = counted("callgrind", program, words)
    size, blocks = counted("dhat", program, words)
    return Counts(instructions, blocks, size)


def each(program, runs, more):
    """What one reduction takes, or one pair, of so many that the second run does more."""
    first, second = (count(program, words) for words in runs)
    return Counts(*((after - before) / more for before, after in zip(first, second)))


def more_of(part, size, runs):
    """How many pairs, or reductions, the second run does more."""
    if part == "pair":
        return size
    first, second = (measure.once(measure.PROGRAM, words).reductions for words in runs)
    return second - first


def ratio(own, other):
    return f"{own / other:.4f}" if other else "-"


def row(part, more, own, other):
    cells = [part, f"{more:,}"]
    for mine, its in zip(own, other or own):
        cells += [f"{mine:,.3f}"] + ([f"{its:,.3f}", ratio(mine, its)] if other else [])
    return cells


def show(rows):
    wide = [max(map(len, column)) for column in zip(*rows)]
    for name, *cells in rows:
        print("  ".join([name.ljust(wide[0]), *(cell.rjust(width) for cell, width in zip(cells, wide[1:]))]))


def heads(has_parent):
    names = ["instructions", "allocations", "bytes"]
    beside = ["parent", "ratio"] if has_parent else []
    return ["", "more", *(head for name in names for head in [name, *beside])]


def counts_of(folder, part, options):
    size = max(2, int(SIZES[part] * options.scale))
    runs = [words_of(folder, part, n) for n in (size, 2 * size)]
    more = more_of(part, size, runs)
    own = each(options.program, runs, more)
    other = each(options.parent, runs, more) if options.parent else None
    return row(part, more, own, other)


def words():
    parser = argparse.ArgumentParser(description=__doc__, formatter_class=argparse.RawDescriptionHelpFormatter)
    parser.add_argument("--program", default=measure.PROGRAM)
    parser.add_argument("--parent")
    parser.add_argument("--scale", type=float, default=1.0)
    parser.add_argument("parts", metavar="PART", nargs="*", help=", ".join(SIZES))
    options = parser.parse_args()
    if not set(options.parts) <= set(SIZES):
        parser.error(f"a PART is one of {', '.join(SIZES)}")
    return options


def main():
    options = words()
    if not shutil.which("valgrind"):
        sys.exit("counts: valgrind is not here")
    if not all(os.access(program, os.X_OK) for program in (options.program, options.parent or options.program)):
        sys.exit(measure.BUILD)
    measure.PROGRAM = options.program
    with tempfile.TemporaryDirectory() as path:
        folder = measure.Folder(path)
        show([heads(options.parent), *(counts_of(folder, part, options) for part in options.parts or SIZES)])


if __name__ == "__main__":
    main()
