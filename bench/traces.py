#!/usr/bin/env python3
"""Checks traces by `--trace`: those that `--journal` writes, and damaged ones.

    bench/traces.py [N [START]]     N damaged traces (5,000), from the seed START on
    bench/traces.py --written       what --journal writes for all programs of cases/ and examples/

With --written each program is run by 1, 4 and 64 workers under each strategy, within one of four budgets, and its trace
has to be accepted under that budget, with the status of the run. The report that is written of it has to be that of its
replay, and by one worker that of the run.

A damaged trace is one of a program of bench/programs.py, of which an entry is dropped, doubled or exchanged with
another, or a number in it is changed, once or more often. If it is accepted, its report has to replay to its own bytes
and status. If it is refused, it is unfinished, or a line is named, and cut in front of that line, with `end` behind, it
is not refused at a line. (Lines come first that are none at all: of a trace that was damaged twice such a line may
stand behind an entry that is not lawful, and then it is cut once more.) It takes the program that `rt ci` built, or the one that ASP names, and prints how many had
each answer. What failed is printed, and the status is then 1.
"""
import argparse
import collections
import glob
import os
import random
import re
import subprocess
import sys
import tempfile

from programs import BUDGET, SIZES, make
from soak import HERE, STRATEGIES, run

WORKERS = [1, 4, 64]
BUDGETS = [20_000, 500, 64, 7]
REPORTED = (0, 1, 4, 5)
AT_LINE = re.compile(rb"asp: trace: line (\d+)\n")
UNFINISHED = b"asp: trace: unfinished\n"


def keep(path, data):
    with open(path, "wb") as to:
        to.write(data)


def within(budget):
    return ["--budget", str(budget)]


def texts():
    """The programs of the cases and of the examples."""
    for path in sorted(glob.glob(os.path.join(HERE, "examples/*.asp"))):
        with open(path, "rb") as file:
            yield file.read()
    for path in sorted(glob.glob(os.path.join(HERE, "cases/*.txt"))):
        lines = []
        with open(path, "rb") as file:
            for line in [*file.read().split(b"\n"), b""]:
                if line[:1] == b"<":
                    lines.append(line[2:])
                elif lines:
                    yield b"\n".join(lines)
                    lines = []


# Traces that were written


def unwritten(file, trace, report, budget, workers, strategy):
    """Why the trace of a run is not as it has to be, if it is not; and whether the program runs."""
    words = [*within(budget), "--workers", str(workers), "--strategy", strategy]
    one = run([file, *words, "--journal"])
    if one.returncode not in REPORTED:
        return None, one.returncode == 3
    keep(trace, one.stdout)
    checked = run([file, *within(budget), "--trace", trace])
    if checked.returncode != one.returncode or checked.stderr:
        return f"status {checked.returncode} {checked.stderr[:80]!r}", False
    keep(report, checked.stdout)
    again = run([file, "--replay", report])
    if (again.returncode, again.stdout) != (checked.returncode, checked.stdout):
        return "another replay", False
    if workers == 1 and run([file, *words]).stdout != checked.stdout:
        return "another report than that of the run", False
    return None, False


def check_written():
    answers, failed = collections.Counter(), 0
    with tempfile.TemporaryDirectory() as folder:
        file, trace, report = (os.path.join(folder, name) for name in ("a.asp", "trace", "report"))
        for text in texts():
            keep(file, text)
            for plan in [(b, w, s) for b in BUDGETS for w in WORKERS for s in STRATEGIES]:
                try:
                    why, is_none = unwritten(file, trace, report, *plan)
                except subprocess.TimeoutExpired:
                    why, is_none = "no end in time", False
                if is_none:
                    answers["programs with an error"] += 1
                    break
                answers["traces"] += 1
                if why:
                    failed += 1
                    print(f"{why}: {plan} {text[:200]!r}", flush=True)
                if answers["traces"] % 2_000 == 0:
                    print(f"{answers['traces']} traces, {failed} failed", flush=True)
    print(f"{dict(answers)}, {failed} failed")
    return failed


# Damaged traces


def damaged(lines, chance):
    """The lines of a trace, of which an entry is dropped, doubled, exchanged, or has another number."""
    lines = list(lines)
    at = chance.randrange(1, len(lines) - 1)
    kind = chance.choice(["dropped", "doubled", "exchanged", "changed"])
    if kind == "dropped":
        del lines[at]
    elif kind == "doubled":
        lines.insert(chance.randrange(1, len(lines)), lines[at])
    elif kind == "exchanged":
        near = (max(1, at - 2), min(len(lines) - 1, at + 3))
        other = chance.randrange(*chance.choice([(1, len(lines) - 1), near]))
        lines[at], lines[other] = lines[other], lines[at]
    else:
        words = re.split(rb"(\d+)", lines[at])
        which = chance.randrange(1, len(words), 2)
        words[which] = str(abs(int(words[which]) + chance.choice([-2, -1, 1, 2, 7, 64, 2**32]))).encode()
        lines[at] = b"".join(words)
    return kind, lines


def failure(file, lines, trace, report, budget, cuts):
    """Why the answer to a trace is wrong, if it is, and the answer in a word. It may be cut so often."""
    keep(trace, b"\n".join(lines) + b"\n")
    said = run([file, *within(budget), "--trace", trace])
    if said.returncode in REPORTED and not said.stderr:
        keep(report, said.stdout)
        again = run([file, "--replay", report])
        same = (again.returncode, again.stdout) == (said.returncode, said.stdout)
        return None if same else "another replay", "accepted"
    if said.returncode != 10 or said.stdout:
        return f"status {said.returncode} {said.stderr[:80]!r}", "another status"
    if said.stderr == UNFINISHED:
        return None, "unfinished"
    found = AT_LINE.fullmatch(said.stderr)
    if not found:
        return f"wrote {said.stderr[:80]!r}", "another message"
    if not cuts:
        return f"cut, and refused at line {int(found[1])}", "at a line"
    return failure(file, [*lines[: int(found[1]) - 1], b"end"], trace, report, budget, cuts - 1)[0], "at a line"


def check_damaged(many, start):
    answers, failed, seed = collections.Counter(), 0, start
    with tempfile.TemporaryDirectory() as folder:
        file, trace, report = (os.path.join(folder, name) for name in ("a.asp", "trace", "report"))
        while sum(answers.values()) < many:
            chance = random.Random(seed)
            keep(file, make(seed, SIZES[seed % len(SIZES)]).encode())
            plan = ["--workers", str(chance.choice(WORKERS)), "--strategy", chance.choice(STRATEGIES)]
            budget = chance.choice([BUDGET, BUDGET, 100, 20])
            one = run([file, *within(budget), *plan, "--journal"])
            lines = one.stdout.split(b"\n")[:-1]
            if one.returncode in REPORTED and len(lines) > 2:
                for _ in range(5):
                    kinds, hurt = [], lines
                    for _ in range(chance.choice([1, 1, 1, 2, 3])):
                        if len(hurt) > 2:
                            kind, hurt = damaged(hurt, chance)
                            kinds.append(kind)
                    why, answer = failure(file, hurt, trace, report, budget, min(len(kinds), 2))
                    answers[answer] += 1
                    if why:
                        failed += 1
                        print(f"{why}: seed {seed}, {kinds}, budget {budget}", flush=True)
            seed += 1
    print(f"up to seed {seed}: {dict(answers)}, {failed} failed")
    return failed


def main():
    parser = argparse.ArgumentParser(description=__doc__, formatter_class=argparse.RawDescriptionHelpFormatter)
    parser.add_argument("numbers", nargs="*", type=int)
    parser.add_argument("--written", action="store_true")
    words = parser.parse_args()
    many, start = (*words.numbers, *[5_000, 0][len(words.numbers):])
    sys.exit(1 if (check_written() if words.written else check_damaged(many, start)) else 0)


if __name__ == "__main__":
    main()
