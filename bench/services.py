#!/usr/bin/env python3
"""Compares two reports of one program, as its services see them, for programs of bench/programs.py.

    bench/services.py [N [START]]      N programs (2,000), from the seed START on
    bench/services.py --polls N ..     programs that ask what is pending, too

A program is run by one worker, and two receptions that stand beside each other in a log of its report, of two
senders, change places. Where a replay of that fits and ends, its report is the second one, and `--replay` with
`--same` is asked of both, in both orders. Where it says `same` the reports have to be equal but for the lines of
logs, and so has the other order to say; where it says `differ NAME`, NAME has to be an activity, whose log may be
equal: requests of other methods come from the same senders. Programs of which no such report is found are left out,
and others take their place. It takes the program that `rt ci` built, or the one that ASP names, and prints how many
had each answer, and how many differ although the reports are alike. What failed is printed, and the status is then 1.
"""
import argparse
import collections
import os
import random
import sys
import tempfile

from programs import BUDGET, ENDED, SIZES, make
from soak import run

TRIES = 12


def lines_of(report):
    return report.decode().split("\n")


def is_log(line):
    return line == "senders" or line.startswith("senders ")


def without_logs(report):
    return [line for line in lines_of(report) if not is_log(line)]


def names_in(report):
    return {line.split(" ")[1] for line in lines_of(report) if line.startswith("activity ")}


def places(report):
    """Where two senders stand beside each other: the number of a line, and that of a word of it."""
    for number, line in enumerate(lines_of(report)):
        if is_log(line):
            words = line.split(" ")
            for at in range(1, len(words) - 1):
                if words[at] != words[at + 1] and "?" not in words[at:at + 2]:
                    yield number, at


def turned(report, number, at):
    lines = lines_of(report)
    words = lines[number].split(" ")
    words[at], words[at + 1] = words[at + 1], words[at]
    lines[number] = " ".join(words)
    return "\n".join(lines).encode()


def keep(path, data):
    with open(path, "wb") as to:
        to.write(data)


def second(file, report, path, chance):
    """The report of another order that fits and ends, if one is found; it is left in the file of this path."""
    found = list(places(report))
    for number, at in chance.sample(found, min(TRIES, len(found))):
        keep(path, turned(report, number, at))
        other = run([file, "--replay", path])
        if other.returncode in ENDED:
            keep(path, other.stdout)
            return other.stdout
    return None


def failure(report, other, said, back):
    """Why the answers are wrong, if they are."""
    if said.returncode != 0 or said.stderr:
        return f"status {said.returncode} {said.stderr[:80]!r}"
    words = said.stdout.decode().split()
    if words == ["same"]:
        if without_logs(report) != without_logs(other):
            return "same, and the reports are not alike"
        return None if back.stdout == said.stdout else "same, and not so in the other order"
    if len(words) != 2 or words[0] != "differ" or words[1] not in names_in(report) | names_in(other):
        return f"wrote {said.stdout[:80]!r}"
    return None


def compare_all(many, start, polls):
    answers, failed, seed = collections.Counter(), 0, start
    with tempfile.TemporaryDirectory() as folder:
        file, one, two = (os.path.join(folder, name) for name in ("a.asp", "one", "two"))
        while answers["same"] + answers["differ"] < many:
            size = SIZES[seed % len(SIZES)]
            keep(file, make(seed, size, polls).encode())
            report = run([file, "--workers", "1", "--budget", str(BUDGET)])
            other = None
            if report.returncode in ENDED:
                keep(one, report.stdout)
                other = second(file, report.stdout, two, random.Random(seed))
            if other is not None:
                said = run([file, "--replay", one, "--same", two])
                back = run([file, "--replay", two, "--same", one])
                why = failure(report.stdout, other, said, back)
                if why:
                    failed += 1
                    print(f"{why}: {seed} {size}", flush=True)
                kind = said.stdout.decode().split(" ")[0].strip()
                answers[kind if kind == "same" else "differ"] += 1
                if kind != "same" and without_logs(report.stdout) == without_logs(other):
                    answers["differ, and the reports are alike"] += 1
            else:
                answers["no other order"] += 1
            seed += 1
            if seed % 500 == 0:
                print(f"up to seed {seed}: {dict(answers)}, {failed} failed", flush=True)
    print(f"{dict(answers)}, {failed} failed")
    return failed


def main():
    parser = argparse.ArgumentParser(description=__doc__, formatter_class=argparse.RawDescriptionHelpFormatter)
    parser.add_argument("numbers", nargs="*", type=int)
    parser.add_argument("--polls", action="store_true")
    words = parser.parse_args()
    many, start = (*words.numbers, *[2_000, 0][len(words.numbers):])
    sys.exit(1 if compare_all(many, start, words.polls) else 0)


if __name__ == "__main__":
    main()
