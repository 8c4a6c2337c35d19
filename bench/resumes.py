#!/usr/bin/env python3
"""Stops programs, goes on from their checkpoints, and replays each report.

    bench/resumes.py [STOPS]     at most 60 stops of a program with no STOPS

It takes the program that `rt ci` built, or the one that ASP names. Each example, and each program of the cases on
captures, services and groups, is stopped after 1 reduction, 2 reductions and so on, by 1 worker and by 4, and goes
on to its end by other workers and under another strategy. Then it is stopped again and again, some 200 times if it
has as many reductions. Each report is replayed, and the replay has to give the same bytes and the same status; of a
program that `--determinate` finds to have one end, it has to be the report of a run that is not stopped. Last come
5,000, 20,000 and 80,000 activities that wait: the bytes of the checkpoint, and the seconds to save it and to go on
from it. It prints what failed; its status is then 1.
"""
import os
import random
import subprocess
import sys
import tempfile
import time

from outcomes import cases

HERE = os.path.dirname(os.path.dirname(os.path.abspath(__file__)))
PROGRAM = os.environ.get("ASP", os.path.join(HERE, "crates/asp/out/asp"))
STRATEGIES = ["lazy", "forward", "message"]
CASES = ["captures", "services", "groups"]
RULED = b". determinate\n"
USED_UP, ENDED = 5, (0, 1, 4)

# so many activities that answered a request each and wait for the next
WAITING = """let one = [; m(s) = 1] in
let make = [; many(self, n) = if (n == 0) { 0 } else { active(one).m(); self.many(n - 1) }] in
make.many(%d);
repeat(0)
"""


class Resumes:
    def __init__(self, folder):
        self.checkpoint = os.path.join(folder, "checkpoint")
        self.report = os.path.join(folder, "report")
        self.known = None
        self.failed = 0

    def run(self, *words):
        done = subprocess.run([PROGRAM, *map(str, words)], capture_output=True, timeout=300)
        return done.returncode, done.stdout

    def keep(self, path, text):
        with open(path, "wb") as file:
            file.write(text)

    def fail(self, *words):
        self.failed += 1
        print("failed:", *words, flush=True)

    def by_chance(self):
        return "--workers", random.choice((1, 2, 4, 64)), "--strategy", random.choice(STRATEGIES)

    def ends(self, file, status, text, *words):
        """The text is a report, and its replay gives the same bytes and the same status."""
        if status not in ENDED:
            return self.fail(file, *words, "status", status)
        self.keep(self.report, text)
        if self.run(file, "--replay", self.report) != (status, text):
            self.fail(file, *words, "the replay differs")
        if self.known not in (None, text):
            self.fail(file, *words, "it is not the report of a run that is not stopped")

    def stop_each(self, file, reductions, stops):
        """Stops it after each number of reductions, or after each so many, and goes on to its end."""
        for budget in range(1, reductions, max(1, reductions // stops)):
            for workers in (1, 4):
                status, text = self.run(file, "--budget", budget, "--save", "--workers", workers)
                if status == USED_UP:
                    self.keep(self.checkpoint, text)
                    status, text = self.run(file, "--resume", self.checkpoint, *self.by_chance())
                self.ends(file, status, text, "budget", budget, "workers", workers)

    def stop_often(self, file, reductions):
        """Stops it after every few reductions, until it ends, and counts how often."""
        budget, times = max(1, reductions // 210), 0
        status, text = self.run(file, "--budget", budget, "--save")
        while status == USED_UP:
            times += 1
            self.keep(self.checkpoint, text)
            status, text = self.run(file, "--resume", self.checkpoint, "--budget", budget, "--save", *self.by_chance())
        self.ends(file, status, text, "stopped", times, "times")
        return times

    def play(self, file, stops):
        _, whole = self.run(file, "--determinate")
        self.known = whole.removesuffix(RULED) if whole.endswith(RULED) else None
        reductions = sum(int(line.split()[2]) for line in whole.decode().splitlines() if line.startswith("activity "))
        self.stop_each(file, reductions, stops)
        print(f"{os.path.basename(file)}: {reductions} reductions, {self.stop_often(file, reductions)} stops in a row",
              flush=True)

    def play_cases(self, folder, stops):
        """Plays each program of these cases that runs, and comes to its end."""
        for name, text in cases():
            if name.split(".")[0] in CASES:
                file = os.path.join(folder, name.replace(".txt ", "-"))
                self.keep(file, text.encode())
                if self.run(file)[0] in ENDED:
                    self.play(file, stops)

    def measure(self, folder, activities):
        file = os.path.join(folder, "waiting.asp")
        self.keep(file, (WAITING % activities).encode())
        started = time.monotonic()
        status, text = self.run(file, "--budget", 16 * activities + 100, "--save")
        saved = time.monotonic()
        if status != USED_UP:
            return self.fail("waiting", activities, "status", status)
        self.keep(self.checkpoint, text)
        gone = time.monotonic()
        status, _ = self.run(file, "--resume", self.checkpoint, "--budget", 1)
        if status != USED_UP:
            return self.fail("waiting", activities, "status", status)
        print(f"{activities} waiting: {len(text)} bytes, run and saved in {saved - started:.2f} s, "
              f"gone on with in {time.monotonic() - gone:.2f} s", flush=True)


def main():
    stops = int(sys.argv[1]) if len(sys.argv) > 1 else 60
    random.seed(1)
    with tempfile.TemporaryDirectory() as folder:
        resumes = Resumes(folder)
        examples = os.path.join(HERE, "examples")
        for name in sorted(os.listdir(examples)):
            if name.endswith(".asp"):
                resumes.play(os.path.join(examples, name), stops)
        resumes.play_cases(folder, stops)
        for activities in (5_000, 20_000, 80_000):
            resumes.measure(folder, activities)
    sys.exit(1 if resumes.failed else 0)


if __name__ == "__main__":
    main()
