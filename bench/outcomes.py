#!/usr/bin/env python3
"""Tells what asp-outcomes finds, and holds racing runs of asp to it.

    bench/outcomes.py [--runs N] [--most N] [--cases] [--generated N] [--few N] [--generated-runs N]

It takes the program that `rt ci` built, or the one that ASP names. Of each program of the table it prints
the ends by whole orders and by classes of labels, the outcomes and the seconds, and these numbers have to be those
that are known. It does so for each example, with --cases for each program of cases/, and with --generated for so many
programs of bench/programs.py that have at most --few ends (200) by whole orders; every second of these has no poll.

If the ends are complete both ways, both have to have the same outcomes, the same longest run and the same status. If
they are complete by whole orders and at most --most (500): the report of each end has to be replayed by asp to its own
bytes, and to be one of the outcomes; all these reports have to be complete by --check-ends, with the same text, and
cut off without one of them; and each of --runs racing runs (200), by 1 to 64 workers and under each strategy, has to
print the report of one of the ends. If they are complete by classes and at most --most: the report of each end has to
be replayed by asp to its own bytes, and each racing run has to look as one of the outcomes. It ends with 1 if
anything failed.
"""
import argparse
import glob
import os
import random
import subprocess
import sys
import tempfile
import time

import programs

HERE = os.path.dirname(os.path.dirname(os.path.abspath(__file__)))
ASP = os.environ.get("ASP", f"{HERE}/crates/asp/out/asp")
RUN, OUTCOMES = [ASP], [ASP, "--outcomes"]
MOST_SECONDS = 120

FORK = ("let fork = [; run(self) = repeat(self.turn()), turn(self) = serve(take); serve(put), "
        "take(self) = 0, put(self) = 0] in\n")
THINKER = ("let thinker = [; dine(self, left, right) = left.take() + 0; right.take() + 0; left.put(); "
           "right.put(); echo(\"ate\")] in\n")


def made(letter, term, many):
    """So many activities, by a letter and a number."""
    return "".join(f"let {letter}{i} = active({term}) in " for i in range(many)) + "\n"


def philosophers(many, polite=False):
    """So many philosophers, who all take the left fork first, but for the last one where they are polite."""
    calls = [f"t{i}.dine(f{i}, f{(i + 1) % many})" for i in range(many)]
    if polite:
        calls[-1] = f"t{many - 1}.dine(f0, f{many - 1})"
    return FORK + THINKER + made("f", "fork, run", many) + made("t", "thinker", many) + "; ".join(calls)


def clients(many):
    """So many clients of one counter."""
    text = "let c = active([n = 0; put(s, v) = s.n := s.n + v; 0]) in let w = [; go(s, v) = c.put(v)] in\n"
    return text + made("w", "w", many) + "; ".join(f"w{i}.go({i + 1})" for i in range(many))


def own_counters(many):
    """So many clients, each with a counter of its own, which it asks three times."""
    text = "let counter = [n = 0; put(s, v) = s.n := s.n + v; 0] in\n"
    text += "let w = [; go(s, c) = c.put(1); c.put(2); c.put(3)] in\n"
    return text + made("c", "counter", many) + made("w", "w", many) + "; ".join(f"w{i}.go(c{i})" for i in range(many))


def accounts():
    """Two accounts, each with two customers who pay in."""
    text = "let account = [sum = 0; pay(s, v) = s.sum := s.sum + v; print(s.sum)] in\n"
    text += "let w = [; go(s, c, v) = c.pay(v)] in\n"
    calls = [f"w{i}.go(c{i // 2}, {i + 1})" for i in range(4)]
    return text + made("c", "account", 2) + made("w", "w", 4) + "; ".join(calls)


def pairs(many):
    """The program that `asp --make` runs."""
    return (f"let c = active([sum = 0; run(s) = s.many({many}); serve(total), many(s, k) = if (k == 0) {{ 0 }} else "
            "{ serve(add); s.many(k - 1) }, add(s, v) = s.sum := s.sum + v; 0, total(s) = s.sum], run) in\n"
            "let m = [; pairs(s, k) = if (k == 0) { 0 } else { let b = active([; twice(t, v) = v * 2]) in "
            "let f = active([; go(t, v) = c.add(b.twice(v))]) in f.go(k); s.pairs(k - 1) }] in\n"
            f"m.pairs({many});\nprint(c.total())\n")


LOCKS = """let lock = [; run(self) = repeat(self.turn()), turn(self) = serve(take); serve(put), take(self) = 0, put(self) = 0] in
let a = active(lock, run) in let b = active(lock, run) in
let mode = active([swap = 0; set(self) = self.swap := 1, get(self) = self.swap]) in
let one = active([; go(self) = a.take() + 0; b.take() + 0; a.put(); b.put(); echo("one")]) in
let two = active([; go(self) = let s = mode.get() in if (s == 1) { b.take() + 0; a.take() + 0 } else { a.take() + 0; b.take() + 0 }; a.put(); b.put(); echo("two")]) in
let admin = active([; work(self, n) = if (n == 0) { mode.set() } else { self.work(n - 1) }]) in
one.go(); two.go(); admin.work(5)
"""

# a program, and how many ends it has by whole orders, and by classes, and how many outcomes
TABLE = {
    "philosophers 3": (philosophers(3), 37, 7, 2),
    "philosophers 4": (philosophers(4), 185, 15, 2),
    "philosophers 5": (philosophers(5), 841, 31, 2),
    "polite philosophers 4": (philosophers(4, polite=True), 208, 14, 1),
    "8 clients, own counters": (own_counters(8), 1, 1, 1),
    "6 clients, one counter": (clients(6), 720, 720, 1),
    "two accounts, 2 customers each": (accounts(), 4, 4, 4),
    "rare deadlock": (LOCKS, 15, 5, 2),
    "asp --make 4": (pairs(4), 120, 24, 1),
}


def told(words, program):
    """What a program writes, its status, and the seconds that it took."""
    begun = time.time()
    ran = subprocess.run([*program, *words], stdin=subprocess.DEVNULL, capture_output=True, text=True,
                         timeout=MOST_SECONDS)
    return ran.stdout, ran.returncode, time.time() - begun


def seen(report):
    """The lines of a report that an outcome shows."""
    return [it for it in report.split("\n")[1:] if it != "senders" and not it.startswith("senders ")]


def outcomes_in(text):
    """The lines of each outcome that a text tells."""
    parts, at = [], None
    for line in text.split("\n")[:-1]:
        if line.startswith("outcome ") and " of " in line:
            parts.append([])
            at = parts[-1]
        elif at is not None:
            at.append(line)
    return parts


class Told:
    """What asp-outcomes tells of a file with some words; not whole if it takes too long."""

    def __init__(self, file, words=()):
        try:
            self.text, self.status, self.seconds = told([file, *words], OUTCOMES)
        except subprocess.TimeoutExpired:
            self.text, self.status, self.seconds = "outcomes 1\nnot told\nends 0\nlongest 0\n", 5, MOST_SECONDS
        lines = self.text.split("\n")
        self.whole = lines[1] == "complete"
        self.ends, self.longest = int(lines[2].split(" ")[1]), lines[3]
        self.parts = outcomes_in(self.text)

    def line(self):
        """The ends and the seconds, and whether the ends are all."""
        return f"{self.ends} ends{'' if self.whole else ' and more'} in {self.seconds:.2f} s"


def replayed(name, file, it, words, room):
    """The report of each end by its file, each of which is replayed; and what failed."""
    reports, failed = {}, []
    for number in range(1, it.ends + 1):
        report, one, _ = told([file, "--end", str(number), *words], OUTCOMES)
        kept = os.path.join(room, f"end{number}")
        with open(kept, "w", encoding="utf-8") as out:
            out.write(report)
        reports[kept] = report
        if told([file, "--replay", kept], RUN)[:2] != (report, one):
            failed.append(f"{name}: the report of end {number} is not replayed to its own bytes {words}")
        if seen(report)[:-1] not in it.parts:
            failed.append(f"{name}: the report of end {number} is none of the outcomes {words}")
    return reports, failed


def family(name, file, it, files):
    """Whether all these reports are checked to be all, and cut off without one of them: what failed."""
    failed = []
    if told([file, "--check-ends", *files], OUTCOMES)[:2] != (it.text, it.status):
        failed.append(f"{name}: --check-ends does not find all reports to be all")
    if len(files) > 1:
        gone = random.Random(name).randrange(len(files))
        again, other, _ = told([file, "--check-ends", *files[:gone], *files[gone + 1:]], OUTCOMES)
        if again.split("\n")[1:3] != ["cut off", f"ends {len(files) - 1}"] or other != 5:
            failed.append(f"{name}: --check-ends does not miss the report of end {gone + 1}")
    return failed


def raced(name, file, reports, parts, runs):
    """Racing runs, each of which has to print one of these reports, if there are some, and to look as one of these
    outcomes: what failed, and how many reports were met."""
    failed, met, chance = [], set(), random.Random(name)
    for _ in range(runs):
        words = [file, "--workers", str(chance.randint(1, 64)), "--strategy",
                 chance.choice(["lazy", "forward", "message"])]
        report, _, _ = told(words, RUN)
        met.add(report)
        if reports and report not in reports:
            failed.append(f"{name}: {' '.join(words[1:])} printed what is none of the ends")
        if seen(report)[:-1] not in parts:
            failed.append(f"{name}: {' '.join(words[1:])} printed what is none of the outcomes")
    return failed, len(met)


def differ(name, orders, classes):
    """In what two complete searches of one program differ, that ought to be the same."""
    failed = []
    if sorted(orders.parts) != sorted(classes.parts):
        failed.append(f"{name}: by classes there are other outcomes")
    if (orders.longest, orders.status) != (classes.longest, classes.status):
        failed.append(f"{name}: by classes the longest run or the status is another one")
    if orders.ends < classes.ends:
        failed.append(f"{name}: by classes there are more ends")
    return failed


def check(name, file, runs, most, room, known=None):
    """Tells what is found of one program, and returns how many ends it has, if they are all, and what failed."""
    classes, orders = Told(file), Told(file, ["--whole-orders"])
    line = (f"{name}: {orders.line()}, by classes {classes.line()}, {len(classes.parts)} outcomes, "
            f"status {classes.status}")
    failed = []
    if known is not None and (orders.ends, classes.ends, len(classes.parts)) != known:
        failed.append(f"{name}: known are {known[0]} ends, {known[1]} by classes, and {known[2]} outcomes")
    if orders.whole and classes.whole:
        failed += differ(name, orders, classes)
    reports, is_few = {}, classes.whole and classes.ends <= most
    if is_few:
        failed += replayed(name, file, classes, [], room)[1]
    if orders.whole and orders.ends <= most:
        reports, more = replayed(name, file, orders, ["--whole-orders"], room)
        failed += more + family(name, file, orders, list(reports))
    if reports or is_few:
        more, met = raced(name, file, set(reports.values()), classes.parts if is_few else orders.parts, runs)
        failed += more
        line += f", {met} ends met by {runs} runs"
    print(line, flush=True)
    return orders.ends if orders.whole else None, failed


def cases():
    """The programs of the transcripts, by their file and number."""
    for file in sorted(glob.glob(f"{HERE}/cases/*.txt")):
        with open(file, encoding="utf-8") as it:
            lines = it.read().split("\n")
        held, number = [], 0
        for line in [*lines, ""]:
            if line.startswith("< ") or line == "<":
                held.append(line[2:])
            elif held:
                number += 1
                yield f"{os.path.basename(file)} {number}", "\n".join(held)
                held = []


def is_checked(file):
    """asp finds no error in the program, and it is short enough to be searched."""
    return os.path.getsize(file) < 20_000 and told([file, "--check"], RUN)[1] == 0


def main():
    """Checks the table, the examples, and the cases and generated programs that are asked for."""
    asked = argparse.ArgumentParser(description=__doc__, formatter_class=argparse.RawDescriptionHelpFormatter)
    asked.add_argument("--runs", type=int, default=200)
    asked.add_argument("--most", type=int, default=500)
    asked.add_argument("--cases", action="store_true")
    asked.add_argument("--generated", type=int, default=0)
    asked.add_argument("--few", type=int, default=200)
    asked.add_argument("--generated-runs", type=int, default=200)
    given = asked.parse_args()
    failed = []
    with tempfile.TemporaryDirectory() as room:
        file = os.path.join(room, "program.asp")

        def tried(name, text, runs, most, known=None):
            with open(file, "w", encoding="utf-8") as it:
                it.write(text)
            if not is_checked(file):
                return None
            try:
                ends, more = check(name, file, runs, most, room, known)
            except subprocess.TimeoutExpired:
                print(f"{name}: not done, {MOST_SECONDS} s were over", flush=True)
                return None
            for it in more:
                print("FAILED", it, flush=True)
            failed.extend(more)
            return ends

        for name, (text, *known) in TABLE.items():
            tried(name, text, given.runs, given.most, tuple(known))
        for example in sorted(glob.glob(f"{HERE}/examples/*.asp")):
            with open(example, encoding="utf-8") as it:
                tried(os.path.basename(example), it.read(), given.runs, given.most)
        if given.cases:
            for name, text in cases():
                tried(name, text, given.runs, given.most)
        done = seed = 0
        while done < given.generated:
            ends = tried(f"generated {seed}", programs.make(seed, 10, seed % 2 == 0), given.generated_runs, given.few)
            seed += 1
            done += ends is not None and ends <= given.few
    print(f"{len(failed)} failed")
    return 1 if failed else 0


if __name__ == "__main__":
    sys.exit(main())
