#!/usr/bin/env python3
"""Runs programs again and again by racing workers, and replays each report.

    bench/soak.py [RUNS [START]]     10,000 runs with no RUNS

It takes the program that `rt ci` built, or the one that ASP names. A run is one of the programs below, by 1 to
64 workers, under a strategy and within a budget by chance; it has 60 seconds. Each report is replayed, and the
replay has to give the same bytes and the same status. It prints how many runs there were, how many reports each
program had, and each run that failed, with the words that repeat it; its status is then 1. Two soaks at once
load the machine.
"""
import collections
import os
import random
import subprocess
import sys
import tempfile

HERE = os.path.dirname(os.path.dirname(os.path.abspath(__file__)))
PROGRAM = os.environ.get("ASP", os.path.join(HERE, "crates/asp/out/asp"))
MOST_SECONDS = 60
RUNS = 10_000

# by name
TEXTS = {
    # two senders to one counter
    "senders": """let c = active([n = 1; put(s, v) = s.n := s.n * 2 + v; print(s.n)]) in
let a = active([; go(s) = c.put(0)]) in let b = active([; go(s) = c.put(1)]) in a.go(); b.go()""",
    # six senders to one counter, three requests each
    "crowd": """let c = active([n = 1; put(s, v) = s.n := (s.n * 3 + v) % 1000003; print(s.n)]) in
let w = [; go(s, v) = s.many(v, 3), many(s, v, k) = if (k == 0) { 0 } else { c.put(v); s.many(v, k - 1) }] in
let g = group(active(w), active(w), active(w), active(w), active(w), active(w)) in
scatter(g, go, group(1, 2, 3, 4, 5, 6))""",
    # nobody rests: the budget ends it
    "loops": """let w = [; go(s) = repeat(print(1))] in
let g = group(active(w), active(w), active(w), active(w)) in g.go(); repeat(0)""",
    # futures that pass unread, and two readers that race
    "passed": """let q = active([; slow(s, v) = v * 10]) in
let z = active([sum = 0; take(s, v) = s.sum := s.sum * 7 + v; print(s.sum)]) in
let w = [; pass(s, v) = z.take(v)] in
let g = group(active(w), active(w), active(w)) in
scatter(g, pass, group(q.slow(1), q.slow(2), q.slow(3)))""",
    # futures that lead into a circle, and who waits for them
    "circle": """let b = active([x = 0; m(s) = serve(n); s.x, n(s, v) = s.x := v]) in
let f = b.m() in b.n(f); let w = [; see(s, v) = print(v)] in
let one = active(w) in let two = active(w) in one.see(f); two.see(f); print(f)""",
    # who comes first makes the other fault
    "faults": """let d = active([by = 1; set(s, v) = s.by := v, over(s, v) = print(v / s.by)]) in
let w = [; zero(s) = d.set(0), ask(s) = d.over(12)] in
let a = active(w) in let b = active(w) in let c = active(w) in a.zero(); b.ask(); c.ask(); d.over(6)""",
    # a ring that passes a number on, by two at once
    "ring": """let n = [next = 0; join(s, o) = s.next := o; 0,
  go(s, k) = if (k == 0) { print(0) } else { s.next.go(k - 1) }] in
let a = active(n) in let b = active(n) in let c = active(n) in let d = active(n) in
a.join(b); b.join(c); c.join(d); d.join(a); a.go(40); c.go(33)""",
    # activities that make activities
    "tree": """let out = active([n = 0; leaf(s, v) = s.n := s.n + v; print(v)]) in
let grow = [; go(s, k, name) = if (k == 0) { out.leaf(name) }
  else { let one = active(s) in let two = active(s) in one.go(k - 1, name * 2); two.go(k - 1, name * 2 + 1) }] in
active(grow).go(4, 1)""",
    # a buffer that two fill and one empties
    "buffer": """let buffer = active([used = 0, last = 0;
  run(s) = repeat(if (s.used == 0) { serve(put) } else { serve(take) }),
  put(s, n) = s.last := n; s.used := 1, take(s) = s.used := 0; s.last], run) in
let w = [; fill(s, n) = buffer.put(n); buffer.put(n + 1); buffer.put(n + 2)] in
let a = active(w) in let b = active(w) in a.fill(10); b.fill(20);
let r = [; read(s, k) = if (k == 0) { 0 } else { print(buffer.take()); s.read(k - 1) }] in r.read(6)""",
    # many pieces of work of their own
    "work": """let w = [; go(s, k) = if (k == 0) { 0 } else { 1 + s.go(k - 1) }] in
let g = group(active(w), active(w), active(w), active(w), active(w), active(w), active(w), active(w)) in
let r = waitall(g.go(60)) in print(member(r, 0) + member(r, 7))""",
}

STRATEGIES = ["lazy", "forward", "message"]
LABELS = ["go", "put", "take", "slow", "pass", "see", "fill", "over"]


def programs(folder):
    """The files, by name."""
    files = {}
    for name, text in TEXTS.items():
        files[name] = os.path.join(folder, f"{name}.asp")
        with open(files[name], "w") as file:
            file.write(text)
    return files


def words_of(chance, file):
    words = [file, "--workers", str(chance.choice([1, 2, 3, 4, 8, 16, 64])), "--strategy", chance.choice(STRATEGIES)]
    if chance.random() < 0.3:
        labels = chance.sample(LABELS, chance.randint(1, 4))
        words += ["--update", ",".join(f"{label}={chance.choice(STRATEGIES)}" for label in labels)]
    if "loops" in file:
        words += ["--budget", str(chance.choice([1, 63, 64, 65, 200, 1_000, 10_000, 50_000]))]
    elif chance.random() < 0.3:
        words += ["--budget", str(chance.choice([1, 5, 30, 64, 65, 100, 150, 300, 1_000]))]
    if chance.random() < 0.3:
        words += ["--state", str(chance.randint(0, 4))]
    return words


def run(words):
    return subprocess.run([PROGRAM, *words], capture_output=True, timeout=MOST_SECONDS, check=False)


def failure(words, report):
    """Why the run failed, or None, and its report."""
    try:
        one = run(words)
        if one.returncode not in (0, 1, 4, 5) or one.stderr:
            return f"status {one.returncode} {one.stderr[:80]!r}", b""
        with open(report, "wb") as file:
            file.write(one.stdout)
        depth = words[words.index("--state"):][:2] if "--state" in words else []
        other = run([words[0], "--replay", report, *depth])
    except subprocess.TimeoutExpired:
        return f"no end in {MOST_SECONDS} s", b""
    if (other.returncode, other.stdout) != (one.returncode, one.stdout):
        return f"another replay, status {other.returncode} {other.stderr[:80]!r}", one.stdout
    return None, one.stdout


def main():
    runs = int(sys.argv[1]) if len(sys.argv) > 1 else RUNS
    start = int(sys.argv[2]) if len(sys.argv) > 2 else random.randrange(2**32)
    chance = random.Random(start)
    failed = 0
    reports = collections.defaultdict(set)
    with tempfile.TemporaryDirectory() as folder:
        files = programs(folder)
        report = os.path.join(folder, "report")
        for turn in range(runs):
            name = list(files)[turn % len(files)]
            words = words_of(chance, files[name])
            why, text = failure(words, report)
            reports[name].add(hash(text))
            if why:
                failed += 1
                print(f"{why}: {' '.join([name, *words[1:]])}", flush=True)
            if turn % 1_000 == 999:
                print(f"{turn + 1} runs, {failed} failed", flush=True)
    print(f"{runs} runs from the start {start}, {failed} failed")
    for name, seen in reports.items():
        print(f"{name}: {len(seen)} reports")
    sys.exit(1 if failed else 0)


if __name__ == "__main__":
    main()
