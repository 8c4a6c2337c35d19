#!/usr/bin/env python3
"""Measures the built programs at two sizes each: time, peak memory, and the ratio of the times.

    bench/measure.py [PART ..]     with no PART all of them: reading runs replays cores growth bytes reports
                           edges turns

Nothing here is a test: figures depend on the machine, and only their ratios within one run mean
something. The seconds are those of the processor, so that other work on the machine matters less.
All runs but those of `turns` have one worker: bench/race.py measures what more of them gain.
A peak is never below that of this script, some 10 MiB, since a child begins as its copy.
"""
import os
import subprocess
import sys
import tempfile
import time
from itertools import repeat
from typing import NamedTuple

ROOT = os.path.dirname(os.path.dirname(os.path.abspath(__file__)))
PROGRAM = os.path.join(ROOT, "crates", "asp", "out", "asp")
BUILD = """measure: build the program first, at the top of the repository:
    rt ci, or (cd crates/asp && rt run -- data/one.asp)"""
MEBIBYTE = 1 << 20
MOST = ["--budget", "10000000", "--workers", "1"]


class Run(NamedTuple):
    seconds: float
    peak: int  # in KiB
    status: int
    reductions: int  # as the report shows them, if there is one
    elapsed: float  # seconds of the clock


# Programs and reports


def fields():
    """The fields of an object, without end and without the bracket that closes it."""
    yield "[f0=1"
    number = 1
    while True:
        yield f",f{number}=1"
        number += 1


def make(n):
    """The generated program: n pairs of activities, of which each adds to one sum."""
    return (
        f"let c = active([sum = 0; run(s) = s.many({n}); serve(total), "
        "many(s, k) = if (k == 0) { 0 } else { serve(add); s.many(k - 1) }, "
        "add(s, v) = s.sum := s.sum + v; 0, total(s) = s.sum], run) in\n"
        "let m = [; pairs(s, k) = if (k == 0) { 0 } else { "
        "let b = active([; twice(t, v) = v * 2]) in "
        "let f = active([; go(t, v) = c.add(b.twice(v))]) in f.go(k); s.pairs(k - 1) }] in\n"
        f"m.pairs({n});\n"
        "print(c.total())\n"
    )


def crowd(n):
    """So many activities that all await one future, which is filled at the end."""
    return (
        "let a = active([; one(s) = serve(go); 7, go(s) = 0]) in let f = a.one() in "
        "let m = [; many(s, k) = if (k == 0) { 0 } else { "
        "let b = active([; wait(t, v) = print(v + k)]) in b.wait(f); s.many(k - 1) }] in "
        f"m.many({n}); a.go()"
    )


def wide(n):
    """One future goes to so many activities, which keep it unread, and then it is filled."""
    return (
        "let a = active([; one(s) = serve(go); 7, go(s) = 0]) in let f = a.one() in "
        "let m = [; many(s, k) = if (k == 0) { 0 } else { "
        "let b = active([x = 0; keep(t, v) = t.x := v; 0]) in b.keep(f); s.many(k - 1) }] in "
        f"m.many({n}); a.go()"
    )


def many(n):
    """So many futures go to one activity, which keeps each unread, and then they are filled."""
    return (
        "let a = active([; hold(s) = serve(go), go(s) = 0, one(s) = 7]) in a.hold(); "
        "let b = active([x = 0; keep(t, v) = t.x := v; 0]) in "
        "let m = [; many(s, k) = if (k == 0) { 0 } else { b.keep(a.one()); s.many(k - 1) }] in "
        f"m.many({n}); a.go()"
    )


def turned(n):
    """So many answers come to main, which goes on with a loop as long as they come."""
    return (
        "let a = active([; one(s) = 7]) in "
        "let m = [; many(s, k) = if (k == 0) { 0 } else { a.one(); s.many(k - 1) }] in "
        f"m.many({n}); let o = [; down(s, k) = if (k == 0) {{ 0 }} else {{ s.down(k - 1) }}] in o.down({n})"
    )


def made(n):
    """So many activities of one object, which nobody asks for anything."""
    return (
        "let w = [; square(s, v) = v * v] in "
        f"let m = [; many(s, k) = if (k == 0) {{ 0 }} else {{ active(w); s.many(k - 1) }}] in m.many({n})"
    )


def pending(n):
    """So many requests to an activity that serves none of them."""
    return (
        "let c = active([; run(s) = serve(last), first(s) = 0, last(s) = 0], run) in "
        f"let m = [; many(s, k) = if (k == 0) {{ 0 }} else {{ c.first(); s.many(k - 1) }}] in m.many({n})"
    )


def loop(n):
    """So many turns of a loop of one activity: a call, a get and a put."""
    return (
        "let o = [sum = 0; add(s, k) = if (k == 0) { s.sum } else { s.sum := s.sum + k; s.add(k - 1) }] in "
        f"print(o.add({n}))"
    )


def broadcast(rounds):
    """A group of 100 activities that is called and waited for, in so many rounds."""
    members = ", ".join(["active(w)"] * 100)
    return (
        f"let w = [; square(s, v) = v * v] in let g = group({members}) in "
        "let m = [; rounds(s, k) = if (k == 0) { 0 } else { waitall(g.square(k)); s.rounds(k - 1) }] in "
        f"m.rounds({rounds})"
    )


def outputs():
    """Output lines of main, without end."""
    yield "asp report 2\nverdict end\nactivity 0 1 done\nsenders\n"
    while True:
        yield "> 1\n"


def activities():
    """Activities that are done, without end."""
    yield "asp report 2\nverdict end\nactivity 0 1 done\nsenders\n"
    number = 1
    while True:
        yield f"activity 0.{number} 1 done\nsenders\n"
        number += 1


def senders():
    """One senders line, without end."""
    yield "asp report 2\nverdict end\nactivity 0 1 done\nsenders"
    while True:
        yield " 0.1"


# Runs


class Folder:
    """A folder for the programs and reports that are measured."""

    def __init__(self, path):
        self.path = path
        self.count = 0

    def new(self):
        self.count += 1
        return os.path.join(self.path, str(self.count))

    def text(self, text):
        """The path of a file with this text."""
        path = self.new()
        with open(path, "w") as file:
            file.write(text)
        return path

    def pieces(self, pieces, size, last):
        """The path of a file of that size with as many of the pieces as fit, and then the last."""
        path, left = self.new(), size - len(last)
        with open(path, "w") as file:
            for piece in pieces:
                left -= len(piece)
                if left < 0:
                    break
                file.write(piece)
            file.write(last)
        return path


def reductions(out):
    return sum(int(line.split()[2]) for line in out if line.startswith(b"activity "))


def once(program, words, output=None):
    with open(output, "w+b") if output else tempfile.TemporaryFile() as out:
        start = time.perf_counter()
        child = subprocess.Popen([program, *words], stdout=out, stderr=subprocess.DEVNULL)
        _, status, usage = os.wait4(child.pid, 0)
        elapsed = time.perf_counter() - start
        child.returncode = os.waitstatus_to_exitcode(status)
        out.seek(0)
        count = reductions(out) if program == PROGRAM else 0
    return Run(usage.ru_utime + usage.ru_stime, usage.ru_maxrss, child.returncode, count, elapsed)


def best(program, words, turns):
    return min((once(program, words) for _ in range(turns)), key=lambda run: run.seconds)


def per_second(run):
    return f"{run.reductions / run.seconds:,.0f} reductions a second"


def show(name, small, large, turns=5, times=2, most=None):
    """The runs under two lists of words, the second of so many times the size, and the most that is wanted."""
    first, second = best(PROGRAM, small, turns), best(PROGRAM, large, turns)
    size = "twice the size" if times == 2 else f"{times} times the size"
    bound = f" (at most {most} is wanted)" if most else ""
    rate = ""
    if second.reductions > max(10_000, first.reductions):
        bytes_each = (second.peak - first.peak) * 1024 / (second.reductions - first.reductions)
        rate = f", {second.reductions:,} reductions, {per_second(second)}, {bytes_each:,.0f} bytes each"
    print(f"{name}: {first.seconds:.3f} s, then {second.seconds:.3f} s at {size}: "
          f"{second.seconds / first.seconds:.2f} times{bound}; status {second.status}{rate}, "
          f"peak {second.peak / 1024:,.0f} MiB", flush=True)
    return first, second


# What is measured


def show_reading(folder):
    half, one = MEBIBYTE // 2, ["--budget", "1"]

    def texts(name, pieces, last, words=()):
        small, large = (folder.pieces(pieces(), size, last) for size in (half, MEBIBYTE))
        show(name, [small, *words], [large, *words])

    texts("reading spaces", lambda: repeat(" " * 64), "7")
    texts("reading a comment", lambda: repeat("//" + "x" * 62), "\n7")
    texts("reading prints", lambda: repeat("print(1); "), "7", one)
    texts("reading fields", fields, "]", one)
    texts("checking fields", fields, "]", ["--check"])


def show_runs(folder):
    def texts(name, text, small, large, **rest):
        show(name, [folder.text(text(small)), *MOST], [folder.text(text(large)), *MOST], **rest)

    texts("a sequence", lambda n: "1;" * n + "7", 25_000, 50_000)
    down = "let o = [; down(s, k) = if (k == 0) { 0 } else { 1 + s.down(k - 1) }] in print(o.down(%d))"
    texts("recursion", lambda n: down % n, 50_000, 100_000, turns=2)
    zero, one = folder.text("repeat(0)"), folder.text("repeat(1)")
    show("repeat", [zero, "--budget", "500000"], [zero, "--budget", "1000000"], turns=2)
    show("ten million", [one, "--budget", "5000000"], [one, *MOST], turns=1)
    texts("pairs from a file", make, 1_000, 2_000, most=2.5)
    _, made = show("pairs by --make", ["--make", "1000", *MOST], ["--make", "2000", *MOST], most=2.5)
    count = best(PROGRAM, [folder.text(make(2_000)), *MOST], 1).reductions
    print(f"2,000 pairs by --make: {count:,} reductions, {per_second(made._replace(reductions=count))}", flush=True)
    texts("one future", crowd, 300, 3_000, times=10)


def show_replays(folder):
    """Each replay beside the run whose report it takes."""
    last = None
    for n in (500, 1_000, 2_000):
        program, report = folder.text(make(n)), folder.new()
        run = best(PROGRAM, [program, *MOST], 5)
        once(PROGRAM, [program, *MOST], report)
        replay = best(PROGRAM, [program, "--replay", report], 5)
        growth = f", {replay.seconds / last:.2f} times that of half the pairs (at most 2.5 is wanted)" if last else ""
        print(f"replay of {n:,} pairs: {replay.seconds:.3f} s, {replay.seconds / run.seconds:.2f} times the run's "
              f"{run.seconds:.3f} s (at most 2 is wanted){growth}; status {replay.status}, "
              f"peak {replay.peak / 1024:,.0f} MiB", flush=True)
        last = replay.seconds


def show_cores(folder):
    """Each run beside the replay of its report, and under each strategy beside the lazy run."""
    for name, text, most in (
        ("a loop", loop(500_000), None),
        ("20,000 pairs", make(20_000), 1.25),
        ("a broadcast to 100", broadcast(100), 1.25),
        ("5,000 that await one", crowd(5_000), None),
    ):
        program, report = folder.text(text), folder.new()
        once(PROGRAM, [program, *MOST], report)
        replay = best(PROGRAM, [program, "--replay", report], 3)
        lazy = best(PROGRAM, [program, *MOST], 3)
        bound = f" (at most {most} is wanted)" if most else ""
        print(f"{name}: {lazy.seconds:.3f} s, {lazy.seconds / replay.seconds:.2f} times its replay{bound}; "
              f"{lazy.reductions:,} reductions, peak {lazy.peak / 1024:,.0f} MiB", flush=True)
        for strategy in ("forward", "message"):
            run = best(PROGRAM, [program, *MOST, "--strategy", strategy], 3)
            print(f"{name}, {strategy}: {run.seconds:.3f} s, {run.seconds / lazy.seconds:.2f} times lazy "
                  f"(at most 2 is wanted); status {run.status}, peak {run.peak / 1024:,.0f} MiB", flush=True)


def show_core_growth(folder):
    """Runs at twice the size, and of one future that goes to many also under the other strategies."""
    def texts(name, text, large, *words):
        half, whole = ([folder.text(text(n)), *MOST, *words] for n in (large // 2, large))
        show(name, half, whole, turns=3, most=2.5)

    for n in (4_000, 20_000):
        texts(f"{n:,} pairs", make, n)
    for strategy in ("lazy", "forward", "message"):
        texts(f"one future to 5,000 activities, {strategy}", crowd, 5_000, "--strategy", strategy)
    texts("100,000 activities that wait", crowd, 100_000)


def show_bytes(folder):
    """What a run's memory grows by, with each of so many more."""
    for name, text, size in (
        ("a pair", make, 10_000),
        ("an activity", made, 50_000),
        ("an activity that waits", crowd, 20_000),
        ("a pending request", pending, 50_000),
    ):
        small, large = (once(PROGRAM, [folder.text(text(n)), *MOST]) for n in (size, 2 * size))
        print(f"{name}: {(large.peak - small.peak) * 1024 / size:,.0f} bytes", flush=True)
    for strategy in ("forward", "message"):
        words = [folder.text(wide(20_000)), *MOST, "--strategy"]
        lazy, other = (once(PROGRAM, [*words, name]) for name in ("lazy", strategy))
        print(f"an edge under {strategy}: {(other.peak - lazy.peak) * 1024 / 20_000:,.0f} bytes", flush=True)


def show_reports(folder):
    """Reports of 8 and of 16 MiB whose last line is bad, so that nothing is replayed: status 9."""
    program = folder.text("7")
    for name, pieces in (("outputs", outputs), ("activities", activities), ("senders", senders)):
        small, large = (folder.pieces(pieces(), size * MEBIBYTE, "\nx\n") for size in (8, 16))
        show(f"reading a report of {name}", [program, "--replay", small], [program, "--replay", large], turns=3)


def show_edges(folder):
    """Edges that are entered, filled and delivered in whole runs, beside the same where none is delivered."""
    for name, text, size in (
        ("one future to 200,000 activities", wide, 200_000),
        ("200,000 futures to one activity", many, 200_000),
        ("200,000 values to one that is out and in", turned, 200_000),
    ):
        words = [[folder.text(text(n)), *MOST] for n in (size // 2, size)]
        runs = {}
        for strategy in ("lazy", "forward", "message"):
            half, whole = ([*of_size, "--strategy", strategy] for of_size in words)
            runs[strategy] = show(f"{name}, {strategy}", half, whole, turns=3, most=2.5)
        for strategy in ("forward", "message"):
            more = runs[strategy][1].seconds - runs["lazy"][1].seconds
            print(f"{name}: a delivery under {strategy} takes {more / size * 1e6:.2f} us", flush=True)


def show_turns(folder):
    """What the turn costs: seats that rest beside one that works, and leases of one contraction or two."""
    zero = folder.text("repeat(0)")
    alone, four = (best(PROGRAM, [zero, "--budget", "10000000", "--workers", str(workers)], 3) for workers in (1, 4))
    print(f"three seats that rest for {four.elapsed:.1f} s: {four.seconds - alone.seconds:.3f} s of the processor "
          f"beside {alone.seconds:.3f} (less than 0.1 is wanted)", flush=True)
    program = folder.text(pending(200_000))
    for workers in (1, 2, 4):
        run = best(PROGRAM, [program, "--budget", "10000000", "--workers", str(workers)], 3)
        print(f"200,000 requests to one that serves none, {workers} workers: {run.seconds:.3f} s of the processor, "
              f"{run.elapsed:.3f} s", flush=True)


PARTS = {
    "reading": show_reading,
    "runs": show_runs,
    "replays": show_replays,
    "cores": show_cores,
    "growth": show_core_growth,
    "bytes": show_bytes,
    "reports": show_reports,
    "edges": show_edges,
    "turns": show_turns,
}


def main():
    wanted = sys.argv[1:] or list(PARTS)
    if not set(wanted) <= set(PARTS):
        sys.exit(f"measure: the parts are {' '.join(PARTS)}")
    if not os.access(PROGRAM, os.X_OK):
        sys.exit(BUILD)
    with tempfile.TemporaryDirectory() as path:
        for name in wanted:
            PARTS[name](Folder(path))


if __name__ == "__main__":
    main()
