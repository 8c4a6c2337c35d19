#!/usr/bin/env python3
"""Measures how the cost of runs and of replays grows: each at a size and at twice the size.

    bench/growth.py [--program PATH] [--turns N] [--scale F] [--words WORDS] [--runs-alone] [--counts] [NAME ..]

With no NAME all are measured: bench/growth.py --list prints the names. WORDS go to each run, and not to
the replays, in place of '--workers 1', as in --words='--workers 1 --strategy message'. A size is multiplied by F, which
may be below 1. The seconds are medians of the processor's seconds of N runs, and what is marked grew to
more than 2.5 times at twice the size, so that it is worth a look: figures depend on the machine, and a
ratio of short runs means little. With --counts the instructions that callgrind counts stand in place of
seconds, in thousands of millions: they are the same each time, and take some fifty times as long.
Nothing here is a test.
"""
import argparse
import os
import re
import statistics
import subprocess
import sys
import tempfile
from itertools import repeat
from typing import NamedTuple

import measure

MOST = ["--budget", "10000000"]
ALLOWED = 2.5
LIMIT = 60  # seconds of the processor, after which a run is stopped
COUNTS = "if (k == 0) { 0 } else"


class Program(NamedTuple):
    name: str
    size: int  # the larger of the two
    text: object  # the program's text at a size
    shows: str  # what is measured
    words: tuple = ()  # further words of the command, of runs and of replays


def joined(pieces):
    return ", ".join(pieces)


# Queues


def newest(n):
    """n pending requests of one label, behind which one of another label is served each time."""
    return (
        f"let c = active([; run(s) = s.many({n}), many(s, k) = {COUNTS} {{ serve(b); s.many(k - 1) }}, "
        "a(s) = 0, b(s) = 0], run) in "
        f"let m = [; old(s, k) = {COUNTS} {{ c.a(); s.old(k - 1) }}, new(s, k) = {COUNTS} {{ c.b(); s.new(k - 1) }}] in "
        f"m.old({n}); m.new({n})"
    )


def asked(n):
    """n polls of a queue of 1,000 pending requests, of which none has the label."""
    return (
        f"let c = active([; run(s) = serve(go), go(s) = s.many({n}), "
        f"many(s, k) = {COUNTS} {{ pending(b); s.many(k - 1) }}, a(s) = 0, b(s) = 0], run) in "
        f"let m = [; old(s, k) = {COUNTS} {{ c.a(); s.old(k - 1) }}] in m.old(1000); c.go()"
    )


def in_turn(n):
    """n requests of each of two labels, that come one behind the other and are served in turn."""
    return (
        f"let c = active([; run(s) = s.many({n}), many(s, k) = {COUNTS} {{ serve(a); serve(b); s.many(k - 1) }}, "
        "a(s) = 0, b(s) = 0], run) in "
        f"let m = [; old(s, k) = {COUNTS} {{ c.a(); s.old(k - 1) }}, new(s, k) = {COUNTS} {{ c.b(); s.new(k - 1) }}] in "
        f"m.new({n}); m.old({n})"
    )


def labels(n, serves):
    """One request for each of n methods, and an activity that serves one of all labels so many times."""
    names = [f"l{k}" for k in range(n)]
    methods = joined(f"{name}(s)=0" for name in names)
    calls = ";".join(f"c.{name}()" for name in names)
    return (
        f"let c = active([; run(s) = s.many({serves}), "
        f"many(s, k) = {COUNTS} {{ serve({joined(names)}); s.many(k - 1) }}, {methods}], run) in {calls}"
    )


def one_by_one(n):
    """n requests that come one by one to an activity that serves another label."""
    return (
        "let c = active([; run(s) = serve(b), a(s) = 0, b(s) = 0], run) in "
        f"let m = active([; old(s, k) = if (k == 0) {{ c.b() }} else {{ c.a(); s.old(k - 1) }}]) in m.old({n})"
    )


# Futures


WAITER = "active([; wait(t, v) = print(v)])"


def own_values(n):
    """n futures of which each is its own value, and each is awaited."""
    return (
        "let b = active([x = 0; m(s) = serve(n); s.x, n(s, v) = s.x := v; 0]) in "
        f"let o = [; many(s, k) = {COUNTS} {{ let f = b.m() in b.n(f); let w = {WAITER} in w.wait(f); "
        f"s.many(k - 1) }}] in o.many({n})"
    )


def circle(n):
    """A circle of n futures, each awaited by an activity."""
    return (
        "let b = active([x = 0; m(s) = serve(n); s.x, n(s, v) = s.x := v; 0]) in "
        f"let o = [; many(s, k, f, first) = let w = {WAITER} in w.wait(f); "
        "if (k == 1) { b.n(first) } else { let g = b.m() in b.n(g); s.many(k - 1, g, first) }] in "
        f"let f = b.m() in o.many({n}, f, f)"
    )


def chain(n):
    """A chain of n unread futures, each awaited by an activity, whose end is filled last."""
    return (
        "let a = active([; one(s) = serve(go); 7, go(s) = 0]) in let b = active([; pass(s, v) = v]) in "
        f"let o = [; many(s, k, f) = {COUNTS} {{ let g = b.pass(f) in let w = {WAITER} in w.wait(g); "
        f"s.many(k - 1, g) }}] in o.many({n}, a.one()); a.go()"
    )


def own_requests(n):
    """n turns of a loop by requests to oneself, while somebody waits for its end."""
    return (
        f"let a = active([me = 0; is(s, r) = s.me := r; 0, m(s, k) = {COUNTS} {{ s.me.m(k - 1) }}]) in "
        f"a.is(a); print(a.m({n}))"
    )


def crowd(n):
    """n activities that wait for one future."""
    return measure.crowd(n)


# Depth


def recursion(n):
    return f"let o = [; down(s, k) = {COUNTS} {{ 1 + s.down(k - 1) }}] in print(o.down({n}))"


def nested(n):
    """n services, each of which serves the next before it ends."""
    return (
        f"let c = active([; down(s, k) = {COUNTS} {{ serve(down); k }}]) in "
        f"let m = [; many(s, k) = c.down(k); {COUNTS} {{ s.many(k - 1) }}] in m.many({n})"
    )


# Sizes


def passive_group(n):
    """A group of n objects is called."""
    members = ",".join(repeat("o", n))
    return f"let o = [; f(s, v) = v] in print(size(group({members}).f(1)))"


def active_group(n):
    """A group of n references is called, and the answers are waited for."""
    members = ",".join(repeat("a", n))
    return f"let a = active([; f(s, v) = v]) in print(size(waitall(group({members}).f(1))))"


def scattered(n):
    """A group of n references is called, each with an answer of its own as the argument."""
    members = ",".join(repeat("a", n))
    return (
        "let a = active([; f(s, v) = v]) in let b = active([; id(s, v) = v]) in "
        f"let g = group({members}) in print(size(waitall(scatter(g, f, waitall(g.f(b.id(1)))))))"
    )


def passed_group(n):
    """A group of n objects in a request, and in its answer."""
    members = ",".join(repeat("[]", n))
    return f"let a = active([; f(s, v) = v]) in print(size(a.f(group({members}))))"


def parcel(n):
    """A parcel of n cells: objects of 99 numbers, in a list."""
    fields = joined(f"f{k} = 0" for k in range(99))
    return (
        "let a = active([; id(s, v) = v]) in "
        f"let o = [; many(s, k, l) = if (k == 0) {{ l }} else {{ s.many(k - 1, [{fields}, next = l]) }}] in "
        f"let r = a.id(o.many({n // 100}, 0)) in print(r.f0)"
    )


def wide_object(n):
    """An object of n fields, of which the last is written n times."""
    fields = ",".join(f"f{k}=1" for k in range(n))
    return f"let o = [{fields}] in let m = [; many(s, k) = {COUNTS} {{ o.f{n - 1} := k; s.many(k - 1) }}] in m.many({n})"


def wide_class(n):
    """An object of n methods, of which the last is called n times."""
    methods = ",".join(f"f{k}(s)=1" for k in range(n))
    return f"let o = [; {methods}] in let m = [; many(s, k) = {COUNTS} {{ o.f{n - 1}(); s.many(k - 1) }}] in m.many({n})"


def wide_server(n):
    """An activity of n methods, that serves as many requests for the last."""
    methods = ",".join(f"f{k}(s)=1" for k in range(n))
    return (
        f"let a = active([; {methods}]) in "
        f"let m = [; many(s, k) = {COUNTS} {{ a.f{n - 1}(); s.many(k - 1) }}] in m.many({n})"
    )


def members(n, member):
    """Main ends with a group of n members."""
    return f"let o = [x = 1] in group({','.join(repeat(member, n))})"


PROGRAMS = [
    Program("newest", 20_000, newest, "pending requests, and the newest label is served"),
    Program("polls", 100_000, asked, "polls of a queue of 1,000 requests"),
    Program("in_turn", 20_000, in_turn, "pending requests of two labels, served in turn"),
    Program("one_serve", 20_000, lambda n: labels(n, 1), "labels pending under one serve of them all"),
    Program("all_serves", 2_000, lambda n: labels(n, n), "labels pending, and all are served by a serve of them all"),
    Program("one_by_one", 20_000, one_by_one, "requests of another label, one by one to a serve"),
    Program("own_values", 10_000, own_values, "futures that are their own value, each awaited"),
    Program("circle", 10_000, circle, "futures in a circle, each awaited"),
    Program("chain", 10_000, chain, "unread futures in a chain, each awaited"),
    Program("own_requests", 40_000, own_requests, "requests to oneself, and somebody waits for the last"),
    Program("crowd", 10_000, crowd, "activities that wait for one future"),
    Program("recursion", 400_000, recursion, "calls deep"),
    Program("nested", 40_000, nested, "services deep"),
    Program("passive_group", 200_000, passive_group, "objects in a group, called"),
    Program("active_group", 100_000, active_group, "references in a group, called and waited for"),
    Program("scattered", 100_000, scattered, "references in a group, called twice, by scatter"),
    Program("passed_group", 200_000, passed_group, "objects in a group, passed and answered"),
    Program("parcel", 1_000_000, parcel, "cells of a parcel, passed and answered"),
    Program("wide_object", 80_000, wide_object, "fields of an object, the last written as often"),
    Program("wide_server", 4_000, wide_server, "methods of an activity, the last asked for as often"),
    Program("wide_class", 80_000, wide_class, "methods of an object, the last called as often"),
    Program("places", 160_000, lambda n: members(n, "[x=1]"), "objects in a group, shown", ("--state", "4")),
    Program("one_place", 400_000, lambda n: members(n, "o"), "times one object in a group, shown", ("--state", "4")),
]

# Bodies: what holds a body, of which another branch runs, by the number of turns and the body


BODIES = {
    "call": lambda n, body: f"let o = [; m(s, k) = {COUNTS} {{ if (k) {{ s.m(k - 1) }} else {{ {body} }} }}] in o.m({n})",
    "repeat": lambda n, body: f"repeat(if (1) {{ 1 }} else {{ {body} }})",
    "let": lambda n, body: f"let o = [; m(s, k) = {COUNTS} "
    f"{{ let x = k - 1 in if (k) {{ s.m(x) }} else {{ {body} }} }}] in o.m({n})",
    "clone": lambda n, body: f"let b = [; big(s) = {body}] in "
    f"let o = [; m(s, k) = {COUNTS} {{ clone(b); s.m(k - 1) }}] in o.m({n})",
    "object": lambda n, body: f"let o = [; m(s, k) = {COUNTS} {{ [; big(t) = {body}]; s.m(k - 1) }}] in o.m({n})",
    "active": lambda n, body: f"let b = [; big(s) = {body}] in "
    f"let o = [; m(s, k) = {COUNTS} {{ active(b); s.m(k - 1) }}] in o.m({n})",
    "sent": lambda n, body: f"let b = [; big(s) = {body}] in let a = active([; take(s, v) = 0]) in "
    f"let o = [; m(s, k) = {COUNTS} {{ a.take(b); s.m(k - 1) }}] in o.m({n})",
    "answered": lambda n, body: f"let a = active([; make(s) = [; big(t) = {body}]]) in "
    f"let o = [; m(s, k) = {COUNTS} {{ a.make(); s.m(k - 1) }}] in o.m({n})",
}
TURNS = {"active": 100_000, "sent": 200_000, "answered": 200_000}


def body(size):
    return "1" + ";1" * (size // 2)


# Measuring


def counted(program, words):
    """A run whose seconds are the instructions that callgrind counts, in thousands of millions."""
    call = ["valgrind", "--tool=callgrind", "--callgrind-out-file=/dev/null", program, *words]
    child = subprocess.run(call, stdout=subprocess.DEVNULL, stderr=subprocess.PIPE)
    count = int(re.search(rb"Collected : (\d+)", child.stderr)[1]) / 1e9
    return measure.Run(count, 0, child.returncode, 0, 0)


def median(options, words):
    """The run whose seconds are the median, or None where one was refused or stopped."""
    if options.counts:
        runs = [counted(options.program, words)]
    else:
        limited = [f"--cpu={LIMIT}", options.program, *words]
        runs = [measure.once("prlimit", limited) for _ in range(options.turns)]
    if any(run.status not in (0, 1, 4, 5) for run in runs):
        return None
    middle = statistics.median(run.seconds for run in runs)
    return min(runs, key=lambda run: abs(run.seconds - middle))._replace(seconds=middle)


def seconds(run):
    return f"{run.seconds:9.3f}" if run else f"{'none':>9}"


def ratio(small, large):
    if not small or not large:
        return f"{'':>7}", f"  <-- refused, or stopped after {LIMIT} s"
    times = large.seconds / small.seconds
    return f"{times:7.2f}", "  <-- more than 2.5" if times > ALLOWED else ""


def show_growth(folder, program, options):
    size = max(2, int(program.size * options.scale))
    texts = [folder.text(program.text(n)) for n in (size // 2, size)]
    runs = [median(options, [text, *MOST, *options.words, *program.words]) for text in texts]
    times, mark = ratio(*runs)
    line = f"{size:>9,} {program.shows:<56}{seconds(runs[0])}{seconds(runs[1])}{times}"
    if not options.runs_alone:
        reports = [folder.new() for _ in texts]
        for text, report in zip(texts, reports):
            measure.once(options.program, [text, *MOST, *options.words, *program.words], report)
        replays = [median(options, [text, "--replay", report, *program.words]) for text, report in zip(texts, reports)]
        times, other = ratio(*replays)
        line += f"{seconds(replays[0])}{seconds(replays[1])}{times}"
        mark = mark or other
    peak = f"{runs[1].peak / 1024:8,.0f}" if runs[1] else f"{'':>8}"
    print(f"{line}{peak}{mark}", flush=True)


def turn(folder, name, size, turns, options):
    """Nanoseconds of a turn beside a body of that size: the reading of the text is not in them."""
    text = folder.text(BODIES[name](turns, body(size)))
    words = ["--budget", str(turns * 5)] if name == "repeat" else MOST
    run, read = (median(options, [text, *of, *options.words]) for of in (words, ["--budget", "1"]))
    return (run.seconds - read.seconds) / turns * 1e9, run.peak - read.peak


def show_bodies(folder, options):
    print(f"\n{'turns':>9} {'of a loop, beside a body that does not run: ns a turn':<56}"
          f"{'1 KB':>9}{'1 MB':>9}{'times':>7}{'MiB':>9}{'MiB':>9}")
    for name in BODIES:
        turns = max(10, int(TURNS.get(name, 1_000_000) * options.scale))
        (small, least), (large, most) = (turn(folder, name, size, turns, options) for size in (1_000, 1_000_000))
        mark = f"  <-- more than {ALLOWED}" if large > ALLOWED * small else ""
        print(f"{turns:>9,} {name:<56}{small:9,.0f}{large:9,.0f}{large / small:7.2f}"
              f"{least / 1024:9,.0f}{most / 1024:9,.0f}{mark}", flush=True)


def words():
    parser = argparse.ArgumentParser(description=__doc__, formatter_class=argparse.RawDescriptionHelpFormatter)
    parser.add_argument("--program", default=measure.PROGRAM)
    parser.add_argument("--turns", type=int, default=3)
    parser.add_argument("--scale", type=float, default=1.0)
    parser.add_argument("--words", type=str.split, default=["--workers", "1"])
    parser.add_argument("--runs-alone", action="store_true")
    parser.add_argument("--counts", action="store_true")
    parser.add_argument("--list", action="store_true")
    parser.add_argument("names", nargs="*")
    return parser.parse_args()


def main():
    options = words()
    names = [program.name for program in PROGRAMS] + ["bodies"]
    if options.list:
        sys.exit(print(*names))
    if not set(options.names) <= set(names):
        sys.exit(f"growth: the names are {' '.join(names)}")
    if not os.access(options.program, os.X_OK):
        sys.exit(measure.BUILD)
    measure.PROGRAM = options.program
    wanted = options.names or names
    with tempfile.TemporaryDirectory() as path:
        folder = measure.Folder(path)
        print(f"{'size':>9} {'':<56}{'run':>9}{'at size':>9}{'times':>7}{'replay':>9}{'at size':>9}{'times':>7}{'MiB':>8}")
        for program in PROGRAMS:
            if program.name in wanted:
                show_growth(folder, program, options)
        if "bodies" in wanted:
            show_bodies(folder, options)


if __name__ == "__main__":
    main()
