#!/usr/bin/env python3
"""Makes programs from numbers, and runs them.

    bench/programs.py SEED SIZE               prints the program of that seed and size
    bench/programs.py --runs N [START]        makes N programs, from the seed START on, and runs each
    bench/programs.py --rests N [START]       tells of N programs how their runs by one worker rest

A program has two to six activities beside main, some with a term of their own that chooses what it serves, and
every construct of the language: objects that capture, groups, services in services, futures that pass unread, polls.
Its size is about how many expressions it has. With --no-polls it asks nowhere what is pending.

Each program is run by 1, 2, 4 and 64 workers under each strategy, within a budget. Each report is replayed, and the
replay has to give the same bytes and the same status; and two runs that end with equal logs have to print the same.
It takes the program that `rt ci` built, or the one that ASP names. A run has 60 seconds. What failed is printed with
the words that repeat it, and the status is then 1.
"""
import argparse
import collections
import os
import random
import sys
import tempfile

from soak import STRATEGIES, run

WORKERS = [1, 2, 4, 64]
BUDGET = 20_000
SIZES = [10, 30, 100]
# the methods that a request may ask for, and how many arguments each has beside self
ARITIES = {"tell": 2, "ask": 1, "send": 2, "meet": 1, "look": 0, "spin": 1, "keep": 1, "give": 0}
ENDED = (0, 1, 4)


class Scope:
    """What a term may name: numbers, which may be futures; objects with a field v; activities that may be asked."""

    def __init__(self, numbers=(), objects=(), friends=(), is_method=False):
        self.numbers = list(numbers)
        self.objects = list(objects)
        self.friends = list(friends)
        self.is_method = is_method

    def with_number(self, name):
        return Scope([*self.numbers, name], self.objects, self.friends, self.is_method)

    def of_method(self, *parameters):
        return Scope([*self.numbers, *parameters], self.objects, self.friends, True)


class Maker:
    """A program, by chance. No activity waits for one that was created later, so most runs end."""

    def __init__(self, seed, size, polls=True):
        self.chance = random.Random(f"{seed} {size}")
        self.left = size
        self.polls = polls
        self.names = 0

    def name(self, begins):
        self.names += 1
        return f"{begins}{self.names}"

    def labels(self):
        labels = [label for label in ARITIES if label != "meet"]
        return ", ".join(self.chance.sample(labels, self.chance.randint(1, 3)))

    # Numbers

    def number(self, scope, depth=0):
        """An expression whose value is a number, or a future of one."""
        self.left -= 1
        if self.left < 0 or depth > 4:
            return self.leaf(scope)
        kinds = [self.leaf, self.sign, self.choice, self.named, self.written, self.made, self.grouped, self.cloned]
        if scope.friends:
            kinds += [self.asked, self.asked_all, self.given]
        if scope.is_method:
            kinds += [self.served, self.stored]
        if self.polls:
            kinds += [self.polled]
        kind = self.chance.choice(kinds)
        return kind(scope) if kind == self.leaf else kind(scope, depth + 1)

    def leaf(self, scope):
        names = [*scope.numbers, *(["s.n"] if scope.is_method else [])]
        if names and self.chance.random() < 0.6:
            return self.chance.choice(names)
        return str(self.chance.randint(0, 9))

    def sign(self, scope, depth):
        sign = self.chance.choice(["+", "-", "*", "<", "=="])
        if self.chance.random() < 0.3:
            return f"({self.number(scope, depth)} {self.chance.choice('/%')} {self.chance.randint(1, 9)})"
        both = f"({self.number(scope, depth)} {sign} {self.number(scope, depth)})"
        return f"({both} % 1009)" if sign == "*" else both

    def choice(self, scope, depth):
        term = self.number(scope, depth)
        return f"if ({term}) {{ {self.number(scope, depth)} }} else {{ {self.number(scope, depth)} }}"

    def named(self, scope, depth):
        name = self.name("x")
        value = self.number(scope, depth)
        return f"(let {name} = {value} in {self.number(scope.with_number(name), depth)})"

    def written(self, scope, depth):
        if self.chance.random() < 0.5:
            return f"print({self.number(scope, depth)})"
        return f'(echo("{self.name("e")}"); {self.number(scope, depth)})'

    def object(self, scope, depth):
        """An object with a field v and a method get, which captures what is around it."""
        name = self.name("o")
        body = self.number(scope.with_number(f"{name}.v"), depth)
        return f"[v = {self.number(scope, depth)}; get({name}) = {body}]"

    def made(self, scope, depth):
        return f"{self.object(scope, depth)}.get()"

    def cloned(self, scope, depth):
        if scope.objects and self.chance.random() < 0.7:
            return f"clone({self.chance.choice(scope.objects)}).get()"
        return f"(clone({self.object(scope, depth)}).v := {self.number(scope, depth)}).get()"

    def group(self, scope, depth):
        count = self.chance.randint(1, 3)
        return f"group({', '.join(self.number(scope, depth) for _ in range(count))})", count

    def grouped(self, scope, depth):
        group, count = self.group(scope, depth)
        kind = self.chance.randrange(3)
        if kind == 0:
            return f"size({group})"
        if kind == 1:
            group = f"waitall({group})"
        return f"member({group}, {self.chance.randrange(count)})"

    # Others

    def asked(self, scope, depth):
        return f"{self.chance.choice(scope.friends)}.ask({self.number(scope, depth)})"

    def asked_all(self, scope, depth):
        friends = [self.chance.choice(scope.friends) for _ in range(self.chance.randint(1, 3))]
        if self.chance.random() < 0.5:
            call = f"group({', '.join(friends)}).ask({self.number(scope, depth)})"
        else:
            values = ", ".join(self.number(scope, depth) for _ in friends)
            call = f"scatter(group({', '.join(friends)}), ask, group({values}))"
        if self.chance.random() < 0.5:
            call = f"waitall({call})"
        return f"member({call}, {self.chance.randrange(len(friends))})"

    def given(self, scope, depth):
        friend = self.chance.choice(scope.friends)
        if self.chance.random() < 0.5:
            return f"({friend}.keep({self.object(scope, depth)}); {friend}.give().v)"
        return f"{friend}.give().get()"

    # What an activity does by itself

    def polled(self, scope, depth):
        labels = "" if self.chance.random() < 0.3 else self.labels()
        poll = f"pending({labels})"
        if scope.is_method and self.chance.random() < 0.6:
            taken = f"serve({labels}); {self.number(scope, depth)}"
            return f"if ({poll}) {{ {taken} }} else {{ {self.number(scope, depth)} }}"
        return poll

    def served(self, scope, depth):
        # without a poll it may wait for ever
        if self.chance.random() < 0.1:
            return f"(serve({self.labels()}); {self.number(scope, depth)})"
        return f"s.spin({self.chance.randint(0, 4)})"

    def stored(self, scope, depth):
        if self.chance.random() < 0.5:
            return f"(s.n := {self.number(scope, depth)}; s.n)"
        return f"(s.kept := {self.object(scope, depth)}; s.kept.get())"

    # Activities

    def methods(self, scope):
        v, vk = scope.of_method("v"), scope.of_method("v", "k")
        spin = "if (k < 1) { s.n } else { s.n := s.n + k; s.spin(k - 1) }"
        send = "if (k < 1) { print(v) } else { s.peer.send(v, k - 1); 0 }"
        on = f"s.peer.tell({self.number(vk)}, k - 1); {self.number(vk)}"
        go_on = f"if (k < 1) {{ {self.number(vk)} }} else {{ {on} }}"
        return ", ".join([
            f"tell(s, v, k) = {go_on}",
            f"ask(s, v) = {self.number(v)}",
            f"send(s, v, k) = {send}",
            "meet(s, other) = s.peer := other; 0",
            f"look(s) = {self.number(scope.of_method())}",
            f"spin(s, k) = {spin}",
            "keep(s, o) = s.kept := o; 0",
            "give(s) = s.kept",
            f"run(s) = serve(meet); repeat({self.step()})",
        ])

    def step(self):
        steps = ["serve()", "serve()", f"serve({self.labels()}); serve()"]
        if self.polls:
            labels = self.labels()
            steps += [
                f"if (pending({labels})) {{ serve({labels}) }} else {{ serve() }}",
                "if (pending()) { serve() } else { s.n := s.n + 1; serve() }",
            ]
            # it never rests
            if self.chance.random() < 0.1:
                steps += ["if (pending()) { serve() } else { s.n := s.n + 1 }"]
        return self.chance.choice(steps)

    def activity(self, scope):
        kept = self.object(scope, 3)
        fields = f"n = {self.chance.randint(0, 9)}, kept = {kept}, peer = 0"
        own = ", run" if self.chance.random() < 0.4 else ""
        return f"active([{fields}; {self.methods(scope)}]{own})"

    # Main

    def statement(self, scope, names):
        self.left -= 1
        to = self.chance.choice(names)
        hops = self.chance.randint(0, 4)
        return self.chance.choice([
            lambda: f"{to}.tell({self.number(scope)}, {hops})",
            lambda: f"{to}.send({self.number(scope)}, {hops})",
            lambda: f"{to}.look()",
            lambda: f"group({to}, {self.chance.choice(names)}).tell({self.number(scope)}, {hops})",
            lambda: f"print({self.number(scope)})",
            lambda: f"{to}.keep({self.object(scope, 2)})",
            lambda: f"waitall(group({to}.look(), {self.number(scope)}))",
        ])()

    def program(self):
        size = self.left
        names, lines = [], []
        count = self.chance.randint(2, 6)
        self.left = size
        for at in range(count):
            rest = self.left - self.left // (count - at)
            self.left //= count - at
            name = self.name("a")
            lines.append(f"let {name} = {self.activity(Scope(friends=names))} in")
            self.left = rest
            names.append(name)
        for name in names:
            lines.append(f"{name}.meet({self.chance.choice(names)});")
        self.left = max(size // 2, 8)
        scope = Scope(friends=names)
        # futures that nobody has read yet
        while self.left > 0:
            if self.chance.random() < 0.3:
                name = self.name("f")
                lines.append(f"let {name} = {self.asked(scope, 2)} in")
                scope = scope.with_number(name)
            lines.append(f"{self.statement(scope, names)};")
        lines.append(f"print({self.number(scope)})")
        return "\n".join(lines) + "\n"


def make(seed, size, polls=True):
    """The program of a seed and a size."""
    return Maker(seed, size, polls).program()


def logs_of(report):
    """The names and the logs that a report shows."""
    lines = report.split(b"\n")
    return tuple(line.split()[1] if line.startswith(b"activity") else line for line in lines
                 if line.startswith((b"activity", b"senders")))


def failures(file, report, seen):
    """The words and the reason of each run of a program that is not as it has to be."""
    for workers in WORKERS:
        for strategy in STRATEGIES:
            words = [file, "--workers", str(workers), "--strategy", strategy, "--budget", str(BUDGET)]
            one = run(words)
            if one.returncode not in (*ENDED, 5) or one.stderr:
                yield words, f"status {one.returncode} {one.stderr[:80]!r}"
                continue
            with open(report, "wb") as to:
                to.write(one.stdout)
            other = run([file, "--replay", report])
            if (other.returncode, other.stdout) != (one.returncode, one.stdout):
                yield words, f"another replay, status {other.returncode} {other.stderr[:80]!r}"
            if one.returncode in ENDED and seen.setdefault(logs_of(one.stdout), one.stdout) != one.stdout:
                yield words, "equal logs, and another report"


def soak(runs, start, polls):
    failed = 0
    with tempfile.TemporaryDirectory() as folder:
        file, report = os.path.join(folder, "a.asp"), os.path.join(folder, "report")
        for seed in range(start, start + runs):
            size = SIZES[seed % len(SIZES)]
            with open(file, "w") as to:
                to.write(make(seed, size, polls))
            for words, why in failures(file, report, {}):
                failed += 1
                print(f"{why}: {seed} {size}: {' '.join(words[1:])}", flush=True)
            if seed % 100 == 99:
                print(f"{seed + 1 - start} programs, {failed} failed", flush=True)
    print(f"{runs} programs from the seed {start}, {failed} failed")
    return failed


def rests(runs, start, polls):
    """How many runs by one worker have each status, and how many activities each status of theirs."""
    statuses, activities = collections.Counter(), collections.Counter()
    with tempfile.TemporaryDirectory() as folder:
        file = os.path.join(folder, "a.asp")
        for seed in range(start, start + runs):
            with open(file, "w") as to:
                to.write(make(seed, SIZES[seed % len(SIZES)], polls))
            one = run([file, "--workers", "1", "--budget", str(BUDGET)])
            statuses[one.returncode] += 1
            for line in one.stdout.split(b"\n"):
                if line.startswith(b"activity"):
                    activities[b" ".join(line.split()[3:4]).decode()] += 1
            if one.stderr:
                print(seed, SIZES[seed % len(SIZES)], one.stderr.decode().strip())
    print(dict(statuses), dict(activities))


def main():
    parser = argparse.ArgumentParser(description="Makes programs from numbers, and runs them.")
    parser.add_argument("numbers", nargs="*", type=int)
    parser.add_argument("--runs", type=int)
    parser.add_argument("--rests", type=int)
    parser.add_argument("--no-polls", action="store_true")
    words = parser.parse_args()
    polls = not words.no_polls
    if words.runs is not None:
        sys.exit(1 if soak(words.runs, words.numbers[0] if words.numbers else 0, polls) else 0)
    if words.rests is not None:
        rests(words.rests, words.numbers[0] if words.numbers else 0, polls)
        return
    seed, size = words.numbers
    sys.stdout.write(make(seed, size, polls))


if __name__ == "__main__":
    main()
