#!/usr/bin/env python3
"""Finds how much stack the deepest programs take: of each kind of node, nested as deep as the checker allows.

    bench/stacks.py [--most KB] [NAME ..]     at most so much is to be taken (512); all kinds with no NAME

It takes the program that `rt ci` built, or the one that ASP names. Each program is checked,
run, replayed and so on under a limit of stack (`ulimit -s`) that is halved and doubled until the least multiple of 8 KB
is found under which the command ends as it does under the usual limit. Printed are the depth, the least limit of the
worst command, and that command. Behind them come programs that are not deep but whose runs are: calls, services, lists,
names. The status is 1 if a command ends by a signal at the limit of --most.
"""
import argparse
import os
import resource
import subprocess
import sys
import tempfile
from typing import NamedTuple

HERE = os.path.dirname(os.path.dirname(os.path.abspath(__file__)))
ASP = os.environ.get("ASP", os.path.join(HERE, "crates/asp/out/asp"))
EXPLAIN, OUTCOMES = [ASP, "--explain"], [ASP, "--outcomes"]
STEP = 8  # KB
BUDGET = ["--budget", "2000"]


class Kind(NamedTuple):
    name: str
    opens: str
    middle: str
    closes: str
    front: str = ""

    def text(self, depth):
        return self.front + self.opens * depth + self.middle + self.closes * depth


KINDS = [
    Kind("brackets", "(", "7", ")"),
    Kind("objects in fields", "[a=", "7", "]"),
    Kind("objects in methods", "[; m(s) = ", "7", "]"),
    Kind("sequences in methods", "[; m(s, v) = 1; ", "7", "]"),
    Kind("methods with captures", "[; m(s, v) = o; v; ", "7", "]", "let o = [] in "),
    Kind("calls in arguments", "o.m(", "7", ")", "let o = [; m(s, v) = v] in "),
    Kind("calls on calls", "", "o", ".m()", "let o = [; m(s) = s] in "),
    Kind("requests in arguments", "a.m(", "7", ")", "let a = active([; m(s, v) = v]) in "),
    Kind("fields of fields", "", "o", ".f", "let o = [f = 0] in o.f := o; "),
    Kind("fields that are set", "o.f := ", "7", "", "let o = [f = 0] in "),
    Kind("lets in values", "let x = ", "7", " in x"),
    Kind("lets in bodies", "let x = 7 in ", "x", ""),
    Kind("sequences, last", "(1; ", "7", ")"),
    Kind("sequences, first", "(", "7", "; 1)"),
    Kind("sequences in print", "print(1; ", "7", ")"),
    Kind("sequences in branches", "if (1) { 1; ", "7", " } else { 1 }"),
    Kind("sequences in groups", "group(1; ", "7", ")"),
    *(Kind(f"{sign} from the left", "", "1", f" {sign} 1") for sign in "+-*/%"),
    *(Kind(f"{sign} from the right", f"(1 {sign} ", "1", ")") for sign in ["+", "*", "%", "<", "=="]),
    Kind("if, the number", "if (", "1", ") { 1 } else { 1 }"),
    Kind("if, the first branch", "if (1) { ", "1", " } else { 1 }"),
    Kind("if, the second branch", "if (0) { 1 } else { ", "1", " }"),
    Kind("clone", "clone(", "[]", ")"),
    Kind("active", "active(", "[]", ")"),
    Kind("objects in active", "active([a = ", "7", "])"),
    Kind("repeat", "repeat(", "1", ")"),
    Kind("print", "print(", "1", ")"),
    Kind("group", "group(", "1", ")"),
    Kind("group, last", "group(1, ", "1", ")"),
    Kind("size", "size(", "group()", ")"),
    Kind("member", "member(group(", "1", "), 0)"),
    Kind("waitall", "waitall(group(", "1", "))"),
    Kind("scatter, members", "scatter(", "group()", ", m, group())"),
    Kind("scatter, arguments", "scatter(group(), m, ", "group()", ")"),
    Kind("mixed", "[; m(s, v) = let x = if (v) { group(s.m(", "1", ")) } else { v } in x]"),
]

COUNTS = "if (k == 0) { 0 } else"
RUNS = {
    "calls": f"let o = [; down(s, k) = {COUNTS} {{ 1 + s.down(k - 1) }}] in print(o.down(50000))",
    "services": f"let c = active([; down(s, k) = {COUNTS} {{ serve(down); k }}]) in "
    f"let m = [; many(s, k) = c.down(k); {COUNTS} {{ s.many(k - 1) }}] in m.many(10000)",
    "a list that is passed": "let a = active([; id(s, v) = v]) in "
    "let o = [; many(s, k, l) = if (k == 0) { l } else { s.many(k - 1, [x = k, next = l]) }] in "
    "let r = a.id(o.many(50000, 0)) in print(r.x)",
    "groups in groups": "let a = active([; id(s, v) = v]) in "
    "let o = [; many(s, k, l) = if (k == 0) { l } else { s.many(k - 1, group(l)) }] in "
    "let r = a.id(o.many(50000, 0)) in print(size(r))",
    "names": f"let o = [; go(s, k) = {COUNTS} {{ let b = active(s) in b.go(k - 1) }}] in o.go(500)",
    "futures in a chain": "let a = active([; one(s) = serve(go); 7, go(s) = 0]) in "
    "let b = active([; pass(s, v) = v]) in "
    "let o = [; many(s, k, f) = if (k == 0) { f } else { s.many(k - 1, b.pass(f)) }] in "
    "let f = o.many(5000, a.one()) in a.go(); print(f)",
}


def ends(words, kilobytes):
    """The status under that limit of stack, or under the usual one."""

    def narrow():
        if kilobytes:
            resource.setrlimit(resource.RLIMIT_STACK, (kilobytes * 1024, kilobytes * 1024))

    with open("shown", "wb") as out:
        return subprocess.run(
            words, stdin=subprocess.DEVNULL, stdout=out, stderr=subprocess.DEVNULL, preexec_fn=narrow, check=False
        ).returncode


def commands(budget):
    """The commands that a program is tried by; what they read is made first."""
    for name, words in (("r", [*budget, "--workers", "1"]), ("t", ["--journal", *budget, "--workers", "1"])):
        ends([ASP, "a.asp", *words], None)
        os.replace("shown", name)
    yield "--check", [ASP, "a.asp", "--check"]
    yield "1 worker", [ASP, "a.asp", "--workers", "1", *budget]
    yield "4 workers", [ASP, "a.asp", *budget]
    yield "--update", [ASP, "a.asp", "--strategy", "message", *budget]
    yield "--state 4", [ASP, "a.asp", "--workers", "1", "--state", "4", *budget]
    yield "--replay", [ASP, "a.asp", "--replay", "r"]
    yield "--same", [ASP, "a.asp", "--replay", "r", "--same", "r"]
    yield "--trace", [ASP, "a.asp", "--trace", "t", *budget]
    yield "asp-explain FILE", [*EXPLAIN, "a.asp"]
    yield "asp-explain FILE REPORT", [*EXPLAIN, "a.asp", "r"]
    yield "asp-outcomes", [*OUTCOMES, "a.asp", "--ends", "10", *budget]


def least(words, floor, most):
    """The least limit of at least that floor, or None if that of --most is not enough."""
    own = ends(words, None)
    if ends(words, floor) == own:
        return floor
    if ends(words, most) != own:
        return None
    low, high = floor, most
    while high - low > STEP:
        middle = (low + high) // (2 * STEP) * STEP
        low, high = (low, middle) if ends(words, middle) == own else (middle, high)
    return high


def needs(budget, most):
    """The worst command and its least limit, which is None if that of --most is not enough."""
    worst, name = 2 * STEP, "any"
    for command, words in commands(budget):
        one = least(words, worst, most)
        if one is None:
            return None, command
        if one > worst:
            worst, name = one, command
    return worst, name


def write(text):
    with open("a.asp", "w", encoding="ascii") as file:
        file.write(text)


def is_checked(text):
    write(text)
    return ends([ASP, "a.asp", "--check"], None) == 0


def deepest(kind):
    return max(depth for depth in range(1, 202) if depth == 1 or is_checked(kind.text(depth)))


def show(name, depth, found):
    limit, command = found
    told = f"{limit:>5} KB" if limit else "    more"
    print(f"{name:<24} {depth:>6}  {told}  {command}", flush=True)
    return 0 if limit else 1


def main():
    parser = argparse.ArgumentParser(description=__doc__, formatter_class=argparse.RawDescriptionHelpFormatter)
    parser.add_argument("--most", type=int, default=512)
    parser.add_argument("names", metavar="NAME", nargs="*")
    options = parser.parse_args()
    wrong = 0
    with tempfile.TemporaryDirectory() as folder:
        os.chdir(folder)
        for kind in KINDS:
            if not options.names or kind.name in options.names:
                depth = deepest(kind)
                write(kind.text(depth))
                wrong += show(kind.name, depth, needs(BUDGET, options.most))
        for name, text in RUNS.items():
            if not options.names or name in options.names:
                write(text)
                wrong += show(name, "", needs([], options.most))
        os.chdir(HERE)
    sys.exit(1 if wrong else 0)


if __name__ == "__main__":
    main()
