#!/usr/bin/env python3
"""Goes on from hostile checkpoints of a size: what is answered, in what time, and in how much memory.

    bench/hostile.py [--size MIB] [--within SECONDS] [--memory MB] [--stack KB] [NAME ..]     all kinds with no NAME

It takes the program that `rt ci` built, or the one that ASP names. Each kind of file is written so large (16 MiB with no
--size; 256 are the most that is read, but most kinds weigh too much above 100) and gone on from with `--budget 1`, under
512 KB of stack (--stack). Printed are the status, the seconds of the processor, and the memory. Then come terms of 200
levels, or of 160 methods, nested in each place of each kind of node: they are gone on from and saved again; those of one
level more get status 8. Its status is 1 if a file takes more than --within (10) or --memory (8000), ends in another way
than a file may, or a term is not as it should be.
"""
import argparse
import os
import resource
import subprocess
import sys
import tempfile

HERE = os.path.dirname(os.path.dirname(os.path.abspath(__file__)))
PROGRAM = os.environ.get("ASP", os.path.join(HERE, "crates/asp/out/asp"))
LEVELS = 200
METHODS = 160
ANSWERS = (1, 5, 8, 11)  # a fault, the budget, want of memory, refused

SOURCE = "print(1 + 2); repeat(0)\n"
TITLE = "asp checkpoint 1\nprogram print ( 1 + 2 ) ; repeat ( 0 )\n"
NONE = "homes 0\nfilled 0\n"
WAITS = " 1 14 3 0"  # what is reduced next: repeat(0)
OBJECT = " 1 1 0 0 0"  # a store of one empty object, which is the active one
METHOD = " 1 0 1 1 109 1 115 0"  # an object of one method, up to the method's body


def main_line(inner, counts="5 0 0"):
    return f"activity 1 0 {counts}{inner}\n"


def rows(size, front, piece, back):
    """One activity, with as many of a piece as the size allows, behind how many there are."""
    count = size // len(piece)
    return TITLE + NONE + main_line(f"{front} {count}" + piece * count + back) + "end\n"


def lines(size, piece):
    count = min(size // len(piece), 9_999_999)
    return TITLE + NONE + main_line(f" {count}" + piece * count + " 0 0 0 0" + WAITS + OBJECT, f"{count} 0 0") + "end\n"


def cells(size, piece, each=1, front="", before=0):
    """A store of an empty object and then as many of a piece, each of so many cells."""
    count = size // len(piece)
    store = f" {1 + before + count * each} 1 0 0{front}" + piece * count
    return TITLE + NONE + main_line(f" 0 0 0 0 0{WAITS}{store} 0") + "end\n"


def labelled(size):
    """Objects of one field, of 6,760 labels."""
    text = "".join(f" 1 1 3 {97 + k % 26} {97 + k // 26 % 26} {48 + k // 676} 0 0" for k in range(6760))
    return cells(size, text, 6760)


def methods(size, body, places=0):
    """Objects of one method each, behind so many numbers."""
    return cells(size, f"{METHOD} {body}", 1, " 0 5" * places, places)


def capturing(size):
    """Objects in objects, each of which captures all parameters of the outermost method."""
    names = [f"2 {97 + k // 26} {97 + k % 26}" for k in range(64)]
    used = "".join(f" 2 {name}" for name in names)
    nested = "4 0 1 1 109 1 115 0 " * 60
    return cells(size, f" 1 0 1 1 109 1 115 64 {' '.join(names)} {nested}12 64{used}")


def inside(size, levels, front, piece, back=""):
    """Objects of one method in each other, of which the innermost has as many of a piece as the size allows."""
    count = max(1, min(size // len(piece), 1_000_000))
    one = "4 0 1 1 109 1 115 0 " * levels
    text = f" 1 0 1 1 109 1 115 {front} {one}12 {count}" + piece * count + back
    return cells(max(size, len(text)), text)


def named(count, kind=""):
    """So many different names, each of three letters, as parameters or as variables."""
    return "".join(f"{kind} 3 {97 + k % 26} {97 + k // 26 % 26} {97 + k // 676}" for k in range(count))


def places(size):
    """A context with a hole in front of as many different places as the size allows."""
    count = min(size // 16, 1_000_000)
    store = f" {count + 1} 1 0 0" + " 0 5" * count
    term = f" 12 {count + 1} 1" + "".join(f" 0 {k}" for k in range(1, count + 1))
    return TITLE + NONE + main_line(f" 0 0 0 0 0 2 14 3 0{term}{store} 0") + "end\n"


def lets(size):
    """A method of many parameters, with a `let` for each."""
    count = min(size // 32, 17_000)
    text = f"{METHOD[:-2]} {count}{named(count)} 12 {count}" + " 11 1 120 3 1 3 1" * count
    return cells(max(size, len(text)), text)


def mentions(size):
    """A method of many parameters, each of which it mentions."""
    count = min(size // 32, 17_000)
    return cells(size, f"{METHOD[:-2]} {count}{named(count)} 12 {count}{named(count, ' 2')}")


def long_names(size):
    """A long name that all methods in each other capture."""
    count = min(size // 8, 100_000)
    name = f"{count}" + " 97" * count
    return cells(size, f" 1 0 1 1 109 1 115 1 {name} " + "4 0 1 1 109 1 115 0 " * (METHODS - 1) + f"2 {name}")


def activities(size):
    count = size // 57
    waits = "".join(f"activity 2 0 {k} 0 0 0 0 0 0 0 0{WAITS}{OBJECT}\n" for k in range(1, count + 1))
    return TITLE + NONE + main_line(" 0 0 0 0 0" + WAITS + OBJECT, f"5 0 {count}") + waits + "end\n"


def requests(size, kept):
    """An activity to which main has sent so many requests, which are pending, or have values."""
    count = size // (65 if kept == "pending" else 60)
    homes = "".join(f" 1 0 {k} 2 0 1" for k in range(1, count + 1))
    pending = values = " 0"
    if kept == "pending":
        pending = f" {count}" + "".join(f" 1 109 1 0 1 0 {k} 0 0" for k in range(1, count + 1))
    else:
        values = f" {count}" + "".join(f" 1 0 {k} 1 0 7 1 0" for k in range(1, count + 1))
    main = main_line(" 0 0 0 0 0" + WAITS + OBJECT, f"5 {count} 1")
    other = f"activity 2 0 1 0 0 0 0 0{pending} 0 0{WAITS}{OBJECT}\n"
    return TITLE + f"homes {count}{homes}\nfilled{values}\n" + main + other + "end\n"


def chained(size):
    """Activities each of which has created the next."""
    name, text = "0", [main_line(" 0 0 0 0 0" + WAITS + OBJECT, "5 0 1")]
    length, deep = 0, 1
    while length < size:
        name, deep = name + " 1", deep + 1
        text.append(f"activity {deep} {name} 0 0 1 0 0 0 0 0{WAITS}{OBJECT}\n")
        length += len(text[-1])
    text[-1] = text[-1].replace(" 0 0 1 0 0 0 0 0 1 14", " 0 0 0 0 0 0 0 0 1 14")
    return TITLE + NONE + "".join(text) + "end\n"


FILES = {
    "activities that wait": activities,
    "activities in a chain": chained,
    "lines of numbers": lambda size: lines(size, " 0 5"),
    "lines of texts": lambda size: lines(size, " 1 1 97"),
    "one long line": lambda size: rows(size, " 1 1", " 97", " 0 0 0 0" + WAITS + OBJECT),
    "polls": lambda size: rows(size, " 0", " 1", " 0 0 0" + WAITS + OBJECT),
    "a log": lambda size: rows(size, " 0", " 0 1 0", " 0 0 0" + WAITS + OBJECT),
    "numbers in a store": lambda size: cells(size, " 0 5"),
    "empty objects": lambda size: cells(size, " 1 0 0"),
    "objects of one field": lambda size: cells(size, " 1 1 1 97 0 0"),
    "objects of many labels": labelled,
    "references": lambda size: cells(size, " 2 1 0"),
    "empty groups": lambda size: cells(size, " 4 0"),
    "members of a group": lambda size: cells(size, f" 4 {100_000}" + " 0" * 100_000),
    "methods": lambda size: methods(size, "3 1"),
    "methods with a place": lambda size: methods(size, "0 0"),
    "methods of many places": lambda size: methods(size, "12 4000" + "".join(f" 0 {k}" for k in range(4000)), 4000),
    "objects that capture": capturing,
    "numbers in 160 methods": lambda size: inside(size, METHODS - 2, "0", " 3 1"),
    "places in 160 methods": lambda size: inside(size, METHODS - 2, "0", " 0 0"),
    "names in 160 methods": lambda size: inside(size, METHODS - 2, "1 1 120", " 2 1 120"),
    "heads in 160 methods": lambda size: inside(size, METHODS - 2, "0", " 4 0 1 1 109 1 115 4 1 97 1 98 1 99 1 100 3 1"),
    "methods that bind and let": lets,
    "methods that use all names": mentions,
    "long names in 160 methods": long_names,
    "a context of many places": places,
    "methods of many steps": lambda size: methods(size, "12 100000" + " 3 1" * 100_000),
    "methods of 200 levels": lambda size: methods(size, "8 " * (LEVELS - 1) + "3 1"),
    "contexts": lambda size: rows(size - 9, f" 0 0 0 0 0", " 20 1", OBJECT).replace(" 20 1", " 14 3 0", 1),
    "a redex of many places": lambda size: rows(size, " 0 0 0 0 0 1 18", " 0 0", OBJECT),
    "requests that are pending": lambda size: requests(size, "pending"),
    "futures that have values": lambda size: requests(size, "valued"),
    "line feeds": lambda size: TITLE + NONE + "\n" * size,
    "spaces": lambda size: TITLE + NONE + "activity" + " " * size + "\nend\n",
}

# where a term is nested in each kind of node
NESTS = {
    "a field": ("4 1 1 97", "0"),
    "a method": ("4 0 1 1 109 1 115 0", ""),
    "get": ("5", "1 97"),
    "put, the object": ("6", "1 97 3 1"),
    "put, the value": ("6 3 1 1 97", ""),
    "call, the receiver": ("7", "1 109 0"),
    "call, an argument": ("7 3 1 1 109 1", ""),
    "clone": ("8", ""),
    "active": ("9", "0"),
    "let, the value": ("11 1 120", "3 1"),
    "let, the body": ("11 1 120 3 1", ""),
    "steps, the first": ("12 2", "3 1"),
    "steps, the last": ("12 2 3 1", ""),
    "if, the number": ("13", "3 1 3 1"),
    "if, the first branch": ("13 3 1", "3 1"),
    "if, the second branch": ("13 3 1 3 1", ""),
    "repeat": ("14", ""),
    "a sign, the left": ("15 0", "3 1"),
    "a sign, the right": ("15 0 3 1", ""),
    "print": ("16", ""),
    "group": ("18 1", ""),
    "scatter, the members": ("19", "1 109 3 1"),
    "scatter, the arguments": ("19 3 1 1 109", ""),
    "size": ("20", ""),
    "member, the group": ("21", "3 1"),
    "member, the place": ("21 3 1", ""),
    "waitall": ("22", ""),
}


def nested(opens, closes, levels):
    body = " ".join([opens] * (levels - 1) + ["3 1"] + [closes] * (levels - 1)).split()
    return TITLE + NONE + main_line(f" 0 0 0 0 0{WAITS} 1{METHOD} {' '.join(body)} 0") + "end\n"


def go_on(text, stack, *words):
    """The status, what was written, the seconds of the processor, and the memory in MB."""
    with open("checkpoint", "w", encoding="ascii") as file:
        file.write(text)
    with open("shown", "wb") as out:
        child = subprocess.Popen(
            [PROGRAM, "a.asp", "--resume", "checkpoint", "--budget", "1", *words],
            stdout=out,
            stderr=subprocess.DEVNULL,
            preexec_fn=lambda: resource.setrlimit(resource.RLIMIT_STACK, (1024 * stack, 1024 * stack)),
        )
        _, status, used = os.wait4(child.pid, 0)
    return os.waitstatus_to_exitcode(status), used.ru_utime + used.ru_stime, used.ru_maxrss / 1000


def play(name, size, options):
    status, seconds, memory = go_on(FILES[name](size), options.stack)
    fits = status in ANSWERS and seconds <= options.within and memory <= options.memory
    told = "" if fits else "   too much, or another end"
    print(f"{name:<26} status {status:>2} {seconds:>6.1f} s {memory:>6.0f} MB{told}", flush=True)
    return 0 if fits else 1


def nest(name, options):
    """Terms of so many levels are gone on from and saved; with one more there is no memory."""
    opens, closes = NESTS[name]
    levels = METHODS if name == "a method" else LEVELS
    text = nested(opens, closes, levels)
    status, _, _ = go_on(text, options.stack, "--save")
    with open("shown", encoding="ascii") as file:
        kept = text[text.index(METHOD) : text.rindex(" 0\nend")] in file.read()
    beyond, _, _ = go_on(nested(opens, closes, levels + 1), options.stack, "--save")
    fits = (status, kept, beyond) == (5, True, 8)
    print(f"{levels} levels, {name:<24} status {status:>2}, then {beyond}" + ("" if fits else "   wrong"), flush=True)
    return 0 if fits else 1


def main():
    parser = argparse.ArgumentParser(description=__doc__, formatter_class=argparse.RawDescriptionHelpFormatter)
    parser.add_argument("--size", type=int, default=16)
    parser.add_argument("--within", type=float, default=10)
    parser.add_argument("--memory", type=float, default=8000)
    parser.add_argument("--stack", type=int, default=512)
    parser.add_argument("names", metavar="NAME", nargs="*")
    options = parser.parse_args()
    wrong = 0
    with tempfile.TemporaryDirectory() as folder:
        os.chdir(folder)
        with open("a.asp", "w", encoding="ascii") as file:
            file.write(SOURCE)
        size = options.size * (1 << 20) - 1000
        for name in FILES:
            if not options.names or name in options.names:
                wrong += play(name, size, options)
        for name in NESTS:
            if not options.names or name in options.names:
                wrong += nest(name, options)
        os.chdir(HERE)
    sys.exit(1 if wrong else 0)


if __name__ == "__main__":
    main()
