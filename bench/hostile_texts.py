#!/usr/bin/env python3
"""Reads hostile sources, reports and traces at two sizes: what is answered, and whether the time is linear in the size.

    bench/hostile_texts.py [--allowed SECONDS] [NAME ..]     all texts with no NAME

It takes the program that `rt ci` built, or the one that ASP names. A source is read at
64 KiB and at 1 MiB, the most that it may have, a report and a trace at 1 MiB and at 16 MiB. The seconds are those of
the processor, the best of two runs. Marked are a text that takes more than 1.5 times as long for each byte when it is
larger, one that takes more than is allowed (1 s at 1 MiB, 3 s at 16 MiB; --allowed gives the first of the two for a
slower machine), and an answer that is not the wanted one; the status is then 1.
"""
import argparse
import itertools
import os
import subprocess
import sys
import tempfile
from typing import NamedTuple

HERE = os.path.dirname(os.path.dirname(os.path.abspath(__file__)))
ASP = os.environ.get("ASP", os.path.join(HERE, "crates/asp/out/asp"))
EXPLAIN = [ASP, "--explain"]
MEBIBYTE = 1 << 20
TIMES = 16
ALLOWED = 1.5  # as often as the size grows
SHORT = 0.05  # seconds of which a ratio means nothing
LIMIT = 120  # seconds of the processor, after which a call is stopped


class Text(NamedTuple):
    name: str
    pieces: object  # that are repeated, or a function that gives them without end
    front: str = ""
    back: str = ""
    status: int = 3
    says: str = None  # the last words of the message, if they are to be looked at

    def bytes(self, size):
        """So many bytes, or a few less."""
        made, left = [self.front], size - len(self.front) - len(self.back)
        pieces = self.pieces() if callable(self.pieces) else itertools.repeat(self.pieces)
        for piece in pieces:
            left -= len(piece)
            if left < 0:
                break
            made.append(piece)
        return "".join([*made, self.back]).encode("latin-1")


def numbered(form):
    """Pieces with a number in each."""
    return lambda: (form.replace("N", str(n)) for n in itertools.count())


def nested(n):
    """So many variables around what follows."""
    return "".join(f"let x{k} = {k} in " for k in range(n))


SOURCES = [
    Text("(", "(", says="TooDeep at 200"),
    Text("[", "[", says="Unexpected at 1"),
    Text('"', '"', says="Unexpected at 0"),
    Text("0xFF", "\xff", says="BadByte at 0"),
    Text("spaces", " ", says="Unexpected at"),
    Text("a comment", "x", "//", says="Unexpected at"),
    Text("comments", "//\n", says="Unexpected at"),
    Text("a name", "x", says="Unbound at 0"),
    Text("zeros", "0", back="7", status=0),
    Text("nines", "9", says="BadNumber at 0"),
    Text("a text without end", "x", 'echo("', says="BadByte at"),
    Text("a text", "x", 'echo("', '")', status=0),
    Text("a sequence", "10;", back="1", status=0),
    Text("brackets in a row", "(1);", back="1", status=0),
    Text("lets in a row", "(let x = 1 in x);", back="1", status=0),
    Text("200 variables, used", "x0;", nested(100), "x0", status=0),
    Text("fields", numbered("fN=1,"), "[", "g=1]", status=0),
    Text("fields of one name", "f=1,", "[", "g=1]", says="DoubleLabel at 5"),
    Text("fields with long names", numbered("f" * 500 + "N=1,"), "[", "g=1]", status=0),
    Text("methods", numbered("mN(s)=1,"), "[;", "g(s)=1]", status=0),
    Text("methods that capture", numbered("mN(s)=x0+x99,"), nested(100) + "[;", "g(s)=1]", status=0),
    Text("objects that capture", "[;m(s)=x0+x99];", nested(100), "1", status=0),
    Text("objects", "[a=1];", back="1", status=0),
    Text("parameters", numbered("pN,"), "[;m(", "p)=1]", says="TooManyParameters at 2"),
    Text("parameters of one name", "p,", "[;m(", "p)=1]", says="TooManyParameters at 2"),
    Text("arguments", "1,", "x.m(", "1)", says="Unbound at 0"),
    Text("arguments of a method", "1,", "[].m(", "1)", says="TooManyParameters at 3"),
    Text("members", "1,", "group(", "1)", status=0),
    Text("labels of a serve", numbered("lN,"), "serve(", "l)", status=0),
    Text("one label of a serve", "l,", "serve(", "l)", status=0),
    Text("calls", numbered("[].mN();"), back="1", status=1),
    Text("calls of one label", "[].m();", back="1", status=1),
    Text("requests of many labels", numbered("a.mN();"), "let a = active([]) in ", "1", status=0),
    Text("branches", "if (0) { 1 } else { 2 };", back="1", status=0),
]

HEAD = "asp report 2\nverdict end\nactivity 0 1 done\nsenders"
REPORTS = [
    Text("nothing but line feeds", "\n", says="line 1", status=9),
    Text("one line", "x", says="line 1", status=9),
    Text("0xFF in a report", "\xff", says="line 1", status=9),
    Text("a name without end", ".1", HEAD + "\nactivity 0", says="line 5", status=9),
    Text("a long name", ".1", HEAD + "\nactivity 0", " 1 done\nsenders\n", status=9),
    Text("long names", numbered("activity 0" + ".1" * 2000 + ".1N 1 done\nsenders\n"), HEAD + "\n", status=9),
    Text("a count without end", "0", "asp report 2\nverdict end\nactivity 0 ", says="line 3", status=9),
    Text("a sender without end", ".1", HEAD + " 0", says="line 4", status=9),
    Text("a long sender", ".1", HEAD + " 0", "\n", says="0 diverges", status=9),
    Text("senders", " 0.1", HEAD, "\n", says="0 diverges", status=9),
    Text("senders, and a return", " 0", HEAD, "\r\n", says="line 4", status=9),
    Text("polls", " ?", HEAD, "\n", says="0 diverges", status=9),
    Text("activities", numbered("activity 0.1N 1 done\nsenders\n"), HEAD + "\n", status=9),
    Text("outputs", "> 1\n", HEAD + "\n", status=0),
    Text("one output", "1", HEAD + "\n> ", "\n", status=0),
    Text("state lines", ". self number 1\n", HEAD + "\n", status=0),
    Text("outputs, and a bad line", "> 1\n", HEAD + "\n", "x\n", status=9),
]
TRACES = [
    Text("a trace of line feeds", "\n", says="line 1", status=10),
    Text("a trace of one line", "x", says="line 1", status=10),
    Text("a number without end", "1", "asp trace 1\nlent ", says="line 2", status=10),
    Text("lends", "lent 0\n", "asp trace 1\n", "end\n", says="line 3", status=10),
    Text("lends of nobody", "lent 7\n", "asp trace 1\n", "end\n", says="line 2", status=10),
    Text("values of nobody", "need 0.7#1 0 8\n", "asp trace 1\n", "end\n", says="line 2", status=10),
    Text("edges of nobody", "edge 0#1 0.1 0\n", "asp trace 1\n", "end\n", says="line 2", status=10),
    Text("behind the end", "lent 0\n", "asp trace 1\nlent 0\ncommitted 0 1\nend\n", says="line 5", status=10),
]


def seconds(words):
    """Seconds of the processor, status and message."""
    with open("said", "w+b") as said:
        limited = ["prlimit", f"--cpu={LIMIT}", *words]
        child = subprocess.Popen(limited, stdin=subprocess.DEVNULL, stdout=subprocess.DEVNULL, stderr=said)
        _, status, usage = os.wait4(child.pid, 0)
        child.returncode = os.waitstatus_to_exitcode(status)
        said.seek(0)
        return usage.ru_utime + usage.ru_stime, child.returncode, said.read(500).decode("latin-1")


def marks(text, small, large, allowed):
    """What is wrong with the answers to a text at two sizes."""
    for _, status, said in (small, large):
        if status != text.status:
            yield f"status {status}"
        elif text.says and text.says not in said:
            yield f"not '{text.says}'"
    if large[0] > SHORT and large[0] > ALLOWED * TIMES * max(small[0], SHORT / TIMES):
        yield "not linear"
    if large[0] > allowed:
        yield "slow"


def show(kind, text, words, sizes, allowed):
    found = []
    for size in sizes:
        with open("text", "wb") as file:
            file.write(text.bytes(size))
        found.append(min(seconds(words) for _ in range(2)))
    small, large = found
    wrong = "; ".join(marks(text, small, large, allowed))
    print(f"{kind:<8} {text.name:<26}{small[0]:8.3f} s{large[0]:9.3f} s{large[0] / small[0]:8.1f}"
          f"  {large[2].strip()[:60]}{'  <-- ' + wrong if wrong else ''}", flush=True)
    return 1 if wrong else 0


def explained(text):
    """The same text as asp-explain answers it, whose statuses of a program are 0 and 3."""
    return text._replace(status=3 if text.status == 3 else 0, says=None)


def main():
    parser = argparse.ArgumentParser(description=__doc__, formatter_class=argparse.RawDescriptionHelpFormatter)
    parser.add_argument("--allowed", type=float, default=1.0)
    parser.add_argument("names", metavar="NAME", nargs="*")
    options = parser.parse_args()
    small, large = (MEBIBYTE // TIMES, MEBIBYTE), (MEBIBYTE, TIMES * MEBIBYTE)
    kinds = [
        ("source", SOURCES, [ASP, "text"], small, 1),
        ("explain", [explained(text) for text in SOURCES], [*EXPLAIN, "text"], small, 1),
        ("report", REPORTS, [ASP, "a.asp", "--replay", "text"], large, 3),
        ("trace", TRACES, [ASP, "a.asp", "--trace", "text"], large, 3),
    ]
    wrong = 0
    with tempfile.TemporaryDirectory() as folder:
        os.chdir(folder)
        with open("a.asp", "w", encoding="ascii") as file:
            file.write("1")
        for kind, texts, words, sizes, most in kinds:
            for text in texts:
                if not options.names or text.name in options.names:
                    wrong += show(kind, text, words, sizes, most * options.allowed)
        os.chdir(HERE)
    print(f"{wrong} marked")
    sys.exit(1 if wrong else 0)


if __name__ == "__main__":
    main()
