#!/usr/bin/env python3
"""Refuses each request for memory of some runs in turn, and looks at how the run ends.

    bench/refusals.py [MOST]     at most so many requests of each run; all with no MOST

It takes the program that `rt ci` built, or the one that ASP names. A small library, which
the C compiler makes here, counts what the program asks of malloc and its kin and of pthread_create, from the first
request of its `main` on, and refuses the one whose number is asked for: alone, or with all after it. A run has
to end within 60 seconds, with its own status and output, or with status 8, nothing on standard output, and on standard
error `NAME: no memory` or nothing. Beside that, a thousand pairs run under a falling limit of address space.
It prints how many requests of each run were refused and how each ended; its status is 1 if one ended otherwise.
"""
import collections
import os
import resource
import subprocess
import sys
import tempfile
from concurrent.futures import ThreadPoolExecutor
from typing import NamedTuple

HERE = os.path.dirname(os.path.dirname(os.path.abspath(__file__)))
ASP = os.environ.get("ASP", os.path.join(HERE, "crates/asp/out/asp"))
PROGRAMS = {"asp": [ASP], "asp-explain": [ASP, "--explain"], "asp-outcomes": [ASP, "--outcomes"]}
MOST_SECONDS = 60
MEGABYTE = 1 << 20

REFUSING = r"""
#define _GNU_SOURCE
#include <dlfcn.h>
#include <errno.h>
#include <fcntl.h>
#include <pthread.h>
#include <stdatomic.h>
#include <stdlib.h>
#include <sys/mman.h>

extern void *__libc_malloc(size_t);
extern void *__libc_calloc(size_t, size_t);
extern void *__libc_realloc(void *, size_t);
extern void *__libc_memalign(size_t, size_t);

static atomic_long here, *asked = &here;
static long first = -1, last = -1;
static int (*create)(pthread_t *, const pthread_attr_t *, void *(*)(void *), void *);

__attribute__((constructor)) static void begin(void) {
    const char *from = getenv("REFUSE_FROM"), *to = getenv("REFUSE_TO"), *count = getenv("REFUSE_COUNT");
    if (from) first = atol(from);
    if (to) last = atol(to);
    create = dlsym(RTLD_NEXT, "pthread_create");
    int file = count ? open(count, O_RDWR) : -1;
    if (file >= 0) asked = mmap(NULL, sizeof here, PROT_READ | PROT_WRITE, MAP_SHARED, file, 0);
    atomic_store(asked, 0);
}

static int refused(void) {
    long number = atomic_fetch_add(asked, 1) + 1;
    if (first >= 0 && number >= first && number <= last) { errno = ENOMEM; return 1; }
    return 0;
}

void *malloc(size_t size) { return refused() ? NULL : __libc_malloc(size); }
void *calloc(size_t count, size_t size) { return refused() ? NULL : __libc_calloc(count, size); }
void *realloc(void *at, size_t size) { return refused() ? NULL : __libc_realloc(at, size); }
void *aligned_alloc(size_t align, size_t size) { return refused() ? NULL : __libc_memalign(align, size); }
int posix_memalign(void **to, size_t align, size_t size) {
    if (refused()) return ENOMEM;
    *to = __libc_memalign(align, size);
    return *to ? 0 : ENOMEM;
}
int pthread_create(pthread_t *to, const pthread_attr_t *with, void *(*call)(void *), void *of) {
    return refused() ? EAGAIN : create(to, with, call, of);
}
"""

SUM = "print(1 + 2)"
ANSWER = "let a = active([; inc(s, x) = x + 1]) in print(a.inc(41))"
PASSES = (
    "let q = active([; slow(s, v) = v * 10]) in let z = active([; take(s, v) = print(v + 1)]) in "
    "let y = active([; pass(s, v) = z.take(v)]) in let x = active([; hand(s, v) = y.pass(v)]) in "
    "x.hand(q.slow(4))"
)
GROUPS = (
    "let w = [; sq(s, v) = v * v] in let g = group(active(w), active(w), active(w)) in "
    "let r = waitall(g.sq(5)) in print(member(r, 0) + member(r, 1) + member(r, 2)); "
    "print(size(scatter(g, sq, group(1, 2, 3)))); scatter(g, sq, group(1, 2))"
)
BLOCKED = "let a = active([; m(s) = serve(n), n(s) = 0]) in print(a.m())"


class Run(NamedTuple):
    name: str
    text: str  # of the program a.asp
    words: list  # behind a.asp; r is its report, and t its trace
    program: str = "asp"
    workers: tuple = ()  # the numbers of workers that it is run by, if it takes workers


RUNS = [
    Run("a sum", SUM, [], workers=(1, 4)),
    Run("a request and its answer", ANSWER, [], workers=(1, 4)),
    Run("a future that passes unread, forward", PASSES, ["--strategy", "forward"], workers=(1, 4)),
    Run("a future that passes unread, message", PASSES, ["--strategy", "message"], workers=(1, 4)),
    Run("groups", GROUPS, [], workers=(1, 4)),
    Run("states", GROUPS, ["--state", "4"], workers=(1,)),
    Run("a check", GROUPS, ["--check"]),
    Run("a ruling", ANSWER, ["--determinate"], workers=(1,)),
    Run("a replay", GROUPS, ["--replay", "r"]),
    Run("two reports compared", ANSWER, ["--replay", "r", "--same", "r"]),
    Run("a journal", PASSES, ["--journal"], workers=(1,)),
    Run("a trace", PASSES, ["--trace", "t"]),
    Run("a checkpoint", GROUPS, ["--budget", "20", "--save"], workers=(1, 4)),
    Run("a fault explained", "print(1 + y)", [], "asp-explain"),
    Run("a run explained", BLOCKED, ["r"], "asp-explain"),
    Run("events", ANSWER, ["r", "--events"], "asp-explain"),
    Run("a picture", ANSWER, ["r", "--picture"], "asp-explain"),
    Run("outcomes", ANSWER, [], "asp-outcomes"),
]


def run(folder, program, words, env=None, limit=None):
    """Status, standard output and standard error; the status is None after a minute."""

    def narrow():
        if limit is not None:
            resource.setrlimit(resource.RLIMIT_AS, (limit, limit))

    try:
        ended = subprocess.run(
            [*PROGRAMS[program], *words],
            stdin=subprocess.DEVNULL,
            capture_output=True,
            timeout=MOST_SECONDS,
            env={**os.environ, **(env or {})},
            cwd=folder,
            preexec_fn=narrow,
            check=False,
        )
    except subprocess.TimeoutExpired:
        return None, b"", b""
    return ended.returncode, ended.stdout, ended.stderr


def is_right(program, got, own):
    """Whether the run ended as it does with memory, or said that it had none and nothing else."""
    if got == own or got == (8, b"", b""):
        return True
    # (what asp-outcomes says of the program's file is what asp says of it)
    names = ("asp-outcomes", "asp") if program == "asp-outcomes" else (program,)
    return got in [(8, b"", f"{name}: no memory\n".encode()) for name in names]


def requests(folder, program, words, env):
    count = os.path.join(folder, "count")
    with open(count, "wb") as file:
        file.write(bytes(8))
    run(folder, program, words, {**env, "REFUSE_COUNT": count})
    with open(count, "rb") as file:
        return int.from_bytes(file.read(), sys.byteorder)


def refuse(folder, name, program, words, most):
    """How often a run ended in another way, where each of its requests is refused in turn."""
    own = run(folder, program, words)
    env = {"LD_PRELOAD": os.path.join(folder, "refusing.so")}
    count = requests(folder, program, words, env)
    tried = min(count + 8, most)
    jobs = [(n, to) for n in range(1, tried + 1) for to in (n, 1 << 40)]
    ends = collections.Counter()
    wrong = []
    with ThreadPoolExecutor(os.cpu_count()) as pool:
        asked = lambda job: run(
            folder, program, words, {**env, "REFUSE_FROM": str(job[0]), "REFUSE_TO": str(job[1])}
        )
        for job, got in zip(jobs, pool.map(asked, jobs)):
            ends[got[0]] += 1
            if not is_right(program, got, own):
                wrong.append((job, got))
    told = ", ".join(f"status {status} {n} times" for status, n in sorted(ends.items(), key=str))
    print(f"{name}: {count} requests, {tried} refused, each alone and with all after it: {told}", flush=True)
    for (first, to), got in wrong[:10]:
        print(f"  wrong: refused {first}{'' if to == first else ' and all after it'}: {got}", flush=True)
    return len(wrong)


def narrow(folder):
    """A thousand pairs under a limit of address space that falls by a tenth each time."""
    words = ["--make", "1000", "--budget", "10000000"]
    own = run(folder, "asp", words)
    limit, wrong, ends = 400 * MEGABYTE, 0, collections.Counter()
    while limit > 4 * MEGABYTE:
        got = run(folder, "asp", words, limit=limit)
        # below this the system cannot start the program
        if got[0] in (127, 126) or got[0] is not None and got[0] < 0 and not got[1] and not ends[8]:
            break
        ends[got[0]] += 1
        if not is_right("asp", got, own):
            wrong += 1
            print(f"  wrong at {limit // MEGABYTE} MB: {got[0]} {got[2][:200]}", flush=True)
        limit = limit * 9 // 10
    told = ", ".join(f"status {status} {n} times" for status, n in sorted(ends.items(), key=str))
    print(f"1,000 pairs down to {limit // MEGABYTE} MB of address space: {told}", flush=True)
    return wrong


def keep(folder, name, text):
    with open(os.path.join(folder, name), "wb") as file:
        file.write(text)


def refuse_all(folder, most):
    """How many runs ended in another way."""
    wrong = 0
    for one in RUNS:
        keep(folder, "a.asp", one.text.encode())
        if one.words and one.words[0] in ("r", "--replay"):
            keep(folder, "r", run(folder, "asp", ["a.asp"])[1])
        if "--trace" in one.words:
            keep(folder, "t", run(folder, "asp", ["a.asp", "--journal"])[1])
        words = ["a.asp", *one.words]
        if not one.workers:
            wrong += refuse(folder, one.name, one.program, words, most)
        for workers in one.workers:
            more = ["--workers", str(workers)]
            wrong += refuse(folder, f"{one.name}, {workers} workers", one.program, [*words, *more], most)
    return wrong


def main():
    most = int(sys.argv[1]) if len(sys.argv) > 1 else 1 << 40
    with tempfile.TemporaryDirectory() as folder:
        keep(folder, "refusing.c", REFUSING.encode())
        library = ["-o", "refusing.so", "refusing.c"]
        subprocess.run(["cc", "-O1", "-shared", "-fPIC", *library], check=True, cwd=folder)
        wrong = refuse_all(folder, most) + narrow(folder)
    sys.exit(1 if wrong else 0)


if __name__ == "__main__":
    main()
