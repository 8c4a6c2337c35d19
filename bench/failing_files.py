#!/usr/bin/env python3
"""Lets reads and writes of the built programs fail, and looks at how each call ends.

    bench/failing_files.py

It takes the program that `rt ci` built, or the one that ASP names. First the streams and
files of a call are of a kind that fails: closed, full, a folder, a pipe that nobody reads or that is read late. Then a
small library, which the C compiler makes here, lets each read and each write of some calls fail in turn by its number,
also after some bytes of the piece, or takes one byte at a time. A call has to end within 60 seconds, by no signal, with
the wanted status; what it wrote has to be a front part of what it writes otherwise. What is wrong is printed, and the
status is then 1.
"""
import fcntl
import os
import signal
import subprocess
import sys
import tempfile
import time

HERE = os.path.dirname(os.path.dirname(os.path.abspath(__file__)))
ASP = os.environ.get("ASP", os.path.join(HERE, "crates/asp/out/asp"))
EXPLAIN, OUTCOMES = [ASP, "--explain"], [ASP, "--outcomes"]
NOBODY = 65534
MOST_SECONDS = 60
REPORT = b"asp report 2\nverdict end\nactivity 0 4 done\nsenders\n> 3\n"
LONG = "let o = [; m(s, k) = if (k == 0) { 0 } else { print(k); s.m(k - 1) }] in o.m(60000)"

FAILING = r"""
#define _GNU_SOURCE
#include <errno.h>
#include <stdlib.h>
#include <sys/syscall.h>
#include <unistd.h>

static long reads, writes;

static long of(const char *name) {
    const char *text = getenv(name);
    return text ? atol(text) : 0;
}
/* what a call of that number is given of so many bytes: all, a front part, or none, for an error */
static long given(long number, long failing, long keep, long each, long count) {
    if (failing && number == failing + 1 && keep) return 0;
    if (failing && number == failing) return keep < count ? keep : count - 1;
    return each && each < count ? each : count;
}
ssize_t read(int file, void *to, size_t count) {
    if (file <= 2) return syscall(SYS_read, file, to, count);
    long some = given(++reads, of("FAIL_READ"), 0, of("READ_EACH"), count);
    if (count && !some) { errno = of("FAIL_BY"); return -1; }
    return syscall(SYS_read, file, to, some);
}
ssize_t write(int file, const void *from, size_t count) {
    long some = given(++writes, of("FAIL_WRITE"), of("KEEP"), of("WRITE_EACH"), count);
    if (count && !some) { errno = of("FAIL_BY"); return -1; }
    return syscall(SYS_write, file, from, some);
}
"""
EIO, EINTR, ENOSPC = "5", "4", "28"
wrong = 0


def say(name, got, wanted):
    global wrong
    if got != wanted:
        wrong += 1
        print(f"wrong: {name}: {got}, and not {wanted}", flush=True)


def write(name, text):
    with open(name, "wb") as file:
        file.write(text)


def call(words, before=None, out=subprocess.PIPE, err=subprocess.PIPE, env=None):
    """Status, standard output and standard error; the status is None after a minute."""
    try:
        ended = subprocess.run(
            words,
            stdin=subprocess.DEVNULL,
            stdout=out,
            stderr=err,
            timeout=MOST_SECONDS,
            preexec_fn=before,
            env={**os.environ, **(env or {})},
            check=False,
        )
    except subprocess.TimeoutExpired:
        return None, b"", b""
    return ended.returncode, ended.stdout or b"", ended.stderr or b""


# Streams


def streams():
    """Streams that are closed, or full."""
    cannot = b"asp: cannot write\n"
    runs, refused = [ASP, "a.asp"], [ASP, "gone.asp"]
    say("closed output", call(runs, lambda: os.close(1)), (7, b"", cannot))
    say("closed error", call(runs, lambda: os.close(2)), (0, REPORT, b""))
    say("closed output and error", call(runs, lambda: (os.close(1), os.close(2))), (7, b"", b""))
    say("all closed", call(runs, lambda: [os.close(n) for n in (0, 1, 2)]), (7, b"", b""))
    say("closed input", call(runs, lambda: os.close(0)), (0, REPORT, b""))
    say("closed error, refused", call(refused, lambda: os.close(2)), (7, b"", b""))
    with open("/dev/full", "wb") as full:
        say("full output", call(runs, out=full), (7, b"", cannot))
        say("full error", call(refused, err=full), (7, b"", b""))
        say("full error, and no message", call(runs, err=full), (0, REPORT, b""))
        say("both full", call(runs, out=full, err=full), (7, b"", b""))
        say("full output, explained", call([*EXPLAIN, "a.asp"], out=full), (7, b"", b"asp-explain: cannot write\n"))
        say("full output, outcomes", call([*OUTCOMES, "a.asp"], out=full), (7, b"", b"asp: cannot write\n"))
    with open("a.asp", "rb") as only:
        say("output that is read alone", call(runs, out=only), (7, b"", cannot))


def pipes():
    """Pipes that nobody reads, that are read late, and that fill."""
    ended = subprocess.Popen([ASP, "long.asp"], stdout=subprocess.PIPE, stderr=subprocess.PIPE)
    ended.stdout.read(10)
    ended.stdout.close()
    say("a reader that goes", (ended.wait(MOST_SECONDS), ended.stderr.read()), (7, b"asp: cannot write\n"))
    read, to = os.pipe()
    os.close(read)
    say("a reader that is gone", call([ASP, "a.asp"], out=to), (7, b"", b"asp: cannot write\n"))
    say("a reader of errors that is gone", call([ASP, "gone.asp"], err=to), (7, b"", b""))
    os.close(to)
    whole = call([ASP, "long.asp"])[1]
    read, to = os.pipe()
    fcntl.fcntl(to, fcntl.F_SETFL, os.O_NONBLOCK)
    status, _, err = call([ASP, "long.asp"], out=to)
    os.close(to)
    with open(read, "rb") as pipe:
        front = pipe.read()
    say("a pipe that does not wait", (status, err, len(front) > 0), (7, b"asp: cannot write\n", True))
    say("what it has", whole.startswith(front), True)
    ended = subprocess.Popen([ASP, "long.asp"], stdout=subprocess.PIPE)
    for _ in range(5):
        time.sleep(0.1)
        ended.send_signal(signal.SIGSTOP)
        time.sleep(0.1)
        ended.send_signal(signal.SIGCONT)
    say("stopped while its pipe is full", (ended.stdout.read() == whole, ended.wait(MOST_SECONDS)), (True, 0))


# Files


def teller(words):
    """The name before a refusal: what asp-outcomes says of a program is what asp says of it."""
    if words[:2] == EXPLAIN:
        return "asp-explain"
    return "asp-outcomes" if "--check-ends" in words else "asp"


def unread(name, before=None):
    """A file that cannot be read, in each place of a file."""
    for words in (
        [ASP, name],
        [ASP, name, "--check"],
        [ASP, "a.asp", "--replay", name],
        [ASP, "a.asp", "--replay", "r", "--same", name],
        [ASP, "a.asp", "--trace", name],
        [*EXPLAIN, name],
        [*EXPLAIN, "a.asp", name],
        [*OUTCOMES, name],
        [*OUTCOMES, "a.asp", "--check-ends", "r", name],
    ):
        told = f"{teller(words)}: cannot read {name}\n"
        say(f"{words}", call(words, before), (6, b"", told.encode()))


def files():
    os.mkdir("folder")
    os.symlink("circle", "circle")
    write("secret", b"7")
    os.chmod("secret", 0)
    for name in ("gone", "", "folder", "circle", "a.asp/b", "n" * 300, "/proc/self/mem", "/dev/fd/77"):
        unread(name)
    if os.getuid() == 0:
        os.chmod(".", 0o755)
        unread("secret", lambda: os.setuid(NOBODY))
    long = b"asp: program: longer than 1048576 bytes\n"
    say("a device without end", call([ASP, "/dev/zero"]), (3, b"", long))
    replay = b"asp: replay: longer than 16777216 bytes\n"
    say("such a report", call([ASP, "a.asp", "--replay", "/dev/zero"]), (9, b"", replay))
    trace = b"asp: trace: longer than 67108864 bytes\n"
    say("such a trace", call([ASP, "a.asp", "--trace", "/dev/zero"]), (10, b"", trace))
    say("an empty file", call([ASP, "/dev/null"]), (3, b"", b"asp: program: Unexpected at 0\n"))
    say("words that are no UTF-8", call([ASP, b"\xff"]), (12, b"", b""))


# Each read and write in turn


def each_write(words, at_once=False):
    """Each write fails, after none, one or three bytes of its piece: of a line, or of all that is written at once."""
    status, whole, err = call(words)
    lines = [whole] if at_once else (whole or err).splitlines(keepends=True)
    for number in range(1, len(lines) + 1):
        for keep in (0, 1, 3):
            env = {"LD_PRELOAD": "./failing.so", "FAIL_WRITE": str(number), "KEEP": str(keep), "FAIL_BY": ENOSPC}
            line = lines[number - 1]
            front = b"".join(lines[: number - 1]) + line[: min(keep, len(line) - 1)]
            got = call(words, env=env)
            wanted = (7, front, b"asp: cannot write\n") if whole else (7, b"", front)
            say(f"{words}, write {number} fails after {keep} bytes", got, wanted)
    env = {"LD_PRELOAD": "./failing.so", "WRITE_EACH": "1"}
    say(f"{words}, a byte at a time", call(words, env=env), (status, whole, err))


def each_read(words, reads):
    """Each read fails, and is named by the file that it reads."""
    own = call(words)
    for number, name in enumerate(reads, 1):
        for cause in (EIO, EINTR):
            env = {"LD_PRELOAD": "./failing.so", "FAIL_READ": str(number), "FAIL_BY": cause}
            got = call(words, env=env)
            say(f"{words}, read {number} fails", got, (6, b"", f"asp: cannot read {name}\n".encode()))
    env = {"LD_PRELOAD": "./failing.so", "READ_EACH": "1"}
    say(f"{words}, a byte at a time", call(words, env=env), own)


def in_turn():
    write("failing.c", FAILING.encode())
    subprocess.run(["cc", "-O1", "-shared", "-fPIC", "-o", "failing.so", "failing.c"], check=True)
    each_write([ASP, "a.asp"])
    each_write([ASP, "b.asp", "--workers", "1", "--state", "2"])
    each_write([ASP, "a.asp", "--replay", "r"])
    each_write([ASP, "a.asp", "--journal"], at_once=True)
    each_write([ASP, "a.asp", "--check"])
    each_write([ASP, "gone"])
    each_read([ASP, "a.asp"], ["a.asp"] * 2)
    each_read([ASP, "a.asp", "--replay", "r"], ["a.asp"] * 2 + ["r"] * 2)
    each_read([ASP, "a.asp", "--replay", "r", "--same", "r"], ["a.asp"] * 2 + ["r"] * 4)


def main():
    with tempfile.TemporaryDirectory() as folder:
        os.chdir(folder)
        write("a.asp", b"print(1 + 2)")
        write("b.asp", b"let a = active([x = 0; inc(s, x) = x + 1]) in print(a.inc(41))")
        write("long.asp", LONG.encode())
        write("r", REPORT)
        for part in (streams, pipes, files, in_turn):
            part()
        os.chdir(HERE)
    print(f"{wrong} wrong")
    sys.exit(1 if wrong else 0)


if __name__ == "__main__":
    main()
