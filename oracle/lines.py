#!/usr/bin/env python3
"""oracle/lines.py [TURNS]: bin/lines beside a C program of fgets and sscanf (oracle/lines.c), on 1,000,000 lines.

A listing of a CatmullRom curve of 12 segments and one of 100, each with `at` lines up to a million lines. The two programs take turns,
9 of them unless TURNS says otherwise; of each the least processor time counts, the system's share included, so that others at work on the
machine disturb it little. Both have to print the same bytes. `bin/speed lines` is this.

The line program is for x86-64; on another processor its proved module is compiled for that (oracle/native), and cc makes the C program for
it too. SIMMERSTOAT_LINES names a line program that is there already.
"""
import os
import platform
import random
import resource
import struct
import subprocess
import sys

ROOT = os.path.dirname(os.path.dirname(os.path.abspath(__file__)))
MADE = os.path.join(ROOT, "target", "oracle", "lines")
LINES = 1_000_000


def digits(x):
    return struct.pack(">d", x).hex().upper()


def listing(segments):
    """A curve of so many segments whose knots rise unevenly, and places on it."""
    r = random.Random(segments)
    depth, lines = 0.0, ["curve\tCatmullRom"]
    for _ in range(segments + 3):
        lines.append("knot\t" + digits(depth))
        depth += 0.05 + r.random()
    lines += ("at\t" + digits(r.random()) for _ in range(LINES - len(lines)))
    path = os.path.join(MADE, f"at{segments}")
    with open(path, "w", encoding="ascii") as file:
        file.write("\n".join(lines) + "\n")
    return path


def ours():
    """The line program as a command of this machine's."""
    if "SIMMERSTOAT_LINES" in os.environ:
        return [os.environ["SIMMERSTOAT_LINES"]]
    if platform.machine() == "x86_64":
        subprocess.run([os.path.join(ROOT, "bin", "lines")], stdin=subprocess.DEVNULL, check=True)
        return [os.path.join(ROOT, "target", "bin", "lines_main")]
    subprocess.run([os.path.join(ROOT, "oracle", "native"), MADE, "lines_main"], check=True)
    return [os.path.join(MADE, "lines_main")]


def c_program():
    program = os.path.join(MADE, "c")
    words = ["-std=gnu11", "-O2", "-ffp-contract=off", "-Wall", "-Wextra", os.path.join(ROOT, "oracle", "lines.c"), "-lm", "-o", program]
    subprocess.run([os.environ.get("CC", "cc"), *words], check=True)
    return [program]


def seconds(command, path, out):
    """The processor time of one run."""
    before = resource.getrusage(resource.RUSAGE_CHILDREN)
    with open(path, "rb") as stdin, open(out, "wb") as stdout:
        subprocess.run(command, stdin=stdin, stdout=stdout, check=True)
    after = resource.getrusage(resource.RUSAGE_CHILDREN)
    return after.ru_utime - before.ru_utime + after.ru_stime - before.ru_stime


def main():
    turns = int(sys.argv[1]) if len(sys.argv) > 1 else 9
    os.makedirs(MADE, exist_ok=True)
    programs = [ours(), c_program()]
    print("| segments | bin/lines, s | fgets and sscanf, s | ratio |\n|---:|---:|---:|---:|")
    for segments in (12, 100):
        path = listing(segments)
        outs = [f"{path}.{i}" for i in range(2)]
        least = [float("inf")] * 2
        for _ in range(turns):
            for i, command in enumerate(programs):
                least[i] = min(least[i], seconds(command, path, outs[i]))
        with open(outs[0], "rb") as a, open(outs[1], "rb") as b:
            if a.read() != b.read():
                sys.exit(f"the two print different replies: see {outs[0]} and {outs[1]}")
        print(f"| {segments} | {least[0]:.3f} | {least[1]:.3f} | {least[0] / least[1]:.2f} |", flush=True)


if __name__ == "__main__":
    main()
