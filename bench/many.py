#!/usr/bin/env python3
"""Times `hash` over many sheets in one run against `canon` over each in a run of its own.

    cd crates/edicad && rt run -- --version      builds out/edicad
    python3 bench/many.py SCD DIC VEC [COUNT]    from the top; COUNT is how many sheets (1000), all of them this one

Printed: seconds of user and system time of `hash`, of `canon` less the time that the same number of starts takes, and their
ratio, which is all to trust.
"""
import os
import subprocess
import sys
import tempfile

HERE = os.path.dirname(os.path.abspath(__file__))
PROGRAM = os.path.join(HERE, "..", "crates", "edicad", "out", "edicad")


def seconds(words):
    """The processor time of one run, whatever its answer is."""
    process = subprocess.Popen([PROGRAM, *words], stdout=subprocess.DEVNULL, stderr=subprocess.DEVNULL)
    _, _, usage = os.wait4(process.pid, 0)
    return usage.ru_utime + usage.ru_stime


def main():
    scd, dic, vec = sys.argv[1:4]
    count = int(sys.argv[4]) if len(sys.argv) > 4 else 1000
    with tempfile.TemporaryDirectory(dir="/dev/shm" if os.path.isdir("/dev/shm") else None) as folder:
        out = os.path.join(folder, "out.vec")
        single = sum(seconds(["canon", scd, dic, vec, out]) for _ in range(count))
        starts = sum(seconds(["--version"]) for _ in range(count))
    together = min(seconds(["hash", scd, dic, *[vec] * count]) for _ in range(3))
    print(f"hash of {count} sheets {together:.2f} s, canon of each {single:.2f} s, starts {starts:.2f} s: {together / (single - starts):.2f}")


main()
