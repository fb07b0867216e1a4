#!/usr/bin/env python3
"""Times reading in pieces against `zones`, by a program that bench/feeding.patch adds to the crates.

    git apply bench/feeding.patch && (cd crates/feeding && rt run < /dev/null)      proves and builds it
    python3 bench/feeding.py                     from the top, after bench/run.py has made its bundles of nodes
    git apply -R bench/feeding.patch             takes it away again

Printed: bytes of the VEC file, how it was read (see the program's head), best seconds of three, with reading the file.
"""
import os
import subprocess
import time

HERE = os.path.dirname(os.path.abspath(__file__))
OUT = os.path.join(HERE, "out")
PROGRAM = os.path.join(HERE, "..", "crates", "feeding", "out", "feeding")


def seconds(path):
    start = time.perf_counter()
    with open(path, "rb") as source:
        status = subprocess.run([PROGRAM], stdin=source).returncode
    return time.perf_counter() - start, status


def main():
    for size in (100000, 1000000):
        with open(os.path.join(OUT, f"nodes_{size}.bundle"), "rb") as source:
            bundle = source.read()
        file = bundle[bundle.rindex(b"BOMT "):]
        path = os.path.join(OUT, "feeding.in")
        counts = set()
        for mode in b"rwcpkb":
            with open(path, "wb") as target:
                target.write(bytes([mode]) + file)
            runs = [seconds(path) for _ in range(3)]
            print(len(file), chr(mode), f"{min(run[0] for run in runs):.3f}", flush=True)
            if mode != ord("r"):
                counts.add(runs[0][1])
        if len(counts) != 1:
            raise SystemExit("the counts of zones differ")


main()
