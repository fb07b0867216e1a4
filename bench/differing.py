#!/usr/bin/env python3
"""Times `diff` against `compare`, of a sheet with its canonical file and of a sheet with one node moved.

    cd crates/edicad && rt run -- --version                 builds out/edicad
    python3 bench/differing.py SCD DIC VEC [ROUNDS]         from the top; the sheet's first node must have a position of its own

The node is moved with the points of its arcs, by one unit of the last digit of its first coordinate. In turn, best of ROUNDS
(five). Printed: seconds of user and system time, their ratio, the peak memory of each as a multiple of both files, and how
many lines `diff` writes. Trust the ratios alone.
"""
import os
import re
import subprocess
import sys
import tempfile

HERE = os.path.dirname(os.path.abspath(__file__))
PROGRAM = os.path.join(HERE, "..", "crates", "edicad", "out", "edicad")


def timed(words):
    """The lines that a run prints, its seconds of processor time and its peak memory in bytes."""
    process = subprocess.Popen([PROGRAM, *words], stdout=subprocess.PIPE)
    text = process.stdout.read()
    _, status, usage = os.wait4(process.pid, 0)
    if os.waitstatus_to_exitcode(status) > 1:
        sys.exit(f"{words[0]} ends with {os.waitstatus_to_exitcode(status)}: {text[:80]}")
    return text.count(b"\n"), usage.ru_utime + usage.ru_stime, usage.ru_maxrss * 1024


def moved(sheet):
    """The sheet with its first node moved."""
    place = re.search(rb"RTYSA03:PNO.*?COR..\d\d:([^\r\n]*)", sheet, re.S)[1]
    first, rest = place.split(b";", 1)
    last = b"%d" % ((first[-1] - ord("0") + 1) % 10)
    return sheet.replace(b":" + place, b":" + first[:-1] + last + b";" + rest)


def compared(name, files, size, rounds):
    """One line of the table."""
    runs = {word: [timed([word, *files]) for _ in range(rounds)] for word in ("compare", "diff")}
    seconds = {word: min(it[1] for it in run) for word, run in runs.items()}
    peak = {word: max(it[2] for it in run) / size for word, run in runs.items()}
    print(f"| {name} | {seconds['compare']:.2f} s | {seconds['diff']:.2f} s | {seconds['diff'] / seconds['compare']:.2f} "
          f"| {peak['compare']:.1f} | {peak['diff']:.1f} | {runs['diff'][0][0]} |")


def main():
    scd, dic, vec = sys.argv[1:4]
    rounds = int(sys.argv[4]) if len(sys.argv) > 4 else 5
    with open(vec, "rb") as file:
        sheet = file.read()
    with tempfile.TemporaryDirectory() as folder:
        same, other = os.path.join(folder, "same.vec"), os.path.join(folder, "moved.vec")
        subprocess.run([PROGRAM, "canon", scd, dic, vec, same], check=True, stdout=subprocess.DEVNULL)
        with open(other, "wb") as file:
            file.write(moved(sheet))
        print("\n| second sheet | compare | diff | ratio | memory / size of both, compare | diff | lines |\n|---|---|---|---|---|---|---|")
        compared("its canonical file", [scd, dic, vec, same], len(sheet) + os.path.getsize(same), rounds)
        compared("a node moved", [scd, dic, vec, other], 2 * len(sheet), rounds)


main()
