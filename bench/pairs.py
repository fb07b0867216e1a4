#!/usr/bin/env python3
"""Times the built program's comparison of two sheets.

    cd crates/edicad && rt run < ../../examples/node/bundle     builds out/edicad
    python3 bench/pairs.py [KIND:SIZE ..]                       from the top, after bench/run.py has made the plain program

Each sheet is compared with its canonical file, which states the same plan, and with that file less its last record.
Printed: size of both sheets, best time of three, the plain program's time for the canonical files of both (it has no
comparison), their ratio, and the peak memory as a multiple of the size.
"""
import os
import subprocess
import sys
import time

from run import OUT, PLAIN, PROGRAM, made

END = b"EOMT 00:\n"
USUAL = ["nodes:1000000", "parcels:90", "parcels:288", "objects:100"]


def timed(words, source, expected):
    """Seconds and peak memory in bytes of a run that must end with this status. The memory is at least that of this script."""
    with open(source, "rb") as bundle:
        start = time.perf_counter()
        process = subprocess.Popen(words, stdin=bundle, stdout=subprocess.DEVNULL)
        _, status, usage = os.wait4(process.pid, 0)
        seconds = time.perf_counter() - start
    if os.waitstatus_to_exitcode(status) != expected:
        sys.exit(f"{words} ends with {os.waitstatus_to_exitcode(status)}")
    return seconds, usage.ru_maxrss * 1024


def written(name, *parts):
    path = os.path.join(OUT, name)
    with open(path, "wb") as file:
        for part in parts:
            file.write(part)
    return path


def prepared(bundle):
    """The files of the sheet, its canonical file, that file less its last record, a bundle with it, and the size of both sheets."""
    with open(bundle, "rb") as file:
        text = file.read()
    ends = [text.index(END) + len(END)]
    ends.append(text.index(END, ends[0]) + len(END))
    scd, dic, sheet = text[:ends[0]], text[ends[0]:ends[1]], text[ends[1]:]
    files = [written("pair.scd", scd), written("pair.dic", dic), written("pair.vec", sheet)]
    same = os.path.join(OUT, "pair_same.vec")
    subprocess.run([PROGRAM, "canon", *files, same], stdout=subprocess.DEVNULL, check=True)
    with open(same, "rb") as file:
        canonical = file.read()
    less = written("pair_less.vec", canonical[:canonical.rindex(b"RTYSA")], END)
    return files, same, less, written("pair.bundle", scd, dic, canonical), len(sheet) + len(canonical)


def compared(kind, size):
    bundle = made(kind, size)
    files, same, less, again, count = prepared(bundle)
    plain = sum(min(timed([PLAIN], path, 0)[0] for _ in range(3)) for path in (bundle, again))
    for word, path, status in (("same", same, 0), ("different", less, 1)):
        runs = [timed([PROGRAM, "compare", *files, path], os.devnull, status) for _ in range(3)]
        best, peak = min(seconds for seconds, _ in runs), max(memory for _, memory in runs)
        print(f"| {kind} {size}, {word} | {count / 1e6:.1f} MB | {best:.2f} s | {plain:.2f} s | {best / plain:.2f} | {peak / count:.1f} |", flush=True)


def main():
    print("| sheets | size of both | proved | plain, canonical files | ratio | memory / size |")
    print("|---|---|---|---|---|---|")
    for word in sys.argv[1:] or USUAL:
        compared(*word.split(":"))


if __name__ == "__main__":
    main()
