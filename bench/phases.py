#!/usr/bin/env python3
"""Times the phases of the built program and of the plain one on one bundle.

    python3 bench/phases.py KIND:SIZE      from the top, after bench/run.py has made the bundle and the plain program

A fault is put at the end of the sheet, for each phase one that this phase alone finds; the time to its refusal is
that of all phases up to this one. Printed: the differences, best of three.
"""
import os
import subprocess
import sys
import time

from run import OUT, PLAIN, PROGRAM, made

END = b"EOMT 00:\n"
NODE = b"RTYSA03:PNO\nRIDSA05:again\nSCPCP22:EDAB01;SeSD;PGE;NOD_id\nCORCC12:+0.00;+0.00;\n"
OBJECT = b"RTYSA03:FEA\nRIDSA05:alik%d\nSCPCP27:EDAB01;SeSD;OBJ;PARCELLE_id\n"
PHASES = [
    ("lines", b"?\n", "line"),
    ("records", b"RTYSA03:XYZ\nRIDSA01:a\n", "201"),
    ("plan", b"RTYSA03:PNO\nRIDSA05:wrong\nSCPCP22:EDAB01;SeSD;PGE;NON_id\nCORCC12:+0.00;+0.00;\n", "30"),
    ("topology", NODE, "403"),
    ("ranking", OBJECT % 1 + OBJECT % 2, "501"),
    ("writing", b"", None),
]


def timed(program, bundle, expected):
    best = None
    for _ in range(3):
        with open(bundle, "rb") as source:
            start = time.perf_counter()
            done = subprocess.run([program], stdin=source, stdout=subprocess.PIPE, stderr=subprocess.PIPE)
            seconds = time.perf_counter() - start
        if expected is None and done.returncode != 0 or expected is not None and expected not in (done.stdout[:200] + done.stderr).decode():
            sys.exit(f"{program} answers {done.returncode}: {done.stdout[:200]} {done.stderr[:200]}")
        best = seconds if best is None else min(best, seconds)
    return best


def main():
    kind, size = sys.argv[1].split(":")
    with open(made(kind, size), "rb") as source:
        whole = source.read()
    changed = os.path.join(OUT, "phase.bundle")
    before = {PROGRAM: 0.0, PLAIN: 0.0}
    print("| phase | proved | plain |\n|---|---|---|")
    for name, fault, expected in PHASES:
        with open(changed, "wb") as target:
            target.write(whole[:-len(END)] + fault + END)
        row = []
        for program in (PROGRAM, PLAIN):
            until = timed(program, changed, expected)
            row.append(f"{until - before[program]:.2f} s")
            before[program] = until
        print(f"| {name} | {row[0]} | {row[1]} |", flush=True)


if __name__ == "__main__":
    main()
