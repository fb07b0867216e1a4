#!/usr/bin/env python3
"""Compares the built program with the plain Rust program on bundles that were changed at random.

    cd crates/edicad && rt run < ../../examples/node/bundle     builds out/edicad
    python3 bench/fuzz.py [ROUNDS [SEED]]                       from the top; needs rustc

Each round changes the parcel example in a few places (a line dropped, doubled or moved, a byte, a number, an end, a class)
and hands the bundle to both programs. Their outputs and exit statuses must be the same. Printed: how many bundles were
accepted, and how often each rule was met.
"""
import collections
import os
import random
import re
import subprocess
import sys

HERE = os.path.dirname(os.path.abspath(__file__))
OUT = os.path.join(HERE, "out")
PROGRAM = os.path.join(HERE, "..", "crates", "edicad", "out", "edicad")
PLAIN = os.path.join(OUT, "plain")
PARCEL = os.path.join(HERE, "..", "examples", "parcel")
HEAD = re.compile(rb"[A-Z]{3}..\d\d:")


def read(name):
    with open(os.path.join(PARCEL, name), "rb") as file:
        return file.read()


def said(line):
    """The line with the length that its value has."""
    value = line[8:]
    return line[:5] + b"%02d:" % len(value) + value if HEAD.match(line) and len(value) < 100 else line


def changed(lines, generator):
    """The lines with one change."""
    lines = list(lines)
    at = generator.randrange(len(lines))
    other = generator.randrange(len(lines))
    way = generator.randrange(9)
    if way == 0:
        del lines[at]
    elif way == 1:
        lines.insert(other, lines[at])
    elif way == 2:
        lines[at], lines[other] = lines[other], lines[at]
    elif way == 3 and lines[at]:
        k = generator.randrange(len(lines[at]))
        lines[at] = lines[at][:k] + bytes([generator.choice(b" ;:+-.019AZaz\r")]) + lines[at][k + 1:]
    elif way == 4:
        lines[at] = said(lines[at].replace(b"_1", b"_2") if b"_1" in lines[at] else lines[at].replace(b"_2", b"_1"))
    elif way == 5:
        lines[at] = said(re.sub(rb"\d+\.\d+", generator.choice([b"0", b"10", b"5.0", b"-0.5"]), lines[at], count=1))
    elif way == 6:
        kinds = [b"INI_id", b"FIN_id", b"GCH_id", b"DRT_id", b"CMP_id", b"NOD_id", b"FAC_id"]
        lines[at] = re.sub(rb"(INI|FIN|GCH|DRT|CMP|NOD|FAC)_id", generator.choice(kinds), lines[at])
    elif way == 7:
        starts = [k for k, line in enumerate(lines) if line.startswith(b"RTY")] + [len(lines) - 1]
        k = generator.randrange(max(1, len(starts) - 1))
        part = lines[starts[k]:starts[k + 1]] if k + 1 < len(starts) else []
        lines[-1:-1] = [said(line.replace(b"_1", b"_8").replace(b"_3", b"_9")) if line.startswith(b"RID") else line for line in part]
    elif way == 8:
        extra = generator.choice([b"TYPSN01:1", b"ATCSN01:1", b"SNSSA01:x", b"CORCC05:+1;+2", b"REFCP03:;;;", b"REMT 02:hi", b"NEXT 01:5", b""])
        lines.insert(at, extra)
    return lines


def answer(program, bundle):
    done = subprocess.run([program], input=bundle, capture_output=True)
    return done.returncode, done.stdout


def main():
    rounds = int(sys.argv[1]) if len(sys.argv) > 1 else 2000
    generator = random.Random(int(sys.argv[2]) if len(sys.argv) > 2 else 1)
    os.makedirs(OUT, exist_ok=True)
    subprocess.run(["rustc", "-O", "--edition", "2024", os.path.join(HERE, "plain", "main.rs"), "-o", PLAIN], check=True)
    files = [read(name) for name in ("schema.scd", "dictionary.dic")]
    sheets = [read(name).split(b"\n") for name in ("sheet.vec", "same_plan.vec")]
    met = collections.Counter()
    for _ in range(rounds):
        scd, dic = files
        lines = generator.choice(sheets)
        for _ in range(generator.choice([1, 1, 1, 2, 2, 3, 5])):
            lines = changed(lines, generator)
        if generator.random() < 0.1:
            scd = b"\n".join(changed(scd.split(b"\n"), generator))
        if generator.random() < 0.05:
            dic = b"\n".join(changed(dic.split(b"\n"), generator))
        bundle = scd + dic + b"\n".join(lines)
        ours, plain = answer(PROGRAM, bundle), answer(PLAIN, bundle)
        if ours != plain:
            path = os.path.join(OUT, "differs.bundle")
            with open(path, "wb") as file:
                file.write(bundle)
            sys.exit(f"{path}: {ours[0]} {ours[1][:80]!r} against {plain[0]} {plain[1][:80]!r}")
        met["accepted" if ours[0] == 0 else b" ".join(ours[1].split()[:3] if b"scd" in ours[1] or b"dic" in ours[1] or b"kinds" in ours[1] else ours[1].split()[:2]).decode()] += 1
    print(f"{rounds} bundles answered alike")
    for name, count in sorted(met.items()):
        print(f"{count:6} {name}")


if __name__ == "__main__":
    main()
