#!/usr/bin/env python3
"""Compares what the built program says of two sheets with what the plain Rust program's canonical files say.

    cd crates/edicad && rt run < ../../examples/node/bundle     builds out/edicad
    python3 bench/fuzz_pairs.py [ROUNDS [SEED]]                 from the top; needs rustc

Each round takes the parcel example and a sheet that states the same plan, changes one or both in a place or none, and
compares them. The answer must be: the plain program's refusal of the first, or else of the second; same where its two
canonical files are equal; else the first line in which they differ. Printed: how often each answer came.
"""
import collections
import os
import random
import subprocess
import sys

from fuzz import OUT, PLAIN, PROGRAM, answer, changed, read


def wanted(first, second):
    """Status and line, from the plain program's answers."""
    for word, (status, text) in ((b"first", first), (b"second", second)):
        if status != 0:
            return status, text.replace(b"refused ", b"refused " + word + b" ", 1)
    lines, others = first[1].split(b"\n"), second[1].split(b"\n")
    if lines == others:
        return 0, b"same\n"
    differ = [k for k, (line, other) in enumerate(zip(lines, others)) if line != other]
    return 1, b"different at line %d\n" % ((differ or [min(len(lines), len(others))])[0] + 1)


def main():
    rounds = int(sys.argv[1]) if len(sys.argv) > 1 else 1000
    generator = random.Random(int(sys.argv[2]) if len(sys.argv) > 2 else 1)
    os.makedirs(OUT, exist_ok=True)
    subprocess.run(["rustc", "-O", "--edition", "2024", os.path.join(os.path.dirname(os.path.abspath(__file__)), "plain", "main.rs"), "-o", PLAIN], check=True)
    scd, dic = read("schema.scd"), read("dictionary.dic")
    sheets = [read(name).split(b"\n") for name in ("sheet.vec", "same_plan.vec")]
    paths = [os.path.join(OUT, f"fuzz.{name}") for name in ("scd", "dic", "first", "second")]
    met = collections.Counter()
    for _ in range(rounds):
        pair = []
        for _ in range(2):
            lines = generator.choice(sheets)
            for _ in range(generator.choice([0, 0, 1, 1, 2])):
                lines = changed(lines, generator)
            pair.append(b"\n".join(lines))
        for path, text in zip(paths, [scd, dic, *pair]):
            with open(path, "wb") as file:
                file.write(text)
        done = subprocess.run([PROGRAM, "compare", *paths], capture_output=True)
        given, expected = (done.returncode, done.stdout), wanted(*(answer(PLAIN, scd + dic + text) for text in pair))
        if given != expected:
            sys.exit(f"{paths}: {given} against {expected}")
        met[done.stdout.split()[0].decode() + (" " + done.stdout.split()[1].decode() if done.returncode == 2 else "")] += 1
    print(f"{rounds} pairs answered alike")
    for name, count in sorted(met.items()):
        print(f"{count:6} {name}")


main()
