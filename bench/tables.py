#!/usr/bin/env python3
"""Measures all that README.md has tables of, and prints them.

    cd crates/edicad && rt run -- --version      builds out/edicad, or `rt ci` leaves it there
    python3 bench/tables.py OTHER [PART ..]      from the top; OTHER is a program that takes the same words

A part is one of those that parts() names. Without any all are measured, in some 70 minutes. Times say something only where nothing else runs.
It ends with 1 where a part fails: where the answers of the two programs differ, or a phase takes a tenth more than phases.json says.
"""
import os
import subprocess
import sys

HERE = os.path.dirname(os.path.abspath(__file__))


def parts(other):
    """Of each part its name, what it shows, and its words."""
    parity = ["parity.py", other]
    return [
        ("million", "Time and memory of a million records", [*parity, "--records", "1000000"]),
        ("millions", "Of three million", [*parity, "--records", "3000000", "--rounds", "3", "in file order", "in random order"]),
        ("hundred", "Of a hundred thousand", [*parity, "--rounds", "15"]),
        ("ten", "Of ten thousand", [*parity, "--records", "10000", "--rounds", "60"]),
        ("instructions", "Instructions", [*parity, "--instructions", "--records", "30000"]),
        ("phases", "Phases", [*parity, "--phases"]),
        ("beside", "Beside `check` and `compare`", ["beside.py"]),
        ("shapes", "Shapes", ["shapes.py"]),
        ("commands", "Shapes through the other commands", ["shapes.py", "--commands"]),
        ("growth", "How their instructions grow", ["shapes.py", "--growth"]),
    ]


def main():
    other, *wanted = sys.argv[1:]
    failed = []
    for name, title, (script, *words) in parts(os.path.abspath(other)):
        if wanted and name not in wanted:
            continue
        print(f"\n## {title}\n", flush=True)
        if subprocess.run([sys.executable, os.path.join(HERE, script), *words], check=False).returncode != 0:
            failed.append(name)
    if failed:
        sys.exit(f"failed: {', '.join(failed)}")


if __name__ == "__main__":
    main()
