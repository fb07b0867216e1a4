#!/usr/bin/env python3
"""Times the built program against another program that takes the same words, on one sheet in one run.

    cd crates/edicad && rt run -- --version                 builds out/edicad
    python3 bench/against.py OTHER SCD DIC VEC [ROUNDS]     from the top; OTHER is the path of a program

`check`, `canon` to a file and `compare` of the sheet with its canonical file, in turn, best of ROUNDS (five). The answers
and the canonical files must be equal. Printed: seconds of user and system time, their ratio, and the peak memory of
each as a multiple of what it reads. Trust the ratios alone: both programs ran on the same machine in turn.
"""
import filecmp
import os
import subprocess
import sys
import tempfile

HERE = os.path.dirname(os.path.abspath(__file__))
PROGRAM = os.path.join(HERE, "..", "crates", "edicad", "out", "edicad")


def timed(program, words):
    """What a run prints, its seconds of processor time and its peak memory in bytes."""
    process = subprocess.Popen([program, *words], stdout=subprocess.PIPE)
    text = process.stdout.read()
    _, status, usage = os.wait4(process.pid, 0)
    if os.waitstatus_to_exitcode(status) != 0:
        sys.exit(f"{program} {words[0]} ends with {os.waitstatus_to_exitcode(status)}")
    return text, usage.ru_utime + usage.ru_stime, usage.ru_maxrss * 1024


def compared(other, rounds, name, words_of, size):
    """One line of the table: the two programs in turn."""
    runs = [[], []]
    for _ in range(rounds):
        for k, program in enumerate((PROGRAM, other)):
            runs[k].append(timed(program, [name, *words_of(k)]))
    if runs[0][0][0] != runs[1][0][0]:
        sys.exit(f"the answers of {name} differ")
    best = [min(seconds for _, seconds, _ in run) for run in runs]
    peak = [max(memory for _, _, memory in run) / size for run in runs]
    print(f"| {name} | {best[0]:.2f} s | {best[1]:.2f} s | {best[0] / best[1]:.2f} | {peak[0]:.1f} | {peak[1]:.1f} |", flush=True)


def main():
    other, scd, dic, vec = sys.argv[1:5]
    rounds = int(sys.argv[5]) if len(sys.argv) > 5 else 5
    with tempfile.TemporaryDirectory() as folder:
        files = [os.path.join(folder, name) for name in ("proved.vec", "other.vec")]
        size = os.path.getsize(vec)
        print(f"{size / 1e6:.1f} MB\n")
        print("| | proved | other | ratio | memory / size | other's |")
        print("|---|---|---|---|---|---|")
        compared(other, rounds, "check", lambda k: [scd, dic, vec], size)
        compared(other, rounds, "canon", lambda k: [scd, dic, vec, files[k]], size)
        if not filecmp.cmp(*files, shallow=False):
            sys.exit("the canonical files differ")
        compared(other, rounds, "compare", lambda k: [scd, dic, vec, files[0]], size + os.path.getsize(files[0]))


if __name__ == "__main__":
    main()
