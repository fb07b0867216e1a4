#!/usr/bin/env python3
"""Times the built program against the plain Rust program on the same bundles.

    cd crates/edicad && rt run < ../../examples/node/bundle     builds out/edicad
    python3 bench/run.py [KIND:SIZE ..]                         from the top; needs rustc

Each bundle goes through both programs in turn, best of five; their outputs must be the same. Printed: size of the
bundle, best times, their ratio, and the peak memory of each as a multiple of the size. Files go to bench/out.
"""
import filecmp
import os
import subprocess
import sys
import time

HERE = os.path.dirname(os.path.abspath(__file__))
OUT = os.path.join(HERE, "out")
PROGRAM = os.path.join(HERE, "..", "crates", "edicad", "out", "edicad")
PLAIN = os.path.join(OUT, "plain")
USUAL = ["nodes:100000", "nodes:1000000", "attributes:20000", "attributes:200000", "classes:10000", "classes:100000"]


def made(kind, size):
    path = os.path.join(OUT, f"{kind}_{size}.bundle")
    if not os.path.exists(path):
        with open(path, "wb") as file:
            subprocess.run([sys.executable, os.path.join(HERE, "generate.py"), kind, size], stdout=file, check=True)
    return path


def timed(program, bundle, answer):
    """Seconds and peak memory in bytes of one run. The memory is at least that of this script, about 10 MB."""
    with open(bundle, "rb") as source, open(answer, "wb") as target:
        start = time.perf_counter()
        process = subprocess.Popen([program], stdin=source, stdout=target)
        _, status, usage = os.wait4(process.pid, 0)
        seconds = time.perf_counter() - start
    if os.waitstatus_to_exitcode(status) != 0:
        sys.exit(f"{program} answers {os.waitstatus_to_exitcode(status)} on {bundle}")
    return seconds, usage.ru_maxrss * 1024


def compared(kind, size):
    bundle = made(kind, size)
    answers = [os.path.join(OUT, "proved.vec"), os.path.join(OUT, "plain.vec")]
    runs = [[], []]
    for _ in range(5):
        for k, program in enumerate((PROGRAM, PLAIN)):
            runs[k].append(timed(program, bundle, answers[k]))
    if not filecmp.cmp(*answers, shallow=False):
        sys.exit(f"the answers on {bundle} differ")
    count = os.path.getsize(bundle)
    best = [min(seconds for seconds, _ in run) for run in runs]
    peak = [max(memory for _, memory in run) for run in runs]
    print(f"| {kind} {size} | {count / 1e6:.1f} MB | {best[0]:.2f} s | {best[1]:.2f} s | {best[0] / best[1]:.2f} "
          f"| {peak[0] / count:.1f} | {peak[1] / count:.1f} |", flush=True)


def main():
    os.makedirs(OUT, exist_ok=True)
    subprocess.run(["rustc", "-O", "--edition", "2024", os.path.join(HERE, "plain", "main.rs"), "-o", PLAIN], check=True)
    print("| bundle | size | proved | plain | ratio | memory / size | plain's |")
    print("|---|---|---|---|---|---|---|")
    for word in sys.argv[1:] or USUAL:
        compared(*word.split(":"))


if __name__ == "__main__":
    main()
