#!/usr/bin/env python3
"""Times digests of many sheets from Python, by four threads, against one run of `edicad hash` over the same files.

    cd crates/edicad && rt run -- --version      builds out/edicad
    library/build.sh                             builds library/out/libedicad.so.1
    python3 bench/embedded.py [COUNT [ROUNDS]]   from the top; COUNT is how many sheets (5000), ROUNDS how often (3)

The sheets have 0.1 MB each; twenty differ, and the others are links to them, so that what is measured is no disk. In turn, best of ROUNDS:
one run of `hash` over all of them; four runs of it side by side, over a quarter each, which is the most that this machine gives
four at a time; and python/examples/hash_folder.py, the start of Python included. All have to write the same digests. Printed: the seconds of each
by the clock, and how many times a quarter of the first's that is; and its seconds of a processor, and how many times the first's. The clock means
something only where nothing else runs, or where this goes ahead of it (chrt -r 1 python3 bench/embedded.py, as root).
"""
import io
import os
import pathlib
import subprocess
import sys
import tempfile
import time

HERE = pathlib.Path(__file__).resolve().parent
TOP = HERE.parent
PROGRAM = TOP / "crates" / "edicad" / "out" / "edicad"
LIBRARY = TOP / "library" / "out" / "libedicad.so.1"
EXAMPLE = TOP / "python" / "examples" / "hash_folder.py"
THREADS, SHEETS, SIZE = 4, 20, 100_000

sys.path.insert(0, str(HERE))

import generate  # noqa: E402


def bundle(side):
    """A schema, a dictionary and a sheet with an object for each of side * side parcels."""
    out = io.StringIO()
    generate.parcels(side, out, True)
    return [(part + generate.END).encode("ascii") for part in out.getvalue().split(generate.END)[:3]]


def make(folder, count):
    """Writes the schema's files and the sheets, and gives their paths."""
    side = next(it for it in range(2, 100) if len(bundle(it)[2]) > SIZE)
    scd, dic, sheet = bundle(side)
    (folder / "schema.scd").write_bytes(scd)
    (folder / "schema.dic").write_bytes(dic)
    (folder / "sheets").mkdir()
    paths = [folder / "sheets" / f"{it:05}.vec" for it in range(count)]
    for it, path in enumerate(paths):
        if it < SHEETS:
            path.write_bytes(sheet.replace(b":parcel 1\n", b":parcel %c\n" % (ord("A") + it)))
        else:
            os.link(paths[it % SHEETS], path)
    return [str(folder / "schema.scd"), str(folder / "schema.dic")], [str(it) for it in paths]


def timed(many, **named):
    """Runs these commands side by side: their seconds by the clock and of processors, and what they wrote, in order."""
    outputs = [tempfile.TemporaryFile() for _ in many]
    start = time.monotonic()
    running = [subprocess.Popen(words, stdout=output, **named) for words, output in zip(many, outputs)]
    ended = [os.wait4(it.pid, 0) for it in running]
    taken = time.monotonic() - start
    if any(status for _, status, _ in ended):
        sys.exit(f"{many[0][:3]}: status {[status for _, status, _ in ended]}")
    used = sum(usage.ru_utime + usage.ru_stime for _, _, usage in ended)
    return taken, used, b"".join(written(output) for output in outputs)


def written(output):
    with output:
        output.seek(0)
        return output.read()


def in_turn(ways, rounds):
    """What each way takes and writes, one after the other, so many times."""
    runs = {name: [] for name in ways}
    for _ in range(rounds):
        for name, way in ways.items():
            runs[name].append(way())
    return runs


def main():
    count = int(sys.argv[1]) if len(sys.argv) > 1 else 5000
    rounds = int(sys.argv[2]) if len(sys.argv) > 2 else 3
    env = {**os.environ, "PYTHONPATH": str(TOP / "python"), "EDICAD_LIBRARY": str(LIBRARY)}
    with tempfile.TemporaryDirectory() as folder:
        folder = pathlib.Path(folder)
        schema, paths = make(folder, count)
        quarter = -(-count // THREADS)
        parts = [paths[at : at + quarter] for at in range(0, count, quarter)]
        ways = {
            "one run of hash": lambda: timed([[PROGRAM, "hash", *schema, *paths]]),
            "four runs of hash": lambda: timed([[PROGRAM, "hash", *schema, *part] for part in parts]),
            "four threads of Python": lambda: timed([[sys.executable, EXAMPLE, *schema, folder / "sheets"]], env=env),
        }
        runs = in_turn(ways, rounds)
    if len({lines for run in runs.values() for _, _, lines in run}) != 1:
        sys.exit("the digests differ")
    best = {name: [min(it[part] for it in run) for part in (0, 1)] for name, run in runs.items()}
    clock, processor = best["one run of hash"]
    for name, (seconds, used) in best.items():
        print(f"{name}: {seconds:.2f} s by the clock, {seconds / clock * THREADS:.2f} quarters; {used:.2f} s of a processor, {used / processor:.2f}")


if __name__ == "__main__":
    main()
