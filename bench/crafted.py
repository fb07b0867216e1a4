#!/usr/bin/env python3
"""Times the built program on names that somebody chose to be slow, against ordinary names of the same length.

    cd crates/edicad && rt run < ../../examples/node/bundle     builds out/edicad
    python3 bench/crafted.py [COUNT ..]                         from the top; needs rustc

For each COUNT: a sheet of so many nodes, and a schema of so many classes, whose identifiers would all fall into one group of
the kit's table of names if the hash, SipHash-1-3, had no key; `crafted.rs` finds them. Printed: the best of five runs with
ordinary and with crafted names, in turn, and their ratio, which is to be at most 2.
"""
import os
import random
import subprocess
import sys

from generate import END, begin, class_record, node, schema, zone
from run import HERE, OUT, PROGRAM, timed

FINDER = os.path.join(OUT, "crafted")
LETTERS = "ABCDEFGHIJKLMNOPQRSTUVWXYZabcdefghijklmnopqrstuvwxyz0123456789"


def crafted_names(kind, count):
    path = os.path.join(OUT, f"{kind}_{count}.names")
    if not os.path.exists(path):
        with open(path, "wb") as file:
            subprocess.run([FINDER, kind, str(count)], stdout=file, check=True)
    with open(path) as file:
        return file.read().split()


def ordinary_names(like):
    random.seed(7)
    return ["".join(random.choices(LETTERS, k=len(like[0]))) for _ in like]


def nodes(names):
    sheet = "".join(node(k, k % 1000 + 0.25, k // 1000 + 0.5).replace(zone("RIDSA", f"Noeud_{k}"), zone("RIDSA", name))
                    for k, name in enumerate(names))
    return schema(0) + begin("EDAB01T1.VEC") + sheet + END


def classes(names):
    text = schema(0)
    at = text.index(END)
    more = "".join(class_record("OBJ", name) for name in names)
    return text[:at] + more + text[at:] + begin("EDAB01T1.VEC") + node(1, 0, 0) + END


def bundle(what, names, name):
    path = os.path.join(OUT, f"{name}.bundle")
    with open(path, "w") as file:
        file.write({"nodes": nodes, "classes": classes}[what](names))
    return path


def compared(what, count):
    chosen = crafted_names({"nodes": "PNO", "classes": "OBJ"}[what], count)
    paths = [bundle(what, ordinary_names(chosen), f"ordinary_{what}"), bundle(what, chosen, f"crafted_{what}")]
    answer = os.path.join(OUT, "crafted.vec")
    runs = [[], []]
    for _ in range(5):
        for k, path in enumerate(paths):
            runs[k].append(timed(PROGRAM, path, answer)[0])
    best = [min(run) for run in runs]
    print(f"| {what} {count} | {best[0]:.2f} s | {best[1]:.2f} s | {best[1] / best[0]:.2f} |", flush=True)


def main():
    os.makedirs(OUT, exist_ok=True)
    subprocess.run(["rustc", "-O", "--edition", "2024", os.path.join(HERE, "crafted.rs"), "-o", FINDER], check=True)
    print("| names | ordinary | crafted | ratio |\n|---|---|---|---|")
    for count in map(int, sys.argv[1:] or ["40000", "200000"]):
        for what in ("nodes", "classes"):
            compared(what, count)


if __name__ == "__main__":
    main()
