#!/usr/bin/env python3
"""Times `delivery` over many deliveries in one run against `hash` over the same VEC files in one run, and over many lots in one folder.

    cd crates/edicad && rt run -- --version            builds out/edicad
    python3 bench/deliveries.py SCD DIC VEC [COUNT]    from the top; COUNT is how many deliveries (1000), each with four VEC files,
                                                       all of them this one
    python3 bench/deliveries.py --lots SCD DIC VEC [COUNT ..]
                                                       one delivery of COUNT lots (250, 1000 and 4000), each with one VEC file

Printed: seconds of user and system time of each, best of three, or of one run from 5,000 deliveries on; their ratio; and the peak of memory
of each and of `hash` of one VEC file, which says nothing below some 15 MB, as the system counts what this script has. Of lots: seconds of
`delivery`, `delivery --manifest` and `delivery --check`, one run each, and milliseconds a lot, which many lots should not make more.
"""
import os
import subprocess
import sys
import tempfile

HERE = os.path.dirname(os.path.abspath(__file__))
PROGRAM = os.environ.get("EDICAD", os.path.join(HERE, "..", "crates", "edicad", "out", "edicad"))
SHEETS = ("T1", "T2", "T3", "T4")
LOT = [("GNN", "SA", "SE"), ("GNI", "SA", "SeGEN"), ("GON", "SA", "SE"), ("GOI", "SA", "SeGEO"), ("QAN", "SA", "SE"),
       ("QAI", "SA", "SeQAL"), ("DIN", "SA", "SE"), ("DII", "SA", "SeDIC"), ("SCN", "SA", "SE"), ("SCI", "SA", "SeSD")]


def zone(head, value):
    return f"{head}{len(value):02}:{value}\n"


def lot_record(name, sheets):
    """The record of a lot with this name and these sheets."""
    head = zone("RTYSA", "GTL") + zone("RIDSA", f"LOT{name}") + zone("LONSA", name)
    lot = "".join(zone(code + nature, value) for code, nature, value in LOT) + zone("GDCSN", str(len(sheets)))
    return head + lot + "".join(zone("GDNSA", it) + zone("GDISA", f"Se{it}") for it in sheets)


def make(folder, scd, dic, vec, lots=("EDAB01",), sheets=SHEETS):
    """A delivery in a folder, of lots with these names, of which each has these sheets; the paths of its VEC files."""
    os.mkdir(folder)
    for lot in lots:
        for name, source in (("SE.SCD", scd), ("SE.DIC", dic), *((f"{it}.VEC", vec) for it in sheets)):
            os.link(source, f"{folder}/{lot}{name}")
        for name in ("GEN", "GEO", "QAL"):
            open(f"{folder}/{lot}SE.{name}", "w", encoding="ascii").close()
    with open(f"{folder}/EDAB01SE.THF", "w", encoding="ascii") as file:
        file.write(zone("BOMT ", "EDAB01SE.THF") + zone("CSET ", "IRV") + "".join(lot_record(it, sheets) for it in lots) + zone("EOMT ", ""))
    return [f"{folder}/{lot}{it}.VEC" for lot in lots for it in sheets]


def run(words):
    """The processor time of one run, its peak of memory in MB, and how many lines it wrote."""
    process = subprocess.Popen([PROGRAM, *words], stdout=subprocess.PIPE)
    lines = process.stdout.read().count(b"\n")
    _, _, usage = os.wait4(process.pid, 0)
    return usage.ru_utime + usage.ru_stime, usage.ru_maxrss / 1024, lines


def best(words, lines, runs):
    found = [run(words) for _ in range(runs)]
    assert all(it[2] == lines for it in found), "not each sheet has a digest"
    return min(found)


def copied(room, paths):
    """Copies of these files, to which links can be made."""
    files = []
    for path in paths:
        files.append(f"{room}/{len(files)}")
        with open(path, "rb") as source, open(files[-1], "wb") as to:
            to.write(source.read())
    return files


def time_lots(words):
    """Times one delivery of many lots."""
    counts = [int(it) for it in words[3:]] or [250, 1000, 4000]
    with tempfile.TemporaryDirectory(dir=".") as room:
        room = os.path.relpath(room)
        scd, dic, vec = copied(room, words[:3])
        for count in counts:
            folder, manifest = f"{room}/d{count}", f"{room}/m{count}"
            sheets = make(folder, scd, dic, vec, [f"L{it:05}" for it in range(count)], SHEETS[:1])
            took = []
            for options, lines in (([], len(sheets)), (["--manifest", manifest], 0), (["--check", manifest], 3 * count)):
                seconds, _, _ = best(["delivery", *options, folder], lines, 1)
                took.append(f"{seconds:.2f} s ({1000 * seconds / count:.2f} ms a lot)")
            print(f"{count} lots: delivery {took[0]}, --manifest {took[1]}, --check {took[2]}", flush=True)


def main():
    if sys.argv[1] == "--lots":
        return time_lots(sys.argv[2:])
    count = int(sys.argv[4]) if len(sys.argv) > 4 else 1000
    with tempfile.TemporaryDirectory(dir=".") as room:
        room = os.path.relpath(room)
        scd, dic, vec = copied(room, sys.argv[1:4])
        paths = [f"{room}/d{it}" for it in range(count)]
        sheets = [sheet for it in paths for sheet in make(it, scd, dic, vec)]
        runs = 3 if count < 5000 else 1
        together, peak, _ = best(["hash", scd, dic, *sheets], len(sheets), runs)
        delivered, peak_delivered, _ = best(["delivery", *paths], len(sheets), runs)
        _, single, _ = best(["hash", scd, dic, vec], 1, runs)
        size = 4 * os.path.getsize(vec) / 1e6
    print(f"{count} deliveries of {size:.2f} MB: hash {together:.2f} s, {peak:.1f} MB; delivery {delivered:.2f} s, {peak_delivered:.1f} MB; "
          f"{delivered / together:.2f} times; hash of one VEC file {single:.1f} MB")


main()
