#!/usr/bin/env python3
"""Runs the built program as its users do, and looks at what it writes, where, and with which status.

    rt ci && python3 program/run.py        from the top. `rt ci` leaves the program in crates/edicad/out as each of the two
                                           compilers builds it; both have to be there, and are tried side by side
    program/run.py --program PATH          one program, as `rt run` in crates/edicad leaves it, or program/trial.py builds it
    program/run.py --without mount ..      without what needs `mount` (a full disk, a disk that is read-only); without
                                           `preload` or `growths`, which need `cc`; without `kills`, `records` (ten million records) or `stacks`

Its last line is `N passed, M failed`; the status is 1 where M isn't 0. How many checks there are is stated below.
"""
import argparse
import os
import re
import shutil
import subprocess
import sys
import tempfile
import traceback

# the modules beside this file leave nothing behind
sys.dont_write_bytecode = True

from answered import answers, digests, explanations, names, page
from cases import all_cases, named, read_cases
from census import censuses
from changed import changes
from delivered import deliveries
from commands import differences, files, hashes, kinds_noted, manual, pairings, shown, standard_streams, terminal, words
from explained import explains, explains_hints, explains_kinds, explains_lengths, explains_partners, explains_rules, explains_zones
from held import held
from hostile import full_disk, hostile_folders, kills, most_records
from manifested import manifests
from paired import paired
from pictured import pictures
from preloaded import made_files, refused_growths
from presentations import presentations
from progress import progress
from room import Report, Room
from stacks import stacks

HERE = os.path.dirname(os.path.abspath(__file__))
MADE = os.path.join(HERE, "..", "crates")
BUILDS = ("edicad", "edicad.by-rattle")

# What is tried, and how many checks each part makes of one build. A part that makes another number has failed, since a check
# was lost, or wasn't made. Who adds or takes away checks or cases on purpose changes the number here.
PARTS = {
    "cases": 3428,
    "words": 219,
    "files": 79,
    "standard streams": 51,
    "shown": 8,
    "hashes": 46,
    "deliveries": 47,
    "manifests": 110,
    "changes": 35,
    "lists held": 29,
    "kinds noted": 31,
    "explains": 81,
    "explains kinds": 16,
    "censuses": 32,
    "answers as JSON": 41,
    "digests as JSON": 14,
    "explanations as JSON": 17,
    "page of JSON": 3,
    "names of objects": 13,
    "pairings": 115,
    "paired": 183,
    "differences": 106,
    "presentations": 120,
    "pictures": 123,
    "explains partners": 5,
    "explains hints": 32,
    "explains lengths": 9,
    "explains rules": 96,
    "explains zones": 46,
    "manual": 26,
    "terminal": 3,
    "progress": 12,
    "stacks": 39,
    "hostile folders": 11,
    "mount": 5,
    "preload": 134,
    "growths": 4,
    "records": 3,
    "kills": 8,
}
# the parts that can be left out, and those that are made of the first build alone
OPTIONAL = ("mount", "preload", "growths", "kills", "records", "stacks")
OF_ONE = ("growths", "kills", "records", "stacks")


def works():
    """The parts by their names."""
    cases = read_cases()
    node = named(cases, "nodes: one node")
    sheet, canonical = node.inputs[0].encode("latin-1"), node.wanted.replace("\n", "\r\n").encode("latin-1")
    made = {
        "cases": lambda room: all_cases(room, cases),
        "words": words,
        "files": lambda room: files(room, sheet, canonical),
        "standard streams": lambda room: standard_streams(room, sheet, canonical),
        "shown": shown,
        "hashes": lambda room: hashes(room, sheet, canonical),
        "deliveries": deliveries,
        "manifests": manifests,
        "changes": changes,
        "lists held": lambda room: held(room, sheet, canonical),
        "kinds noted": lambda room: kinds_noted(room, sheet, canonical),
        "explains": lambda room: explains(room, sheet),
        "explains kinds": lambda room: explains_kinds(room, sheet),
        "censuses": lambda room: censuses(room, sheet),
        "answers as JSON": answers,
        "digests as JSON": lambda room: digests(room, sheet, canonical),
        "explanations as JSON": lambda room: explanations(room, sheet),
        "page of JSON": page,
        "names of objects": names,
        "pairings": lambda room: pairings(room, sheet),
        "paired": paired,
        "differences": differences,
        "presentations": presentations,
        "pictures": pictures,
        "explains partners": explains_partners,
        "explains hints": lambda room: explains_hints(room, sheet),
        "explains lengths": explains_lengths,
        "explains rules": explains_rules,
        "explains zones": explains_zones,
        "manual": manual,
        "terminal": terminal,
        "progress": progress,
        "stacks": stacks,
        "hostile folders": lambda room: hostile_folders(room, sheet),
        "mount": lambda room: full_disk(room, sheet),
        "preload": lambda room: made_files(room, sheet),
        "growths": refused_growths,
        "records": most_records,
        "kills": kills,
    }
    return (node.scd, node.dic), made


def try_part(report, program, files_of, name, work):
    """One part in a folder of its own, and whether it made as many checks as are stated."""
    folder = tempfile.mkdtemp(prefix="edicad-")
    os.chmod(folder, 0o755)
    before = report.made()
    try:
        work(Room(report, program, folder, *files_of))
    except Exception:
        report.failed += 1
        print(f"FAILED {name}: it broke off\n{traceback.format_exc()}", flush=True)
    finally:
        shutil.rmtree(folder, ignore_errors=True)
    made = report.made() - before
    if made != PARTS[name]:
        report.failed += 1
        print(f"FAILED {name}: {made} checks were made, and {PARTS[name]} are stated in program/run.py, PARTS. Where you added or took "
              "away checks or cases, change the number there; else a check was lost or could not be made", flush=True)


def try_program(made, parts):
    """These parts of one program, which is copied to where anybody may run it."""
    report = Report()
    place = tempfile.mkdtemp(prefix="edicad-bin-")
    os.chmod(place, 0o755)
    try:
        program = shutil.copy(made, os.path.join(place, "edicad"))
        os.chmod(program, 0o755)
        files_of, known = works()
        for name in parts:
            try_part(report, program, files_of, name, known[name])
    finally:
        shutil.rmtree(place)
    print(f"{report.passed} passed, {report.failed} failed")
    return report.failed


def parts_of(number, without):
    """The parts that are made of the first build, or of a later one."""
    return [name for name in PARTS if name not in without and (number == 0 or name not in OF_ONE)]


def lacking():
    """What is wrong with the builds. Where the second compiler refuses a program, `rt ci` prints a note and goes on."""
    found = []
    for crate in ("edicad", "conform"):
        first, second = [os.path.join(MADE, crate, "out", name) for name in (crate, crate + ".by-rattle")]
        for path in (first, second):
            if not os.path.isfile(path):
                found.append(f"crates/{crate}/out/{os.path.basename(path)} is missing: `rt ci` builds it, or says why it can't")
        if not found and os.path.getmtime(second) < os.path.getmtime(first):
            found.append(f"crates/{crate}/out/{crate}.by-rattle is older than crates/{crate}/out/{crate}: run `rt ci`, which builds both")
    return found


def try_builds(without):
    """Both builds side by side, each by a process of its own, whose lines come one after the other."""
    wrong = lacking()
    for it in wrong:
        print("FAILED " + it)
    if wrong:
        print(f"0 passed, {len(wrong)} failed")
        return 1
    runs = []
    for number, name in enumerate(BUILDS):
        said = tempfile.TemporaryFile("w+", errors="replace")
        command = [sys.executable, os.path.abspath(__file__), "--program", os.path.join(MADE, "edicad", "out", name)]
        for part in [it for it in PARTS if it not in parts_of(number, without)]:
            command += ["--without", part]
        runs.append((name, said, subprocess.Popen(command, stdout=said, stderr=subprocess.STDOUT)))
    totals = [0, 0]
    for name, said, run in runs:
        status = run.wait()
        said.seek(0)
        lines = said.read()
        print(f"{name}:\n{lines}", end="", flush=True)
        counted = re.search(r"^(\d+) passed, (\d+) failed\n\Z", lines, re.M)
        totals[0] += int(counted[1]) if counted else 0
        totals[1] += int(counted[2]) if counted else 1
        if status not in (0, 1) or not counted:
            print(f"FAILED {name}: it was not tried to its end, status {status}")
    print(f"{totals[0]} passed, {totals[1]} failed")
    return 1 if totals[1] else 0


def main():
    words_of = argparse.ArgumentParser(usage=__doc__)
    words_of.add_argument("--program", metavar="PATH")
    words_of.add_argument("--without", metavar="PART", action="append", default=[], choices=OPTIONAL)
    given = words_of.parse_args()
    for name in given.without:
        print(f"note: left out by --without: {name}", flush=True)
    if given.program:
        return 1 if try_program(given.program, parts_of(0, given.without)) else 0
    return try_builds(given.without)


if __name__ == "__main__":
    sys.exit(main())
