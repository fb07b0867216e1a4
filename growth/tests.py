#!/usr/bin/env python3
"""Refuses each growth of memory of the cases, which run each public call that can answer lack of memory, and of the built tests.

    cd crates/conform/data && rt run conform builds out/conform
    cd crates/NAME && rt test                builds out/NAME_tests
    python3 growth/tests.py [NAME ..]        from the top; needs cc. NAME is conform, a crate with tests, or a file of cases

Each growth is refused in a copy of the run (growth/each.c), none is left out. A copy must end in one of three ways: as with
ample memory; with the right answer of a call that was made again, with ample memory then, under the same schema and over the same
sheets; or with an error that tells of memory, where the case itself could not be read or written down. An answer that differs
from the one with ample memory fails its case or its test. Growths before a file of cases is read are not counted.
"""
import os
import subprocess
import sys
import tempfile

HERE = os.path.dirname(os.path.abspath(__file__))
CRATES = os.path.join(HERE, "..", "crates")
# the cases of conform, and those that program/run.py asks the program, whose calls conform makes too
FOLDERS = [os.path.abspath(it) for it in (os.path.join(CRATES, "conform", "data"), os.path.join(HERE, "..", "program", "cases"))]
# these make the calls of other files again for each byte, read or write: too many copies that run on for too long
LOOPS = {"cuts.cases", "failing_reads.cases", "failing_writes.cases", "pieces.cases"}
# these are of the program's commands alone
COMMANDS = {"bundles.cases", "diff.cases", "verify.cases"}
USUAL = ["conform", "edi_schema_text"]


def sweep(name, program, word, library, files):
    """Runs the program with this word, and prints how often a growth was refused and what came of it."""
    reading, writing = os.pipe()
    environment = dict(os.environ, LD_PRELOAD=library, COUNTS=str(writing), FILES=str(files))
    done = subprocess.Popen([program, word], stdin=subprocess.DEVNULL, stdout=subprocess.PIPE, stderr=subprocess.STDOUT,
                            env=environment, pass_fds=[writing])
    os.close(writing)
    said, _ = done.communicate()
    with os.fdopen(reading, "rb") as counts:
        counted = counts.read().decode(errors="replace")
    if done.returncode != 0 or counted.count("\n") != 1:
        sys.exit(f"{name}: {counted}{said.decode(errors='replace')}")
    growths, same, again, memory = [int(it) for it in counted.split()]
    print(f"| {name} | {growths} | {again} | {memory} | {same} |", flush=True)
    return growths


def listed(program):
    """The names of the tests of a program."""
    lines = subprocess.run([program, "--list"], capture_output=True, text=True, check=True).stdout.splitlines()
    return [line[:-len(": test")] for line in lines if line.endswith(": test")]


def swept(name, library):
    """The growths of a crate's tests, of all files of cases, or of one."""
    if name == "conform" or name.endswith(".cases"):
        program = os.path.abspath(os.path.join(CRATES, "conform", "out", "conform"))
        known = {it: os.path.join(folder, it) for folder in FOLDERS for it in os.listdir(folder) if it.endswith(".cases")}
        files = sorted(set(known) - LOOPS - COMMANDS) if name == "conform" else [name]
        return sum(sweep(it, program, known[it], library, 1) for it in files)
    program = os.path.abspath(os.path.join(CRATES, name, "out", f"{name}_tests"))
    return sum(sweep(f"{name}: {it}", program, it, library, 0) for it in listed(program))


def main():
    print("| cases or test | growths refused | made again with memory | ended for lack of memory | as with ample memory |")
    print("|---|---|---|---|---|")
    with tempfile.TemporaryDirectory() as folder:
        library = os.path.join(folder, "each.so")
        subprocess.run(["cc", "-O1", "-shared", "-fPIC", os.path.join(HERE, "each.c"), "-o", library, "-ldl"], check=True)
        total = sum(swept(name, library) for name in sys.argv[1:] or USUAL)
    print(f"{total} growths refused in turn, each answered as it should be")


main()
