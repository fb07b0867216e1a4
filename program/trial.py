#!/usr/bin/env python3
"""Tries the program and the cases of the library calls in some minutes, without a proof.

    python3 program/trial.py [--without PART ..]   from the top; needs `rt` on the PATH, two processors or more, 4 GB. PART is
                                                   `mount`, or `preload`, which needs `cc`

`rt try` builds crates/edicad and crates/conform without proving them, with checks that stop a run at a bad access or an
overflow. The output of conform is compared with crates/conform/stdout, and the program is tried by program/run.py. What this
doesn't show: anything that is proved, since no proof is looked at; the must-fail edits and the tests of the crates; the
program as the two compilers build it, which is other code than is tried here, and fast, and what stack it needs; runs that are
killed, growths of memory that are refused, and a file of ten million records. The status is 1 where anything failed.
"""
import os
import shutil
import subprocess
import sys
import tempfile
import time

HERE = os.path.dirname(os.path.abspath(__file__))
TOP = os.path.join(HERE, "..")
EDICAD = os.path.join(TOP, "crates", "edicad")
CONFORM = os.path.join(TOP, "crates", "conform")
# how long a build and its run may take
SECONDS = 900


def content(path):
    with open(path, "rb") as file:
        return file.read()


def start(crate, words, source, folder):
    """`rt try` in a crate, with its files of work below this folder."""
    said = {"stdout": open(os.path.join(folder, "stdout"), "wb"), "stderr": open(os.path.join(folder, "stderr"), "wb")}
    work = os.path.join(folder, "work")
    os.mkdir(work)
    with open(source, "rb") as given:
        return subprocess.Popen(["rt", "try", *words], cwd=crate, stdin=given, env={**os.environ, "TMPDIR": work}, **said)


def keep_program(run, folder):
    """The program that `rt try` builds, which it would remove: a link to it, made while the run lasts."""
    kept = []
    until = time.monotonic() + SECONDS
    while run.poll() is None and time.monotonic() < until:
        for at, _, names in os.walk(os.path.join(folder, "work")):
            link = os.path.join(folder, f"edicad-{len(kept)}")
            if "program" in names and at not in kept:
                try:
                    os.link(os.path.join(at, "program"), link)
                    kept.append(at)
                except OSError:
                    pass
        time.sleep(0.02)
    run.kill()
    run.wait()
    programs = [os.path.join(folder, f"edicad-{number}") for number in range(len(kept))]
    # the first is the linker's, where the kit makes a copy of it to run it
    return programs[0] if programs else None


def failed(what, folder, run):
    print(f"FAILED {what}; rt try ended with status {run.returncode} and said:")
    print(content(os.path.join(folder, "stderr")).decode(errors="replace"), end="", flush=True)
    return 1


def try_conform(run, folder):
    """Whether each case of the library calls has its answer."""
    try:
        run.wait(timeout=SECONDS)
    except subprocess.TimeoutExpired:
        run.kill()
        run.wait()
    said = content(os.path.join(folder, "stdout"))
    if run.returncode == 0 and said == content(os.path.join(CONFORM, "stdout")):
        print("conform: " + said.decode(errors="replace").splitlines()[-1], flush=True)
        return 0
    print(said.decode(errors="replace"), end="")
    return failed("conform: it printed something else than crates/conform/stdout has", folder, run)


def try_program(run, folder):
    """Whether the program that was built passes what program/run.py tries of it."""
    program = keep_program(run, folder)
    canonical = content(os.path.join(TOP, "examples", "node", "canonical.vec"))
    if program is None or run.returncode != 0 or content(os.path.join(folder, "stdout")) != canonical:
        return failed("edicad: it was not built, not kept, or its output on the example is another", folder, run)
    left_out = [word for part in ("kills", "growths", "records", "stacks") for word in ("--without", part)]
    words = ["--program", program, *left_out, *sys.argv[1:]]
    return subprocess.run([sys.executable, os.path.join(HERE, "run.py"), *words]).returncode


def main():
    names = content(os.path.join(CONFORM, "args")).decode().split()
    data = [word for name in names for word in ("--data", f"{name}=data/{name}")]
    folder = tempfile.mkdtemp(prefix="edicad-trial-")
    folders = [os.path.join(folder, name) for name in ("conform", "edicad")]
    for it in folders:
        os.mkdir(it)
    runs = []
    try:
        runs.append(start(CONFORM, [*data, "--seconds", str(SECONDS), "--", *names], os.devnull, folders[0]))
        runs.append(start(EDICAD, [], os.path.join(TOP, "examples", "node", "bundle"), folders[1]))
        status = try_program(runs[1], folders[1])
        status = try_conform(runs[0], folders[0]) or status
    finally:
        for run in runs:
            run.kill()
        shutil.rmtree(folder, ignore_errors=True)
    print("nothing was proved; program/trial.py says what else this doesn't show")
    return 1 if status else 0


if __name__ == "__main__":
    sys.exit(main())
