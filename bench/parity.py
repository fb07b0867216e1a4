#!/usr/bin/env python3
"""Times the built program against another program that takes the same words, on sheets of each sort.

    cd crates/edicad && rt run -- --version                   builds out/edicad, or `rt ci` leaves it there
    python3 bench/parity.py OTHER [--records N] [--rounds N] [--instructions] [SORT ..]
                                                              from the top; OTHER is the path of a program
    python3 bench/parity.py OTHER --phases [--keep]           instructions and allocations by phase, in file order

A sort is one of those that SORTS names; without any, all are tried. Of each sheet: `check`, `canon` to a file, `compare` with its canonical
file and with a sheet that differs, in turn, best of so many rounds (five). The answers and the canonical files must be equal. Printed: the
ratio of the seconds of user and system time, of the peak memory, which is some 12 MB at least, and of the page faults; with --instructions
the ratio of the instructions that callgrind counts, in one run of each. The files lie in memory (/dev/shm) where there is such a folder, so that no disk is
measured: `edicad canon` waits until a disk has stored its file, and other programs may not.

--phases puts a fault at the end of the sheet, for each phase one that this phase alone finds: what the phases up to it take is what a run
takes to its refusal. It compares the built program with what phases.json says, and fails where a phase takes a tenth more instructions or
allocations; --keep writes phases.json anew. All counts are those of callgrind, so they don't depend on what else the machine does.
"""
import argparse
import filecmp
import json
import math
import os
import re
import subprocess
import sys
import tempfile

HERE = os.path.dirname(os.path.abspath(__file__))
ROOM = "/dev/shm" if os.path.isdir("/dev/shm") else None
PROGRAM = os.path.join(HERE, "..", "crates", "edicad", "out", "edicad")
MEASURE = "--measure"
# lines whose value ends with a name: that of a record, or that of what a pointer points at
OWN, POINTERS = ("RID",), ("SCP", "ATP", "FTP", "DIP")
TYPES = ["PNO", "PAR", "PFE", "FEA", "LNK"]
# of each sort: what generate.py makes, whether in file order, the bytes that a name has at least, and whether lines end with CR LF
SORTS = {
    "in file order": ("objects", True, 0, False),
    "in random order": ("objects", False, 0, False),
    "names of 25 bytes": ("objects", True, 25, False),
    "names of 25 bytes, in random order": ("objects", False, 25, False),
    "CR LF": ("objects", True, 0, True),
    "without objects": ("parcels", True, 0, False),
}
# how many records there are for each parcel
RECORDS = {"objects": 14, "parcels": 12}
# what each phase alone finds: the lines that are put before the last, and the rule
NODE = ["RTYSA03:PNO", "RIDSA05:again", "SCPCP22:EDAB01;SeSD;PGE;NOD_id", "CORCC12:+0.00;+0.00;"]
PHASES = [
    ("lines and records", ["RTYSA03:XYZ", "RIDSA01:a"], "201"),
    ("names and plan", ["RTYSA03:PNO", "RIDSA05:wrong", "SCPCP22:EDAB01;SeSD;PGE;NON_id", "CORCC12:+0.00;+0.00;"], "302"),
    ("topology", NODE, "403"),
    ("objects", [line for k in "12" for line in ("RTYSA03:FEA", f"RIDSA05:alik{k}", "SCPCP27:EDAB01;SeSD;OBJ;PARCELLE_id")], "501"),
]
KEPT = os.path.join(HERE, "phases.json")
# how much more a phase may take than was kept
MORE = 1.1
# A large copy is one instruction of many bytes on some processors (`rep movsb`), and callgrind counts each byte of it. So the C library is told
# to copy by registers, as it does for small ones.
BY_REGISTERS = ":".join(f"glibc.cpu.x86_rep_{it}sb_threshold={1 << 40}" for it in ("mov", "sto"))


def long_name(name, width):
    return "x" * (width - len(name)) + name


def renamed(line, width):
    """The line with names of so many bytes at least."""
    head, value = line[:5], line[8:]
    if line[:3] in OWN:
        value = long_name(value, width)
    elif line[:3] in POINTERS:
        before, _, name = value.rpartition(";")
        value = f"{before};{long_name(name, width)}"
    else:
        return line
    return f"{head}{len(value):02}:{value}"


def in_file_order(lines):
    """The records by type and by the numbers in their identifiers."""
    starts = [at for at, line in enumerate(lines) if line.startswith("RTY")]
    records = [lines[a:b] for a, b in zip(starts, [*starts[1:], len(lines) - 1])]
    records.sort(key=lambda it: (TYPES.index(it[0][8:]), [int(number) for number in re.findall(r"\d+", it[1][8:])]))
    return [*lines[: starts[0]], *(line for it in records for line in it), lines[-1]]


def files_of(sort, records):
    """The three files of a sheet of this sort, and a sheet that differs from it in a value or a position."""
    kind, is_ordered, width, has_returns = SORTS[sort]
    side = max(2, math.isqrt(records // RECORDS[kind]))
    made = subprocess.run([sys.executable, os.path.join(HERE, "generate.py"), kind, str(side)], stdout=subprocess.PIPE, check=True).stdout.decode()
    parts = [it.lstrip("\n").split("\n") + ["EOMT 00:"] for it in made.split("EOMT 00:")[:3]]
    parts = [[line for line in it if line] for it in parts]
    if is_ordered:
        parts[2] = in_file_order(parts[2])
    parts = [[renamed(line, width) for line in it] for it in parts]
    last = max(at for at, line in enumerate(parts[2]) if line.startswith("ATV" if kind == "objects" else "TYP"))
    other = parts[2][:last] + [parts[2][last][:-1] + "7"] + parts[2][last + 1 :]
    end = "\r\n" if has_returns else "\n"
    return ["".join(line + end for line in it).encode() for it in (*parts, other)]


def measure(program, words):
    """Prints the status of a run, what it prints, its seconds of processor time, its peak memory in bytes and its page faults."""
    process = subprocess.Popen([program, *words], stdout=subprocess.PIPE)
    text = process.stdout.read().decode("latin-1")
    _, status, usage = os.wait4(process.pid, 0)
    print(json.dumps([os.waitstatus_to_exitcode(status), text, usage.ru_utime + usage.ru_stime, usage.ru_maxrss * 1024, usage.ru_minflt]))


def timed(program, words):
    """What a run prints, its seconds, its peak and its faults. A process of its own starts it, since a peak is at least that of what starts the run."""
    said = subprocess.run([sys.executable, __file__, MEASURE, program, *words], stdout=subprocess.PIPE, check=True).stdout
    status, *found = json.loads(said)
    if status > 1:
        sys.exit(f"{program} {' '.join(words)} ends with {status}")
    return found


def profiled(program, words):
    """How many instructions and allocations a run takes, and what it prints."""
    with tempfile.NamedTemporaryFile() as report:
        said = subprocess.run(["valgrind", "--tool=callgrind", f"--callgrind-out-file={report.name}", program, *words], capture_output=True, text=True,
                              env={**os.environ, "GLIBC_TUNABLES": BY_REGISTERS}, check=False)
        calls = allocations(report.read().decode(errors="replace").split("\n"))
    return int(re.search(r"Collected : (\d+)", said.stderr)[1]), calls, said.stdout


def allocations(lines):
    """How many calls of `malloc` and its kin a report of callgrind has."""
    names, total, called = {}, 0, ""
    for line in lines:
        name = re.match(r"c?fn=\((\d+)\)(?: (.*))?$", line)
        if name:
            if name[2]:
                names[name[1]] = name[2]
            called = names.get(name[1], "") if line.startswith("c") else ""
        elif line.startswith("calls=") and re.match(r"(malloc|calloc|realloc|posix_memalign|aligned_alloc)\b", called):
            total += int(line[6:].split()[0])
    return total


def counted(program, words):
    """How many instructions a run takes."""
    return profiled(program, words)[0]


def ratios(other, rounds, words_of):
    """The ratios of time, of memory and of page faults of a command, and the first program's seconds."""
    runs = [[], []]
    for _ in range(rounds):
        for k, program in enumerate((PROGRAM, other)):
            runs[k].append(timed(program, words_of(k)))
    if runs[0][0][0] != runs[1][0][0]:
        sys.exit(f"the answers of {words_of(0)[0]} differ")
    seconds = [min(it[1] for it in run) for run in runs]
    peaks, faults = ([max(it[at] for it in run) for run in runs] for at in (2, 3))
    return f"{seconds[0] / seconds[1]:.2f} ({seconds[0]:.2f} s), {peaks[0] / peaks[1]:.2f}, {faults[0] / faults[1]:.2f}"


def row(other, given, sort, folder):
    """A line of the table."""
    texts = files_of(sort, given.records)
    names = [os.path.join(folder, it) for it in ("s", "d", "v", "w", "mine", "theirs")]
    for name, text in zip(names, texts):
        with open(name, "wb") as file:
            file.write(text)
    scd, dic, vec, differs, *made = names
    commands = [lambda k: ["check", scd, dic, vec], lambda k: ["canon", scd, dic, vec, made[k]], lambda k: ["compare", scd, dic, vec, made[0]],
                lambda k: ["compare", scd, dic, vec, differs]]
    found = []
    for words_of in commands:
        if given.instructions:
            counts = [counted(program, words_of(k)) for k, program in enumerate((PROGRAM, other))]
            found.append(f"{counts[0] / counts[1]:.2f} ({counts[0] // 1_000_000} M)")
        else:
            found.append(ratios(other, given.rounds, words_of))
    if not filecmp.cmp(*made, shallow=False):
        sys.exit("the canonical files differ")
    print(f"| {sort} | {len(texts[2]) / 1e6:.1f} MB | {' | '.join(found)} |", flush=True)


def phases_of(program, names, vec, out):
    """What each phase takes of a program, by name: instructions and allocations."""
    found, before = {}, (0, 0)
    lines = vec.decode().split("\n")
    for phase, fault, rule in PHASES:
        with open(names[2], "wb") as file:
            file.write("\n".join([*lines[:-2], *fault, *lines[-2:]]).encode())
        *counts, text = profiled(program, ["check", *names[:3]])
        if f" {rule} " not in text:
            sys.exit(f"{program} answers {text!r}, and not {rule}")
        found[phase] = [now - then for now, then in zip(counts, before)]
        before = counts
    with open(names[2], "wb") as file:
        file.write(vec)
    *counts, _ = profiled(program, ["canon", *names[:3], out])
    found["labels and writing"] = [now - then for now, then in zip(counts, before)]
    return found


def phases(other, given, folder):
    """Prints the table of the phases, and ends with 1 where one takes a tenth more than was kept."""
    texts = files_of("in file order", given.records)
    names = [os.path.join(folder, it) for it in ("s", "d", "v")]
    for name, text in zip(names, texts):
        with open(name, "wb") as file:
            file.write(text)
    mine, theirs = (phases_of(program, names, texts[2], os.path.join(folder, "out")) for program in (PROGRAM, other))
    print("| phase | instructions | ratio | allocations | the other's |\n|---|---|---|---|---|")
    for phase, (count, calls) in mine.items():
        print(f"| {phase} | {count / 1e6:.1f} M | {count / max(1, theirs[phase][0]):.2f} | {calls} | {theirs[phase][1]} |")
    if given.keep:
        with open(KEPT, "w", encoding="utf-8") as file:
            file.write(json.dumps({"records": given.records, "phases": mine}, indent=1) + "\n")
        return
    with open(KEPT, encoding="utf-8") as file:
        kept = json.load(file)
    if kept["records"] != given.records:
        sys.exit(f"{KEPT} has what {kept['records']} records take")
    slower = [phase for phase, counts in mine.items() if any(now > MORE * then + 1000 for now, then in zip(counts, kept["phases"][phase]))]
    if slower:
        sys.exit(f"a tenth more than was kept: {', '.join(slower)}")


def main():
    words = argparse.ArgumentParser(usage=__doc__)
    words.add_argument("other")
    words.add_argument("sorts", nargs="*", choices=[[], *SORTS])
    words.add_argument("--records", type=int, default=100_000)
    words.add_argument("--rounds", type=int, default=5)
    words.add_argument("--instructions", action="store_true")
    words.add_argument("--phases", action="store_true")
    words.add_argument("--keep", action="store_true")
    given = words.parse_intermixed_args()
    if given.phases:
        given.records = min(given.records, 30_000)
        with tempfile.TemporaryDirectory(dir=ROOM) as folder:
            phases(os.path.abspath(given.other), given, folder)
        return
    what = "instructions" if given.instructions else "time (of the first), memory, page faults"
    print(f"{what}, {given.records} records\n\n| | size | `check` | `canon` | `compare`, same | different |\n|---|---|---|---|---|---|")
    with tempfile.TemporaryDirectory(dir=ROOM) as folder:
        for sort in given.sorts or SORTS:
            row(os.path.abspath(given.other), given, sort, folder)


if __name__ == "__main__":
    if sys.argv[1:2] == [MEASURE]:
        measure(sys.argv[2], sys.argv[3:])
    else:
        main()
