#!/usr/bin/env python3
"""Makes tables of what a whole run of the gate took, from what it printed (`bash .ci/run > LOG 2>&1`).

    checks/times.py LOG CORES      prints them; CORES is how many processors the run had
"""
import os
import re
import sys

TOP = os.path.join(os.path.dirname(os.path.abspath(__file__)), "..")
WORK = re.compile(r"^gate: +([\d.]+) min of one processor: (?:(proof|bugs|compile) (\w+)|all else)$")
STAGE = re.compile(r"^gate: (.+): ([\d.]+) min by the clock, ([\d.]+) min of one processor$")
NAMES = {"rt ci": "proofs, planted bugs, programs", "run.py": "the built program", "pages.py": "pages", "tests.py": "the driver's tests, beside the next"}


class Stage:
    """A stage of the gate: its command, its minutes by the clock and of one processor, and those of each crate's work."""

    def __init__(self, command, clock, processor, work):
        self.command = command
        self.clock = float(clock)
        self.processor = float(processor)
        self.work = work


def stages_in(text):
    found, work = [], {}
    for line in text.split("\n"):
        part, whole = WORK.match(line), STAGE.match(line)
        if part and part[2]:
            work[part[2], part[3]] = float(part[1])
        elif whole:
            found.append(Stage(*whole.groups(), work))
            work = {}
    return found


def named(command):
    return next((NAMES[it] for it in NAMES if it in command), command)


def crates_in_order():
    with open(f"{TOP}/crates.txt", encoding="utf-8") as file:
        return [line.split(":")[0].split()[0] for line in file if ":" in line]


def total(stages, kind, crate):
    return sum(it.work.get((kind, crate), 0) for it in stages)


def cell(minutes):
    return f"{minutes:.1f}" if minutes else ""


def tables(stages, cores):
    rows = [f"| {named(it.command)} | {it.clock:.1f} | {it.processor:.1f} |" for it in stages]
    clock, processor = sum(it.clock for it in stages if "tests.py" not in it.command), sum(it.processor for it in stages)
    crates = [f"| `{it}` | {cell(total(stages, 'proof', it))} | {cell(total(stages, 'bugs', it))} |" for it in crates_in_order()]
    head = f"A whole run of the gate on {cores} cores, in minutes by the clock and of one processor:"
    return "\n".join([
        head, "",
        "| stage | clock | processor |", "|---|---|---|", *rows, f"| **in all** | **{clock:.1f}** | **{processor:.1f}** |", "",
        "By crate, in minutes of one processor: its proof, and the bugs planted in it (`must-fail` and `edits/`).", "",
        "| crate | proof | bugs |", "|---|---|---|", *crates, ""])


def main(words):
    if len(words) != 2:
        sys.exit(__doc__)
    with open(words[0], encoding="utf-8", errors="replace") as file:
        stages = stages_in(file.read())
    print(tables(stages, words[1]), end="")


if __name__ == "__main__":
    main(sys.argv[1:])
