#!/usr/bin/env python3
"""Whether `diff` says the same of any two presentations of two plans, and the same with the signs exchanged of the second against the first.

    python3 program/presentations.py PROGRAM [ROUNDS [SIZE [SEED]]]    from the top: a thousand rounds with sheets of 3 x 3 parcels

Each round edits the sheet in one to three places, as a surveyor does, and takes other presentations of both: records in another order, with
other identifiers, and half of the arcs reversed. `program/run.py` makes some such rounds.
"""
import os
import random
import re
import subprocess
import sys
import tempfile

HERE = os.path.dirname(os.path.abspath(__file__))
# how many pairs the gate tries, and with which parcels
PAIRS = 60
SIZE = 3

REVERSED = {"INI_id": "FIN_id", "FIN_id": "INI_id", "GCH_id": "DRT_id", "DRT_id": "GCH_id"}
LINE = re.compile(r"([-+~]) (\w{3}) (\S+)(?: (\S+))? \(lines? [^)]*\)(?:: (.*))?$")


def zone(head, value):
    return f"{head}{len(value):02}:{value}"


def value_of(line):
    return line[8:]


def records_of(sheet):
    """The lines in front of the records, each record's lines, and the last line."""
    lines = sheet.split("\n")
    while not lines[-1]:
        lines.pop()
    starts = [at for at, line in enumerate(lines) if line.startswith("RTY")]
    ends = starts[1:] + [len(lines) - 1]
    return lines[: starts[0]], [lines[a:b] for a, b in zip(starts, ends)], lines[-1]


def written(front, records, last):
    return "\n".join([*front, *(line for record in records for line in record), last]) + "\n"


def name_of(record):
    """The type and the identifier of a record."""
    return value_of(record[0]), value_of(record[1])


def targets_of(record):
    return [tuple(value_of(line).split(";")[2:]) for line in record if line.startswith("FTP")]


def presented(sheet, generator):
    """Another presentation of the sheet, and its identifiers by those of this one: records in any order, arcs in any direction."""
    front, records, last = records_of(sheet)
    names = {name_of(it): f"r{number}" for number, it in enumerate(generator.sample(records, len(records)))}
    turned = {name for name in names if name[0] == "PAR" and generator.random() < 0.5}
    made = [presented_record(record, names, turned) for record in records]
    generator.shuffle(made)
    return written(front, made, last), names


def presented_record(record, names, turned):
    points = [line for line in record if line.startswith("COR")]
    if name_of(record) in turned:
        points.reverse()
    is_turned = any(target in turned for target in targets_of(record))
    return [presented_line(line, name_of(record), points, names, is_turned) for line in record]


def presented_line(line, name, points, names, is_turned):
    if line.startswith("RID"):
        return zone("RIDSA", names[name])
    if line.startswith("COR"):
        return points.pop(0)
    if line.startswith("FTP"):
        *path, kind, target = value_of(line).split(";")
        return zone("FTPCP", ";".join([*path, kind, names[kind, target]]))
    if line.startswith("SCP") and is_turned:
        *path, word = value_of(line).split(";")
        return zone("SCPCP", ";".join([*path, REVERSED.get(word, word)]))
    return line


def edited(sheet, generator):
    """The sheet with one to three edits, each of a kind that a surveyor makes; it may be refused."""
    front, records, last = records_of(sheet)
    records = [list(it) for it in records]
    for _ in range(generator.randint(1, 3)):
        records = generator.choice([move_node, move_point, change_value, exchange_values, exchange_ends, leave_out])(records, generator)
    return written(front, records, last)


def shifted(value, generator):
    x, y, *rest = value.split(";")
    return ";".join([f"{float(x) + generator.choice([-3, -1, 1, 3]) / 1000:+.4f}", f"{float(y):+.4f}", *rest])


def move_node(records, generator):
    """A node moves with the ends of the arcs that meet there."""
    nodes = [it for it in records if value_of(it[0]) == "PNO"]
    old = value_of(next(line for line in generator.choice(nodes) if line.startswith("COR")))
    new = shifted(old, generator)
    return [[zone("CORCC", new) if line.startswith("COR") and value_of(line) == old else line for line in it] for it in records]


def move_point(records, generator):
    """A point inside an arc moves."""
    arcs = [it for it in records if sum(line.startswith("COR") for line in it) > 2]
    if arcs:
        arc = generator.choice(arcs)
        at = generator.choice([at for at, line in enumerate(arc) if line.startswith("COR")][1:-1])
        arc[at] = zone("CORCC", shifted(value_of(arc[at]), generator))
    return records


def change_value(records, generator):
    valued = [it for it in records if any(line.startswith("ATVSA") for line in it)]
    if valued:
        record = generator.choice(valued)
        at = generator.choice([at for at, line in enumerate(record) if line.startswith("ATVSA")])
        record[at] = zone("ATVSA", value_of(record[at]) + "x")
    return records


def exchange_values(records, generator):
    """Two objects exchange their attributes."""
    objects = [it for it in records if value_of(it[0]) == "FEA"]
    if len(objects) > 1:
        one, other = generator.sample(objects, 2)
        one[2:], other[2:] = other[2:], one[2:]
    return records


def exchange_ends(records, generator):
    """Two links of objects exchange what they end at."""
    links = [it for it in records if value_of(it[0]) == "LNK" and any(kind == "FEA" for kind, _ in targets_of(it))]
    if len(links) > 1:
        one, other = generator.sample(links, 2)
        a = max(at for at, line in enumerate(one) if line.startswith("FTP"))
        b = max(at for at, line in enumerate(other) if line.startswith("FTP"))
        one[a], other[b] = other[b], one[a]
    return records


def leave_out(records, generator):
    """An object goes, with the links that name it."""
    objects = [name_of(it) for it in records if value_of(it[0]) == "FEA"]
    if objects:
        gone = generator.choice(objects)
        return [it for it in records if name_of(it) != gone and gone not in targets_of(it)]
    return records


def told(text, first, second):
    """The lines of a difference, without the numbers of lines and in these names, sorted; the last line stays last."""
    *lines, counts = text.decode("latin-1").splitlines()
    said = []
    for line in lines:
        found = LINE.match(line)
        if not found:
            said.append((line,))
            continue
        sign, kind, one, other, parts = found.groups()
        names = (second if sign == "+" else first, second)
        said.append((sign, kind, names[0].get((kind, one), one), names[1].get((kind, other), other) if other else None, parts))
    return sorted(said, key=repr), counts


def exchanged(said):
    """What is said of two sheets, as it is said of them in the other order."""
    lines, counts = said
    signs = {"-": "+", "+": "-", "~": "~"}
    turned = [(signs[it[0]], it[1], it[3] if it[0] == "~" else it[2], it[2] if it[0] == "~" else None, it[4]) if len(it) > 1 else it for it in lines]
    numbers = re.match(r"(\d+) only in A, (\d+) only in B, (\d+) changed", counts)
    return sorted(turned, key=repr), f"{numbers[2]} only in A, {numbers[1]} only in B, {numbers[3]} changed"


def generated(size):
    """A schema file, a dictionary and a sheet of so many parcels on each side."""
    words = [sys.executable, os.path.join(HERE, "..", "bench", "generate.py"), "objects", str(size)]
    bundle = subprocess.run(words, capture_output=True, text=True, check=True).stdout
    return ["BOMT " + part for part in bundle.split("BOMT ")[1:]]


class Differ:
    """What `diff` says of two sheets in the names of the first presentation."""

    def __init__(self, run, write):
        self.run = run
        self.write = write

    def __call__(self, first, second, names, others):
        self.write("a", first)
        self.write("b", second)
        status, said, _ = self.run(["diff", "--records", "s", "d", "a", "b"])
        back = [{(kind, new): old for (kind, old), new in it.items()} for it in (names, others)]
        return told(said, *back) if status < 2 else None


def pairs(sheet, generator, differ):
    """Without end: a sheet with edits, and what is said of both, of other presentations, and of these in the other order."""
    while True:
        other = edited(sheet, generator)
        plain = differ(sheet, other, {}, {})
        if plain is None:
            continue
        (first, names), (second, others) = presented(sheet, generator), presented(other, generator)
        yield plain, differ(first, second, names, others), exchanged(differ(second, first, others, names))


def presentations(room):
    """Some pairs in the gate."""
    scd, dic, sheet = generated(SIZE)
    room.write("s", scd)
    room.write("d", dic)
    found = pairs(sheet, random.Random(1), Differ(room.run, room.write))
    for number in range(PAIRS):
        plain, presented_so, back = next(found)
        room.report.check(f"pair {number} in other presentations", presented_so, plain)
        room.report.check(f"pair {number} in the other order", back, plain)


def main():
    program, numbers = os.path.abspath(sys.argv[1]), [int(it) for it in sys.argv[2:]]
    rounds, size, seed = numbers + [1000, SIZE, 1][len(numbers):]
    scd, dic, sheet = generated(size)
    with tempfile.TemporaryDirectory() as folder:
        def write(name, text):
            with open(os.path.join(folder, name), "w", encoding="latin-1", newline="") as file:
                file.write(text)

        def run(words):
            done = subprocess.run([program, *words], cwd=folder, capture_output=True)
            return done.returncode, done.stdout, done.stderr

        write("s", scd)
        write("d", dic)
        found = pairs(sheet, random.Random(seed), Differ(run, write))
        other = 0
        for number in range(rounds):
            plain, presented_so, back = next(found)
            if presented_so != plain or back != plain:
                other += 1
                print(f"pair {number}: {plain[1]}; presented otherwise {presented_so[1]}; in the other order {back[1]}", flush=True)
    print(f"{rounds} pairs, {other} told otherwise")
    return 1 if other else 0


if __name__ == "__main__":
    sys.exit(main())
