#!/usr/bin/env python3
"""Tries sheets of shapes that nobody exports, at full size and at a tenth of it.

    cd crates/edicad && rt run -- --version         builds out/edicad
    python3 bench/shapes.py [SHAPE ..]              from the top; all shapes where none is named
    python3 bench/shapes.py --commands [SHAPE ..]   each sheet through every other command that reads one
    python3 bench/shapes.py --growth [SHAPE ..]     the same at a tenth of its size and at a hundredth, by instructions

Each sheet goes through `canon` with a stack
of 1 MiB; a pair of sheets that differ through `diff`, and a file of classes or a sheet that is refused through `explain`.
With `--commands` each sheet and its canonical file go through `hash`, `explain`, `draw`, `diff`, `compare --pairing` and `verify`.
With `--growth` what is printed for each of these is how many times as many instructions a tenth of the sheet takes as a hundredth, which doesn't depend on
what else the machine does; `pieces`, which is large, is taken at a hundredth and a thousandth.
Printed for each shape: the size of its sheet, seconds of user and system time, the peak memory as a multiple of the size,
how many times as long as a tenth of it takes, and the program's answer. The time is that of the quicker of two runs, and of the quickest of
five at a tenth. Ten times the sheet should take little more than ten times.
"""
import os
import resource
import subprocess
import sys
import tempfile

import generate
import parity

HERE = os.path.dirname(os.path.abspath(__file__))
PROGRAM = os.path.join(HERE, "..", "crates", "edicad", "out", "edicad")
STACK = 1024 * 1024
OTHERS, GROWTH = "--commands", "--growth"
# how many runs there are of a sheet at full size, and of a smaller one
FEW, MANY = 2, 5


def zone(head, value):
    return b"%s%02d:%s\n" % (head, len(value), value)


def record(kind, identifier, scp, *zones):
    pointer = b"EDAB01;SeSD;" + scp
    return b"".join((zone(b"RTYSA", kind), zone(b"RIDSA", identifier), zone(b"SCPCP", pointer), *zones))


def node(identifier, x, *zones):
    return record(b"PNO", identifier, b"PGE;NOD_id", zone(b"CORCC", b"+%d.00;+0.00;" % x), *zones)


def piece(identifier, whole, part, scp=b"REL;CMP_id"):
    return record(b"LNK", identifier, scp, *(zone(b"FTPCP", b"EDAB01;SeT1;" + end) for end in (whole, part)))


def attribute(value):
    return zone(b"ATPCP", b"EDAB01;SeSD;ATT;NOM_id") + zone(b"ATVSA", value)


def continued(count):
    """A value of so many NEX lines."""
    yield node(b"n", 1, attribute(b"a"), zone(b"NEXT ", b"b" * 72) * count)


def empty(count):
    """A value of so many empty NEX lines."""
    yield node(b"n", 1, attribute(b"a"), zone(b"NEXT ", b"") * count)


def attributes(count):
    """A node with so many attributes."""
    yield node(b"n", 1)
    for k in range(count):
        yield attribute(b"%d" % (k * 7919 % count))


def zones(count):
    """A node with so many zones without a value."""
    yield node(b"n", 1) + zone(b"XYZSA", b"") * count


def ends(count):
    """A link of so many ends."""
    for k in range(1000):
        yield node(b"n%d" % k, k)
    yield record(b"LNK", b"l", b"REL;VOISIN_id")
    for k in range(count):
        yield zone(b"FTPCP", b"EDAB01;SeT1;PNO;n%d" % (k * 7919 % 1000))


def equal(count):
    """So many equal links."""
    yield node(b"a", 1) + node(b"b", 2)
    for k in range(count):
        yield piece(b"l%d" % k, b"PNO;a", b"PNO;b", b"REL;VOISIN_id")


def objects(count):
    """So many objects that are equal but for their pieces."""
    for k in range(count):
        yield node(b"n%d" % k, k)
    for k in range(count):
        yield record(b"FEA", b"o%d" % k, b"OBJ;PARCELLE_id", attribute(b"one name for all"))
    for k in range(count):
        yield piece(b"l%d" % k, b"FEA;o%d" % k, b"PNO;n%d" % (k * 7919 % count))


def pieces(count):
    """So many objects with 50 pieces each."""
    for k in range(count):
        yield node(b"n%d" % k, k)
    for k in range(count):
        yield record(b"FEA", b"o%d" % k, b"OBJ;PARCELLE_id")
    for k in range(50 * count):
        yield piece(b"l%d" % k, b"FEA;o%d" % (k // 50), b"PNO;n%d" % ((k // 50 + k % 50) % count))


def together(count):
    """So many nodes at one position."""
    for k in range(count):
        yield node(b"n%d" % k, 1, attribute(b"%d" % (k * 7919 % count)))


def long(count):
    """So many ends whose identifiers have 16 bytes."""
    for k in range(1000):
        yield node(b"n%015d" % k, k)
    for k in range(count // 2):
        yield piece(b"l%d" % k, b"PNO;n%015d" % (k % 1000), b"PNO;n%015d" % (k * 7919 % 1000), b"REL;VOISIN_id")


def named(count, word):
    """An object with so many attributes, and one more that is this word."""
    values = [b"%d" % (k * 7919 % count) for k in range(count)]
    return record(b"FEA", b"o", b"OBJ;PARCELLE_id", *map(attribute, [*values, word]))


def beside(count, word):
    """An object with so many attributes, of which one is this word, and so many pieces."""
    yield node(b"m", len(word))
    for k in range(count):
        yield node(b"n%d" % k, k + 100)
    yield named(count, word)
    for k in range(count):
        yield piece(b"l%d" % k, b"FEA;o", b"PNO;n%d" % k)


def linked(count, word):
    """An object with so many attributes, of which one is this word, and so many equal links to one node."""
    yield node(b"m", len(word)) + node(b"n", 100)
    yield named(count, word)
    for k in range(count):
        yield piece(b"l%d" % k, b"FEA;o", b"PNO;n")


def faced(count, word):
    """A face with so many attributes, of which one is this word, on the left of so many arcs."""
    for k in range(count + 1):
        yield node(b"n%d" % k, k)
    values = [b"%d" % (k * 7919 % count) for k in range(count)]
    yield record(b"PFE", b"f", b"PGE;FAC_id", *map(attribute, [*values, word]))
    for k in range(count):
        yield record(b"PAR", b"a%d" % k, b"PGE;ARC_id", zone(b"TYPSN", b"1"), zone(b"PTCSN", b"2"),
                     zone(b"CORCC", b"+%d.00;+0.00;" % k), zone(b"CORCC", b"+%d.00;+0.00;" % (k + 1)))
        yield piece(b"i%d" % k, b"PAR;a%d" % k, b"PNO;n%d" % k, b"REL;INI_id")
        yield piece(b"e%d" % k, b"PAR;a%d" % k, b"PNO;n%d" % (k + 1), b"REL;FIN_id")
        yield piece(b"l%d" % k, b"PAR;a%d" % k, b"PFE;f", b"REL;GCH_id")


def sets(count):
    """A node with so many attributes whose character sets are pointers by their format, refused by its last zone."""
    one = zone(b"ATPCP", b"EDAB01;SeSD;ATT;NOM_id") + zone(b"TEXSP", b"8859-1") + zone(b"ATVSA", b"a")
    yield node(b"n", 1) + one * count + zone(b"XYZSP", b"a")


def lots(count):
    """A link of so many ends, each with a lot of its own."""
    yield node(b"n", 1) + record(b"LNK", b"l", b"REL;VOISIN_id")
    for k in range(count):
        yield zone(b"FTPCP", b"L%d;SeT1;PNO;n" % k)


def renamed(count):
    """A file of so many classes, the last with the name of another behind ten times as many other zones."""
    for k in range(count):
        yield zone(b"RTYSA", b"OBJ") + zone(b"RIDSA", b"C%d" % k)
    yield zone(b"RTYSA", b"OBJ") + zone(b"CNCSA", b"1") * (10 * count) + zone(b"RIDSA", b"C%d" % (count - 1))


SHAPES = {
    "continued": (continued, 600_000),
    "empty": (empty, 4_000_000),
    "attributes": (attributes, 1_000_000),
    "zones": (zones, 2_000_000),
    "ends": (ends, 1_500_000),
    "equal": (equal, 500_000),
    "objects": (objects, 400_000),
    "pieces": (pieces, 100_000),
    "together": (together, 1_000_000),
    "long": (long, 1_500_000),
}
PAIRS = {
    "beside": (beside, 40_000),
    "linked": (linked, 40_000),
    "faced": (faced, 40_000),
}
CLASSES = {
    "renamed": (renamed, 20_000),
}
COMMANDS = ("hash", "explain", "draw", "diff", "compare --pairing", "verify")
REFUSED = {
    "sets": (sets, 400_000),
    "lots": (lots, 1_500_000),
}


def timed(words):
    """The answer of a run, its seconds of processor time and its peak memory in bytes."""
    limit = lambda: resource.setrlimit(resource.RLIMIT_STACK, (STACK, STACK))
    process = subprocess.Popen([PROGRAM, *words], stdout=subprocess.PIPE, preexec_fn=limit)
    text = process.stdout.read()
    _, status, usage = os.wait4(process.pid, 0)
    answer = text.decode().partition("\n")[0] or f"status {os.waitstatus_to_exitcode(status)}"
    return answer, usage.ru_utime + usage.ru_stime, usage.ru_maxrss * 1024


def best(words, scale):
    """The same of the quickest of several runs: of one that takes long there are fewer."""
    return min((timed(words) for _ in range(FEW if scale == 1 else MANY)), key=lambda it: it[1])


def put_schema(folder):
    """Writes the classes and the dictionary that the shapes name; their paths."""
    classes = [generate.class_record("PGE", name) for name in generate.PLACES]
    classes += [generate.class_record("OBJ", "PARCELLE_id"), generate.class_record("REL", "VOISIN_id")]
    classes += [generate.class_record("REL", name, code=code) for name, code in generate.RELATIONS]
    classes.append(generate.class_record("ATT", "NOM_id", word="NOM"))
    word = generate.zone("RTYSA", "DIA") + generate.zone("RIDSA", "NOM") + generate.zone("TYPSA", "A")
    paths = [os.path.join(folder, name) for name in ("scd", "dic")]
    for path, name, text in zip(paths, ("EDAB01SE.SCD", "EDAB01DI.DIC"), ("".join(classes), word)):
        with open(path, "w", encoding="ascii") as file:
            file.write(generate.begin(name) + text + generate.END)
    return paths


def put(path, zones):
    """Writes a file of these zones; its size."""
    with open(path, "wb") as file:
        file.write(zone(b"BOMT ", b"SHAPE.VEC") + zone(b"CSET ", b"IRV"))
        file.writelines(zones)
        file.write(zone(b"EOMT ", b""))
    return os.path.getsize(path)


def tried(name, scale, scd, dic, folder):
    """A run of a shape at this part of its full size: its answer, seconds, peak, and the size of its files."""
    one, other = os.path.join(folder, "one"), os.path.join(folder, "other")
    if name in PAIRS:
        shape, count = PAIRS[name]
        size = put(one, shape(count // scale, b"a")) + put(other, shape(count // scale, b"bb"))
        words = ["diff", scd, dic, one, other]
    elif name in CLASSES:
        shape, count = CLASSES[name]
        size = put(one, shape(count // scale))
        words = ["explain", one, dic, os.devnull]
    elif name in REFUSED:
        shape, count = REFUSED[name]
        size = put(one, shape(count // scale))
        words = ["explain", scd, dic, one]
    else:
        shape, count = SHAPES[name]
        size = put(one, shape(count // scale))
        words = ["canon", scd, dic, one, other]
    return *best(words, scale), size


def words_of(command, scd, dic, folder):
    """The words by which a command reads the sheet `one`, and its canonical file where it reads two; how many files of a sheet it reads."""
    one, other, pairing, out = (os.path.join(folder, it) for it in ("one", "other", "pairing", "out"))
    return {
        "hash": (["hash", scd, dic, one], 1),
        "explain": (["explain", scd, dic, one], 1),
        "draw": (["draw", scd, dic, one, out], 1),
        "diff": (["diff", scd, dic, one, other], 2),
        "compare --pairing": (["compare", "--pairing", pairing, scd, dic, one, other], 2),
        "verify": (["verify", scd, dic, one, other, pairing], 2),
    }[command]


def through_commands(name, scd, dic, folder):
    """Lines on a shape that goes through each command at a tenth and at full size."""
    shape, count = SHAPES[name]
    found = {}
    for scale in (10, 1):
        size = put(os.path.join(folder, "one"), shape(count // scale))
        timed(["canon", scd, dic, os.path.join(folder, "one"), os.path.join(folder, "other")])
        for command in COMMANDS:
            words, files = words_of(command, scd, dic, folder)
            found.setdefault(command, []).append((*best(words, scale), size * files))
    for command, ((_, least, _, _), (answer, seconds, peak, size)) in found.items():
        print(f"| {name} | {command} | {seconds:.1f} s | {peak / size:.1f} | {seconds / max(least, 0.01):.1f} | {answer[:40]} |", flush=True)


def growth(name, scd, dic, folder):
    """A line on a shape: how many times as many instructions each command takes of ten times the sheet."""
    shape, count = SHAPES[name]
    found = {}
    for scale in (1000, 100) if name == "pieces" else (100, 10):
        put(os.path.join(folder, "one"), shape(count // scale))
        timed(["canon", scd, dic, os.path.join(folder, "one"), os.path.join(folder, "other")])
        for command in COMMANDS:
            words, _ = words_of(command, scd, dic, folder)
            found.setdefault(command, []).append(parity.profiled(PROGRAM, words)[0])
    print(f"| {name} |", *(f"{count / least:.1f} |" for least, count in found.values()), flush=True)


def tables(folder, names, mode):
    """The table of all shapes, or one of those of the other commands."""
    scd, dic = put_schema(folder)
    if mode == GROWTH:
        print("| shape |", *(f"`{it}` |" for it in COMMANDS))
        print("|---|" + "---|" * len(COMMANDS))
        for name in names or SHAPES:
            growth(name, scd, dic, folder)
        return
    if mode == OTHERS:
        print("| shape | command | time | memory / size | against a tenth | answer |\n|---|---|---|---|---|---|")
        for name in names or SHAPES:
            through_commands(name, scd, dic, folder)
        return
    print("| shape | size | time | memory / size | against a tenth | answer |\n|---|---|---|---|---|---|")
    for name in names or [*SHAPES, *PAIRS, *CLASSES, *REFUSED]:
        _, least, _, _ = tried(name, 10, scd, dic, folder)
        answer, seconds, peak, size = tried(name, 1, scd, dic, folder)
        print(f"| {name} | {size / 1e6:.0f} MB | {seconds:.1f} s | {peak / size:.1f} | {seconds / least:.1f} | {answer} |", flush=True)


def main():
    names = sys.argv[1:]
    mode = names.pop(0) if names[:1] in ([OTHERS], [GROWTH]) else None
    with tempfile.TemporaryDirectory(dir=parity.ROOM) as folder:
        tables(folder, names, mode)


if __name__ == "__main__":
    main()
