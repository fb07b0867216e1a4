"""Pairings that are changed at random, and why they don't pair: by a reading of the sheets that shares no code with the crates.

The sheets are those of examples/parcel, which say each value in one way but for signs and zeros of numbers. FORMAT.md, "Pairings", says what
is answered.
"""
import collections
import os
import random

from room import line

PARCEL = os.path.join(os.path.dirname(os.path.abspath(__file__)), "..", "examples", "parcel")
# zones that have a meaning of their own, and those that only count
KNOWN = {"RTY", "RID", "SCP", "COR", "ATP", "ATV", "TEX", "FTP", "SNS", "ATC", "QAC", "PTC", "CNC", "FTC"}
EXCHANGED = {"INI_id": "FIN_id", "FIN_id": "INI_id", "GCH_id": "DRT_id", "DRT_id": "GCH_id"}
ROUNDS = 60

Record = collections.namedtuple("Record", "kind rid cls points attributes extras ends")


def records_of(text):
    """The records of a sheet, in file order."""
    groups = []
    for row in text.splitlines():
        code, value = row[:3], row[8:]
        if code == "RTY":
            groups.append([])
        if groups and code not in ("EOM",):
            groups[-1].append((code, row[3:5], value))
    return [record_of(group) for group in groups]


def record_of(zones):
    values = lambda code: [value for known, _, value in zones if known == code]
    numbers = lambda text: tuple(float(it) for it in text.split(";")[:2])
    # a value is a number where its nature says so
    attributes = [(atp.split(";")[-1], float(value) if nature[1] == "R" else value) for atp, (nature, value) in
                  zip(values("ATP"), [(nature, value) for code, nature, value in zones if code == "ATV"])]
    extras = [(code, nature[1], value) for code, nature, value in zones if code not in KNOWN]
    ends = [tuple(it.split(";")[2:]) for it in values("FTP")]
    return Record(values("RTY")[0], values("RID")[0], values("SCP")[0].split(";")[-1], [numbers(it) for it in values("COR")], attributes, extras, ends)


def part_of(a, b, to, turned):
    """What differs between a record and its partner, or nothing."""
    is_turned = turned[a.kind, a.rid]
    moved = [(kind, to[kind, rid]) for kind, rid in a.ends]
    exchanges = any(turned[end] for end in a.ends)
    if is_turned and a.kind != "PAR":
        return "it is reversed, and no arc"
    if b.cls != (EXCHANGED.get(a.cls, a.cls) if exchanges else a.cls):
        return "another class"
    if b.points != (a.points[::-1] if is_turned else a.points):
        return "other points"
    if b.extras != a.extras:
        return "other extras"
    if sorted(map(repr, a.attributes)) != sorted(map(repr, b.attributes)):
        return "other attributes"
    if moved[:1] != b.ends[:1] or sorted(moved[1:]) != sorted(b.ends[1:]):
        return "other ends"
    return None


def why_unpaired(first, second, rows, name):
    """The second line of what verify says of a pairing, given by its rows of A's records in order; or nothing where it pairs."""
    found = {(it.kind, it.rid): it for it in second}
    to = {(a.kind, a.rid): rid for a, (rid, _) in zip(first, rows)}
    turned = {(a.kind, a.rid): is_turned for a, (_, is_turned) in zip(first, rows)}
    met = {}
    for at, (a, (rid, _)) in enumerate(zip(first, rows), 2):
        place = f"{name}:{at}: {a.kind} {a.rid}: "
        if (a.kind, rid) in met:
            earlier = met[a.kind, rid]
            return place + f"goes to {a.kind} {rid} of B, as {a.kind} {first[earlier - 2].rid} does in line {earlier}"
        met[a.kind, rid] = at
        part = part_of(a, found[a.kind, rid], to, turned)
        if part:
            return place + f"is not {a.kind} {rid} of B: {part}"
    left = [it for it in second if (it.kind, it.rid) not in met]
    return f"{left[0].kind} {left[0].rid} of B: no record of A goes to it" if left else None


def changed(rows, first, second, chance):
    """The rows with some of them changed: partners exchanged or replaced, `reversed` added or taken away."""
    rows = list(rows)
    for _ in range(chance.randrange(4)):
        at, other = chance.randrange(len(rows)), chance.randrange(len(rows))
        rid, is_turned = rows[at]
        how = chance.randrange(4)
        if how == 0 and first[at].kind == first[other].kind:
            rows[at], rows[other] = (rows[other][0], is_turned), (rid, rows[other][1])
        elif how == 1:
            rows[at] = (chance.choice([it.rid for it in second if it.kind == first[at].kind]), is_turned)
        elif how == 2:
            rows[at] = (rid, not is_turned)
        elif first[at].kind == first[other].kind:
            rows[at], rows[other] = rows[other], rows[at]
    return rows


def paired(room):
    """What verify says of pairings of one sheet with itself, with another presentation of it, and with that and a node more."""
    read = lambda name: open(os.path.join(PARCEL, name), encoding="latin-1").read()
    sheets = {"one": read("sheet.vec"), "other": read("same_plan.vec")}
    node = "RTYSA03:PNO\nRIDSA04:more\nSCPCP22:EDAB01;SeSD;PGE;NOD_id\nCORCC08:777;777;\n"
    sheets["more"] = sheets["other"].replace("EOMT 00:", node + "EOMT 00:")
    for name, text in (("ps", read("schema.scd")), ("pd", read("dictionary.dic")), *sheets.items()):
        room.write(name, text)
    chance = random.Random(20)
    for second in ("one", "other", "more"):
        a, b = records_of(sheets["one"]), records_of(sheets[second])
        room.expect(f"paired: a pairing with {second}", ["compare", "--pairing", "pq", "ps", "pd", "one", "other" if second == "more" else second], (0, b"same\n", b""))
        given = [row.split(";") for row in room.read("pq").decode("latin-1").splitlines()[1:]]
        rows = [(row[2], len(row) == 4) for row in given]
        for number in range(ROUNDS):
            tried = rows if number == 0 else changed(rows, a, b, chance)
            lines = [f"{it.kind};{it.rid};{rid}" + ";reversed" * is_turned for it, (rid, is_turned) in zip(a, tried)]
            room.write("pq", "\n".join(["edicad pairing 1", *lines]) + "\n")
            why = why_unpaired(a, b, tried, "pq")
            wanted = (1, b"does not pair\n" + line(why), b"") if why else (0, b"pairs\n", b"")
            room.expect(f"paired: change {number} of a pairing with {second}", ["verify", "ps", "pd", "one", second, "pq"], wanted)
