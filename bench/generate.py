#!/usr/bin/env python3
"""Writes a bundle of stated size to standard output: a schema, a dictionary and a sheet.

    generate.py nodes N          N nodes at places that are all different
    generate.py attributes N     N nodes with eight attributes and two extra zones each
    generate.py parcels N        a planar grid of N x N parcels: nodes, arcs, faces and their links, in random order
    generate.py objects N        the same with an object for each parcel
    generate.py classes N        a schema of N classes and a sheet of one node

The same words give the same bytes.
"""
import random
import sys

PLACES = ["NOD_id", "ARC_id", "FAC_id"]
RELATIONS = [("INI_id", "IND"), ("FIN_id", "FND"), ("GCH_id", "LPO"), ("DRT_id", "RPO"), ("CMP_id", "ICO")]


def zone(head, value):
    return f"{head}{len(value):02}:{value}\n"


def begin(name):
    return zone("BOMT ", name) + zone("CSET ", "IRV")


END = zone("EOMT ", "")


def class_record(kind, name, word=None, code=None):
    text = zone("RTYSA", kind) + zone("RIDSA", name)
    if word:
        text += zone("DIPCP", f"EDAB01;SeDIC;DIA;{word}")
    if code:
        text += zone("KNDSA", code)
    return text


def schema(attributes, more=0):
    """The classes and the dictionary: attributes take numbers and texts in turn."""
    classes = [begin("EDAB01SE.SCD")]
    words = [begin("EDAB01DI.DIC")]
    classes += [class_record("PGE", name) for name in PLACES]
    classes.append(class_record("OBJ", "PARCELLE_id"))
    classes += [class_record("REL", name, code=code) for name, code in RELATIONS]
    for k in range(attributes):
        classes.append(class_record("ATT", f"A{k}_id", word=f"A{k}_n"))
        words.append(zone("RTYSA", "DIA") + zone("RIDSA", f"A{k}_n") + zone("TYPSA", "RA"[k % 2]))
    classes += [class_record("OBJ", f"CLASS_{k}_id") for k in range(more)]
    return "".join(classes) + END + "".join(words) + END


def pointer(kind, name):
    return f"EDAB01;SeSD;{kind};{name}"


def node(k, x, y):
    return (zone("RTYSA", "PNO") + zone("RIDSA", f"Noeud_{k}") + zone("SCPCP", pointer("PGE", "NOD_id"))
            + zone("CORCC", f"{x:+.2f};{y:+.2f};"))


def nodes(count, out):
    out.write(schema(0) + begin("EDAB01T1.VEC"))
    for k in range(count):
        at = (k * 7919) % count
        out.write(node(k, at % 1000 + 0.25, at // 1000 + 0.5) + zone("ATCSN", "00") + zone("QACSN", "00"))
    out.write(END)


def attributes(count, out):
    out.write(schema(8) + begin("EDAB01T1.VEC"))
    for k in range(count):
        at = (k * 7919) % count
        text = node(k, at % 1000, at // 1000) + zone("ATCSN", "08")
        for a in (5, 2, 7, 0, 3, 6, 1, 4):
            text += zone("ATPCP", pointer("ATT", f"A{a}_id"))
            text += zone("ATVSR", f"{(k * (a + 3)) % 9973}.50") if a % 2 == 0 else zone("ATVSA", f"value {k % 97} of {a}")
        out.write(text + zone("TYPSN", "01") + zone("CNCSA", f"note {k % 11}"))
    out.write(END)


def between(a, b, generator):
    """A line from a to b with up to eighteen places on its way."""
    steps = generator.randrange(0, 19)
    way = [a]
    for s in range(steps):
        part = (s + 1) / (steps + 1)
        shift = 0.2 * part * (1 - part)
        way.append((round(a[0] + (b[0] - a[0]) * part + shift * (a[1] != b[1]), 4), round(a[1] + (b[1] - a[1]) * part + shift * (a[0] != b[0]), 4)))
    return way + [b]


def link(k, name, first, second):
    ends = "".join(zone("FTPCP", f"EDAB01;SeT1;{kind};{rid}") for kind, rid in (first, second))
    return zone("RTYSA", "LNK") + zone("RIDSA", f"Lien_{k}") + zone("SCPCP", pointer("REL", name)) + zone("FTCSN", "02") + ends


def parcels(size, out, objects):
    generator = random.Random(1)
    records = []
    links = 0

    def join(name, first, second):
        nonlocal links
        links += 1
        ends = (first, second) if generator.random() < 0.7 or name == "CMP_id" else (second, first)
        records.append(link(links, name, *ends))

    def corner(i, j):
        return f"Noeud_{i}_{j}"

    for i in range(size + 1):
        for j in range(size + 1):
            records.append(zone("RTYSA", "PNO") + zone("RIDSA", corner(i, j)) + zone("SCPCP", pointer("PGE", "NOD_id"))
                           + zone("CORCC", f"{i:+.2f};{j:+.2f};"))

    def arc(rid, start, end, left, right):
        if generator.random() < 0.5:
            start, end, left, right = end, start, right, left
        way = between(start, end, generator) if start < end else between(end, start, generator)[::-1]
        points = "".join(zone("CORCC", f"{x:+.4f};{y:+.4f};") for x, y in way)
        records.append(zone("RTYSA", "PAR") + zone("RIDSA", rid) + zone("SCPCP", pointer("PGE", "ARC_id")) + zone("TYPSN", "1")
                       + zone("PTCSN", f"{len(way):02}") + points)
        join("INI_id", ("PAR", rid), ("PNO", corner(*start)))
        join("FIN_id", ("PAR", rid), ("PNO", corner(*end)))
        for name, face in (("GCH_id", left), ("DRT_id", right)):
            if face is not None:
                join(name, ("PAR", rid), ("PFE", f"Face_{face[0]}_{face[1]}"))

    def face(i, j):
        return (i, j) if 0 <= i < size and 0 <= j < size else None

    for i in range(size + 1):
        for j in range(size + 1):
            if i < size:
                arc(f"Arc_h{i}_{j}", (i, j), (i + 1, j), face(i, j), face(i, j - 1))
            if j < size:
                arc(f"Arc_v{i}_{j}", (i, j), (i, j + 1), face(i - 1, j), face(i, j))
    for i in range(size):
        for j in range(size):
            records.append(zone("RTYSA", "PFE") + zone("RIDSA", f"Face_{i}_{j}") + zone("SCPCP", pointer("PGE", "FAC_id")))
            if objects:
                records.append(zone("RTYSA", "FEA") + zone("RIDSA", f"Objet_{i}_{j}") + zone("SCPCP", pointer("OBJ", "PARCELLE_id"))
                               + zone("ATPCP", pointer("ATT", "A0_id")) + zone("ATVSR", f"{(i * j) % 1000}.50")
                               + zone("ATPCP", pointer("ATT", "A1_id")) + zone("ATVSA", f"parcel {j}"))
                join("CMP_id", ("FEA", f"Objet_{i}_{j}"), ("PFE", f"Face_{i}_{j}"))
    generator.shuffle(records)
    out.write(schema(2) + begin("EDAB01T1.VEC"))
    out.writelines(records)
    out.write(END)


def main():
    kind, count = sys.argv[1], int(sys.argv[2])
    out = sys.stdout
    if kind == "nodes":
        nodes(count, out)
    elif kind == "attributes":
        attributes(count, out)
    elif kind == "classes":
        out.write(schema(0, count) + begin("EDAB01T1.VEC") + node(1, 10.5, 20) + END)
    else:
        parcels(count, out, kind == "objects")


if __name__ == "__main__":
    main()
