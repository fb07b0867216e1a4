"""Pictures of sheets, and of what differs between two."""
import os
import re
import xml.etree.ElementTree as xml

from room import drafts, unread, unwritten

HERE = os.path.dirname(os.path.abspath(__file__))


SVG = "{http://www.w3.org/2000/svg}"


# the ink of a group, and the words behind the title of a record that is drawn in it, with the mark that the lines of diff have for it
INKS = {"#777777": {"": "  "}, "#D55E00": {", only in A": "- ", ", as it was in A": "~ "}, "#0072B2": {", only in B": "+ ", ", as it is in B": "~ "}}


WORDS = {words: mark for ink in INKS.values() for words, mark in ink.items()}


TINT = "#F0E442"


OPEN = ", not filled, since its arcs do not close"


def said(title, marks):
    """The mark of a record by the words behind its title, of those that its ink allows, and the title without them."""
    words = next(it for it in sorted(marks, key=len, reverse=True) if title.endswith(it))
    return marks[words], title[: len(title) - len(words)]


def drawn(picture):
    """The faces, arcs and nodes of a picture: the type, the mark, the title and where it is drawn; and of faces whether they are tinted."""
    plan = xml.fromstring(picture).findall(f"{SVG}svg")
    groups = plan[1].findall(f"{SVG}g") if plan else []
    found = []
    for it in groups[0] if groups else []:
        title = it.findtext(SVG + "title")
        tinted = TINT in (it.get("fill"), it.get("stroke"))
        mark, name = said(title.removesuffix(OPEN), WORDS)
        found.append(("PFE", mark, name, it.get("d"), tinted))
    for group in groups[1:]:
        for it in group:
            mark, name = said(it.findtext(SVG + "title"), INKS[group.get("stroke")])
            found.append(("PAR", mark, name, it.get("points")) if it.tag == SVG + "polyline" else ("PNO", mark, name, f"{it.get('cx')},{it.get('cy')}"))
    return found


def labels(picture):
    """What is written on the faces of a picture."""
    return [it.text for it in xml.fromstring(picture).findall(f"{SVG}g/{SVG}text")]


def far_off(picture):
    """The nodes that a picture names, since they lie far off."""
    texts = [it.text or "" for it in xml.fromstring(picture).findall(f"{SVG}text")]
    return re.findall(r" (PNO [^;]*;[^;]*);", texts[-1].removeprefix("far off:")) if texts[-1].startswith("far off:") else []


def count_of(room, name, kind):
    return len(re.findall(rb"(?m)^RTYSA03:%s\r?$" % kind.encode(), room.read(name)))


def draw_case(room, name, words, wanted):
    """What draw says of a sheet, which is what a check says, and its picture: each arc and each node of the sheet, once."""
    report = room.report
    room.write("o", "kept")
    room.expect(name + ": drawn", ["draw", *words, "o"], wanted)
    if wanted[0] != 0:
        report.check(name + ": OUT of draw", room.read("o"), b"kept")
        os.remove(room.path("o"))
        room.expect(name + ": drawn to -", ["draw", *words, "-"], (wanted[0], b"", wanted[1] + wanted[2]))
        return
    picture = room.read("o")
    found = drawn(picture)
    far = len(far_off(picture))
    report.check(name + ": arcs and nodes", [sum(it[0] == "PAR" for it in found), sum(it[0] == "PNO" for it in found) + far], [count_of(room, words[-1], kind) for kind in ("PAR", "PNO")])
    report.holds(name + ": no more faces than there are", sum(it[0] == "PFE" for it in found) <= count_of(room, words[-1], "PFE"))
    report.check(name + ": titles of other types", [it for it in found if not it[2].startswith(it[0] + " ")], [])
    report.check(name + ": marks of one sheet", {it[1] for it in found} - {"  "}, set())
    room.expect(name + ": drawn to -", ["draw", *words, "-"], (0, picture, wanted[2]))
    os.remove(room.path("o"))


def listed(rows):
    """Which faces, arcs and nodes the lines of diff list: the mark, the type and the identifier; of A and of B where it changed."""
    found = []
    for row in rows:
        mark, kind, rest = row[:2], row[2:5], row[6:]
        if mark in ("- ", "+ ", "~ ") and kind in ("PFE", "PAR", "PNO"):
            names = rest[: rest.rindex(" (line")]
            found += [(mark, kind, it) for it in (names.split(" ") if mark == "~ " else [names])]
    return sorted(found)


def picture_case(room, name, kinds, wanted):
    """What diff says with a picture: the same as without one, and colours exactly for the records that its lines list."""
    report = room.report
    wanted_answer = room.run(["diff", "--records", *kinds, "s", "d", "a", "b"])
    room.write("p", "kept")
    room.expect(name + ": with a picture", ["diff", "--records", *kinds, "--picture", "p", "s", "d", "a", "b"], wanted_answer)
    if wanted[0] > 1:
        report.check(name + ": FILE of a picture", room.read("p"), b"kept")
        os.remove(room.path("p"))
        return
    picture = room.read("p")
    found = drawn(picture)
    marked = sorted((it[1], it[0], it[2].split(" ")[1]) for it in found if it[1] != "  " and it[0] != "PFE")
    rows = listed(wanted_answer[1].decode("latin-1").splitlines())
    far = [it.split(" ")[1] for it in far_off(picture)]
    report.check(name + ": the arcs and nodes in colours", marked, [it for it in rows if it[1] == "PAR" or (it[1] == "PNO" and it[2] not in far)])
    faces = [(it[1], it[0], it[2].split(" ")[1]) for it in found if it[1] != "  " and it[0] == "PFE"]
    report.check(name + ": faces in colours that no line lists", [it for it in faces if it not in rows], [])
    report.check(name + ": faces that only one sheet has, and aren't tinted", [it for it in found if it[0] == "PFE" and it[1] in ("- ", "+ ") and not it[4]], [])
    for kind, more_far in (("PAR", 0), ("PNO", len(far))):
        more = sum(it[:2] == ("+ ", kind) for it in rows) + sum(it[:2] == ("~ ", kind) for it in rows) // 2
        report.check(f"{name}: {kind} drawn", sum(it[0] == kind for it in found) + more_far, count_of(room, "a", kind) + more)
    brief = room.run(["diff", *kinds, "--brief", "s", "d", "a", "b"])
    room.expect(name + ": with a picture, in brief", ["diff", *kinds, "--brief", "--picture=p", "s", "d", "a", "b"], brief)
    report.check(name + ": the picture in brief", room.read("p"), picture)
    os.remove(room.path("p"))


def pictures(room):
    """Pictures of the example, and where they go."""
    report = room.report
    parcel = os.path.join(HERE, "..", "examples", "parcel")
    for name, file in (("s", "schema.scd"), ("d", "dictionary.dic"), ("a", "sheet.vec"), ("same", "same_plan.vec")):
        with open(os.path.join(parcel, file), "rb") as source:
            room.write(name, source.read())
    room.write("b", room.read("a").replace(b"ATVSA04:A 12", b"ATVSA04:A 13"))
    room.write("moved", room.read("a").replace(CORNER[0], CORNER[1]))
    room.write("bad", "")
    sheet, sheets = ["s", "d", "a"], ["s", "d", "a", "b"]
    accepted = (0, b"accepted\n", b"")
    room.expect("OUT of draw is made", ["draw", *sheet, "o"], accepted)
    picture = room.read("o")
    report.check("the example, drawn", drawn(picture), EXAMPLE)
    report.check("the example's label", labels(picture), ["A 12"])
    report.holds("the name of the example's file", b">a</text>" in picture)
    room.write("o", "old" * 10000)
    os.chmod(room.path("o"), 0o640)
    room.expect("OUT of draw is replaced", ["draw", *sheet, "o"], accepted)
    report.check("OUT of draw that is replaced", (room.read("o"), os.stat(room.path("o")).st_mode & 0o777), (picture, 0o640))
    room.expect("a picture to standard output", ["draw", *sheet, "-"], (0, picture, b""))
    room.expect("a picture to a file of the name -", ["draw", *sheet, "./-"], accepted)
    report.check("the picture of the name -", room.read("-"), picture)
    os.remove(room.path("-"))
    for at, name in enumerate(sheet):
        words = list(sheet)
        words[at] = "-"
        named = picture.replace(b">a</text>", b">-</text>") if name == "a" else picture
        room.expect(f"draw with {name} on standard input", ["draw", *words, "-"], (0, named, b""), room.read(name))
        words[at] = "x"
        room.expect(f"draw without {name}", ["draw", *words, "o"], (4, b"", unread("x")))
        words[at] = "bad"
        said = (b"refused scd 106 line 1\n", b"refused dic 106 line 1\n", b"refused 106 line 1\n")[at]
        room.write("o", "kept")
        room.expect(f"draw with a bad {name}", ["draw", *words, "o"], (2, said, b""))
        report.check(f"OUT of a bad {name}", room.read("o"), b"kept")
        room.expect(f"draw with a bad {name} to -", ["draw", *words, "-"], (2, b"", said))
    for name in sheets:
        before = room.read(name)
        os.symlink(name, room.path("to_" + name))
        for file in (name, "./" + name, "to_" + name):
            if name != "b":
                room.expect(f"OUT of draw is the input {file}", ["draw", *sheet, file], (4, b"", unwritten(file, "is one of the inputs")))
            room.expect(f"FILE of a picture is the input {file}", ["diff", "--picture", file, *sheets], (4, b"", unwritten(file, "is one of the inputs")))
        absent = ["absent" if it != name else it for it in sheets]
        room.expect(f"FILE of a picture is the input {name}, before a file is opened", ["diff", "--picture", name, *absent], (4, b"", unwritten(name, "is one of the inputs")))
        report.check(f"the input {name} stays beside pictures", room.read(name), before)
    for out, why in (("none/o", "no such folder"), ("/dev/full", "no space left"), (".", "is a folder")):
        room.expect(f"draw to {out}", ["draw", *sheet, out], (4, b"", unwritten(out, why)))
        room.expect(f"a picture of what differs to {out}", ["diff", "--picture", out, *sheets], (4, b"", unwritten(out, why)))
    differing(room, sheets)
    report.check("no draft of a picture stays", drafts(room.folder), [])


CORNER = (b"CORCC12:+5.00;+5.00;", b"CORCC12:+5.00;+6.00;")


EXAMPLE = [
    ("PFE", "  ", "PFE Face_1 PGE;FAC_id", "M 0,5 10,5 0,5ZM 10,5 5,0 0,5 0,5Z", False),
    ("PAR", "  ", "PAR Arc_1 PGE;ARC_id", " 0,5 10,5"),
    ("PAR", "  ", "PAR Arc_2 PGE;ARC_id", " 10,5 5,0 0,5"),
    ("PNO", "  ", "PNO Noeud_1 PGE;NOD_id", "0,5"),
    ("PNO", "  ", "PNO Noeud_2 PGE;NOD_id", "10,5"),
]


# which faces are tinted, and what is written on them: a parcel that has another number, and one whose corner moved
TINTED = {"b": (["Face_1"], ["A 12 -> A 13"]), "same": ([], []), "a": ([], []), "moved": (["Face_1"], ["A 12"])}


def tinted(picture):
    """The faces that are tinted."""
    return [it[2].split(" ")[1] for it in drawn(picture) if it[0] == "PFE" and it[4]]


def record(kind, identifier, name, *zones):
    """The lines of a record of this type and class."""
    return [f"RTYSA03:{kind}", f"RIDSA{len(identifier):02}:{identifier}", pointer("SCP", "SeSD", name), *zones]


def pointer(code, subset, name):
    value = f"EDAB01;{subset};{name}"
    return f"{code}CP{len(value):02}:{value}"


def link(identifier, name, ends):
    """A link of this class between ends, each as `PNO;Noeud_1`."""
    return record("LNK", identifier, f"REL;{name}", f"FTCSN02:{len(ends):02}", *[pointer("FTP", "SeT1", it) for it in ends], "ATCSN02:00", "QACSN02:00")


def position(x, y):
    value = f"+{x}.00;+{y}.00;"
    return f"CORCC{len(value):02}:{value}"


def parcel_of_section(at):
    """A triangle of one arc, with its node, its face and the links of these."""
    node, arc, face = f"PNO;Noeud_{at}", f"PAR;Arc_{at}", f"PFE;Face_{at}"
    x, none = 20 * at, ["ATCSN02:00", "QACSN02:00"]
    corners = [position(x, 0), position(x + 10, 0), position(x + 5, 5), position(x, 0)]
    return [
        record("PNO", f"Noeud_{at}", "PGE;NOD_id", corners[0], *none),
        record("PAR", f"Arc_{at}", "PGE;ARC_id", "TYPSN01:1", "PTCSN02:04", *corners, *none),
        record("PFE", f"Face_{at}", "PGE;FAC_id", *none),
        link(f"Start_{at}", "INI_id", [arc, node]),
        link(f"End_{at}", "FIN_id", [arc, node]),
        link(f"Side_{at}", "GCH_id", [arc, face]),
    ]


def section(count, name):
    """So many parcels, and a section of this name of which all are parts by one link."""
    attributes = ["ATCSN02:01", pointer("ATP", "SeSD", "ATT;NOM_id"), f"ATVSA{len(name):02}:{name}", "QACSN02:00"]
    records = [it for at in range(1, count + 1) for it in parcel_of_section(at)]
    records.append(record("FEA", "Section", "OBJ;PARCELLE_id", "CNCSN02:00", *attributes))
    records.append(link("Parts", "CMP_id", ["FEA;Section"] + [f"PFE;Face_{at}" for at in range(1, count + 1)]))
    lines = ["BOMT 12:EDAB01T1.VEC", "CSET 03:IRV", *[line for it in records for line in it], "EOMT 00:"]
    return "".join(line + "\n" for line in lines)


# two sections, each of so many parcels and of a name, and which faces are tinted where they are drawn. A link of a section of three
# parcels names four records, and so a change of the section is one of each parcel
SECTIONS = [
    ((3, "A"), (3, "B"), ["Face_1", "Face_2", "Face_3"]),
    ((4, "A"), (4, "B"), []),
    ((4, "A"), (5, "A"), ["Face_5"]),
    ((5, "A"), (4, "B"), ["Face_5"]),
]


def sections(room):
    """Which parcels are tinted where their section changed."""
    for first, second, faces in SECTIONS:
        room.write("a3", section(*first))
        room.write("b3", section(*second))
        name = f"a section of {first} and of {second}"
        room.expect(f"{name}: they differ", ["diff", "--brief", "--picture", "p", "s", "d", "a3", "b3"], (1, *room.run(["diff", "--brief", "s", "d", "a3", "b3"])[1:]))
        room.report.check(f"{name}: which parcels are tinted", sorted(tinted(room.read("p"))), faces)
        os.remove(room.path("p"))


def differing(room, sheets):
    """A picture of what differs: with the lines of diff, for both answers, and for none where there is another."""
    report = room.report
    for second in ("b", "same", "a", "moved"):
        wanted = room.run(["diff", *sheets[:3], second])
        room.write("b2", room.read("b"))
        room.write("b", room.read(second))
        picture_case(room, f"the example and {second}", [], wanted)
        room.run(["diff", "--picture", "p", *sheets])
        report.check(f"what is tinted and written for {second}", (tinted(room.read("p")), labels(room.read("p"))), TINTED[second])
        room.write("b", room.read("b2"))
    sections(room)
    room.write("p", "kept")
    room.expect("a picture to -", ["diff", "--picture", "-", *sheets], (3, b"", b"--picture takes a file, and not -\n"))
    for words in (["bad", "d", "a", "b"], ["s", "bad", "a", "b"], ["s", "d", "bad", "bad"], ["s", "d", "a", "bad"], ["--kinds", "XA,XB,XC,IND", *sheets], ["s", "d", "a", "x"], ["s", "d", "a", "."]):
        wanted = room.run(["diff", *words])
        report.holds(f"diff of {words} has no answer", wanted[0] in (2, 4))
        room.expect(f"a picture of {words}", ["diff", "--picture", "p", *words], wanted)
    report.check("FILE where there is no answer", (room.read("p"), room.read("-")), (b"kept", None))
    room.expect("a picture with a sheet on standard input", ["diff", "--picture", "p", "s", "d", "-", "b"], room.run(["diff", *sheets]), room.read("a"))
    picture = room.read("p").replace(b">A: -,", b">A: a,")
    with open("/dev/full", "wb") as full:
        room.write("p", "old")
        status, _, err = room.run(["diff", "--picture", "p", *sheets], stdout=full)
        report.check("a picture beside a full output", (status, err.split(b"\n")[0], room.read("p")), (4, b"cannot write standard output", picture))
        status, _, err = room.run(["draw", *sheets[:3], "-"], stdout=full)
        report.check("draw to a full output", (status, err.split(b"\n")[0]), (4, b"cannot write standard output"))
