"""What `explain` says of sheets and schemas: the place, the earlier record, hints, and what an accepted sheet holds; and of rules."""
import bz2
import gzip
import io
import os
import re
import tarfile
import zipfile

from classes import described, refused
from room import unread

DOCS = os.path.join(os.path.dirname(os.path.abspath(__file__)), "..", "docs")
CODES = [b"IND", b"FND", b"LPO", b"RPO"]
RULES = (*range(101, 111), *range(201, 209), *range(301, 308), *range(401, 407), 501, 601, 602, 603, 604, *range(701, 712))


def explains(room, sheet):
    """Explanations with their whole text, of rules too; words, files and streams that are bad."""
    report = room.report
    room.write("v", sheet)
    classes, left_out = described(b"s", room.read("s"), CODES), b"quality zones left out: 0\nremarks left out: 0\n"
    held = b"accepted\nnodes: 1\narcs: 0\nfaces: 0\nobjects: 0\nlinks: 0\nx: 10.5 to 10.5\ny: 20 to 20\ncharacter set: IRV\nclass PGE NOD_id: 1\nextra zones: 0\n" + classes + left_out
    room.expect("what an accepted sheet holds", ["explain", "s", "d", "v"], (0, held, b""))
    room.expect("the sheet on standard input, explained", ["explain", "s", "d", "-"], (0, held, b""), room.read("v"))
    room.write("empty", "BOMT 01:X\nEOMT 00:\n")
    none = b"accepted\nnodes: 0\narcs: 0\nfaces: 0\nobjects: 0\nlinks: 0\ncharacter set: none\nextra zones: 0\n" + classes + left_out
    room.expect("what a sheet without records holds", ["explain", "s", "d", "empty"], (0, none, b""))
    node = "RTYSA03:PNO\nRIDSA0{0}:{1}\nSCPCP22:EDAB01;SeSD;PGE;NOD_id\nCORCC0{2}:{3};0;\n"
    spread = "BOMT 01:X\n" + node.format(1, "a", 8, "-0.50") + node.format(1, "b", 4, "7") + "EOMT 00:\n"
    room.write("spread", spread)
    report.holds("the extent has decimals", b"\nx: -0.5 to 7\ny: 0 to 0\n" in room.run(["explain", "s", "d", "spread"])[1])
    feature = "RTYSA03:FEA\nRIDSA01:{0}\nSCPCP27:EDAB01;SeSD;OBJ;PARCELLE_id\nATPCP22:EDAB01;SeSD;ATT;NOM_id\nATVSA01:{0}\n"
    room.write("classes", "BOMT 01:X\n" + node.format(1, "a", 4, "7") + feature.format("o") + node.format(1, "b", 4, "8") + "EOMT 00:\n")
    counted = [it for it in room.run(["explain", "s", "d", "classes"])[1].split(b"\n") if it.startswith(b"class ")]
    room.write("extra", "BOMT 01:X\n" + node.format(1, "a", 4, "7") + "XYZSA01:1\nTEXSA01:2\nPTCSA01:3\nQACSA00:\nEOMT 00:\n")
    report.holds("extra zones", b"\nextra zones: 3\n" in room.run(["explain", "s", "d", "extra"])[1])
    report.check("how many records have each class", counted, [b"class OBJ PARCELLE_id: 1", b"class PGE NOD_id: 2"])
    room.write("two", "BOMT 01:X\n" + node.format(1, "a", 4, "7") + "\n" + node.format(2, "bb", 4, "8") + node.format(1, "a", 4, "9") + "EOMT 00:\n")
    named = ("refused 301 record 3\ntwo:11: PNO a: type and identifier of an earlier record [301]\ntwo:2: PNO a: the earlier record [301]\ntwo:12: RID a: the identifier [301]\n").encode()
    room.expect("a record with the name of an earlier one", ["explain", "s", "d", "two"], (2, named, b""))
    dashed = named.replace(b"two:", b"standard input:")
    room.expect("the same from standard input", ["explain", "s", "d", "-"], (2, dashed, b""), room.read("two"))
    room.write("equal", "BOMT 01:X\n" + node.format(1, "a", 4, "7") + node.format(1, "b", 4, "8") + node.format(1, "c", 4, "7") + "EOMT 00:\n")
    node_line = b"a node with the position, class, attributes and extras of an earlier node [403]\n"
    room.expect("a node equal to an earlier one", ["explain", "s", "d", "equal"], (2, b"refused 403 record 3\nequal:10: PNO c: " + node_line + b"equal:2: PNO a: the earlier node [403]\nequal:13: COR 7;0;: the position [403]\n", b""))
    arc = "RTYSA03:PAR\nRIDSA01:{0}\nSCPCP22:EDAB01;SeSD;PGE;ARC_id\nCORCC04:{1};0;\nCORCC04:{2};0;\n"
    room.write("arcs", "BOMT 01:X\n" + arc.format("a", 1, 2) + arc.format("b", 2, 1) + "EOMT 00:\n")
    arcs = b"refused 405 record 2\narcs:7: PAR b: an arc with an earlier arc's points, in either direction [405]\narcs:2: PAR a: the earlier arc [405]\n"
    room.expect("an arc with the points of an earlier one", ["explain", "s", "d", "arcs"], (2, arcs, b""))
    room.write("cut", "BOMT 01:X\nRTYSA03:PNO\n")
    room.expect("a rule of lines", ["explain", "s", "d", "cut"], (2, b"refused 106 line 3\ncut:3: there is no EOM [106]\n", b""))
    room.write("twice", room.read("s").replace(b"RIDSA06:FAC_id", b"RIDSA06:NOD_id"))
    twice = b"refused scd 602 record 3\ntwice:7: PGE NOD_id: type and identifier of an earlier record of the file [602]\ntwice:3: PGE NOD_id: the earlier record [602]\ntwice:8: RID NOD_id: the identifier [602]\n"
    room.expect("a refused schema", ["explain", "twice", "d", "v"], (2, twice, b""))
    for name, command in (("s", ["x", "d", "v"]), ("d", ["s", "x", "v"]), ("v", ["s", "d", "x"])):
        room.expect(f"explain without {name}", ["explain", *command], (4, b"", unread("x")))
    room.expect("two inputs by -", ["explain", "-", "d", "-"], (3, b"", b"only one input can be -\n"))
    room.expect("two files of three", ["explain", "s", "d"], (3, b"", b"explain takes RULE, or SCD, DIC and VEC\n"))
    room.expect("bad kinds", ["explain", "--kinds", "A", "s", "d", "v"], (3, b"", b"bad kinds\nedicad: --kinds A: takes four codes parted by commas\n"))
    status, out, err = room.run(["explain", "403"])
    report.check("a rule: status", (status, err), (0, b""))
    page = out.decode().split("\n")
    report.check("a rule: its sentence", page[0], "403: a node with the position, class, attributes and extras of an earlier node")
    report.check("a rule: its lines", [it.split(":")[0] for it in page[1:]], ["Why", "Usual cause", "What to do", ""])
    for word in ("999", "0403", "+403", "403 ", "", "rule", "65939"):
        room.expect(f"no rule {word!r}", ["explain", word], (3, b"", b"no rule has this number\n"))
    for rule in RULES:
        report.holds(f"rule {rule} has a page", room.run(["explain", str(rule)])[1].startswith(b"%d: " % rule))
    listed = b"".join(room.run(["explain", str(rule)])[1].split(b"\n")[0] + b"\n" for rule in RULES)
    room.expect("the rules", ["explain"], (0, listed, b""))
    room.expect("the rules, with kinds", ["explain", "--kinds", "A,B,C,D"], (0, listed, b""))
    with open("/dev/full", "wb") as full:
        room.expect("the rules to a full output", ["explain"], (4, None, b"cannot write standard output\n"), stdout=full)
        for command in (["s", "d", "v"], ["s", "d", "two"], ["403"]):
            room.expect(f"{command} explained to a full output", ["explain", *command], (4, None, b"cannot write standard output\n"), stdout=full)


def explains_kinds(room, sheet):
    """The classes that break 604, and the classes of the four kinds of an accepted schema."""
    room.write("v", sheet)
    front, end = "BOMT 01:X\n", "EOMT 00:\n"
    one = lambda rid, knd=None, rty="REL": f"RTYSA{len(rty):02}:{rty}\nRIDSA{len(rid):02}:{rid}\n" + (f"KNDSA{len(knd):02}:{knd}\n" if knd else "")
    nodes, faces = one("a", "IND") + one("b", "FND"), one("c", "LPO") + one("e", "RPO")

    def kinds_refused(name, classes, lines, kinds=None, file="t"):
        room.write("t", front + classes + end)
        words = ["explain", *(["--kinds", kinds] if kinds else []), file, "d", "v"]
        told = "".join(f"{'standard input' if file == '-' else file}:{it} [604]\n" for it in lines)
        room.expect(name, words, (2, b"refused kinds 604\n" + told.encode(), b""), room.read("t") if file == "-" else b"")

    kinds_refused("a class of one kind alone", one("a", "IND"), ["2: REL a: a class for initial node, and there is none for final node"])
    kinds_refused("the same on standard input", one("a", "FND"), ["2: REL a: a class for final node, and there is none for initial node"], file="-")
    kinds_refused("the first alone of two kinds", one("c", "RPO") + one("a", "FND"), ["5: REL a: a class for final node, and there is none for initial node"])
    kinds_refused("two classes of a kind", nodes + one("c", "FND"), ["8: REL c: a second class for final node", "5: REL b: the earlier class"])
    kinds_refused("three classes of a kind", nodes + one("c", "IND") + one("e", "IND"), ["8: REL c: a second class for initial node", "2: REL a: the earlier class"])
    kinds_refused("two of a kind before one alone", one("a", "IND") + one("c", "RPO") + one("e", "RPO"), ["8: REL e: a second class for right face", "5: REL c: the earlier class"])
    kinds_refused("a type with a semicolon", faces + one("a", "IND") + one("b", "FND", "R;L"), ["11: R;L b: a class for final node that no pointer can name, since its type holds ;"])
    kinds_refused("a class alone before a semicolon", one("c", "LPO") + one("a", "IND", "R;L") + one("b", "FND"), ["2: REL c: a class for left face, and there is none for right face"])
    kinds_refused("a class by its identifier", one("FND"), ["2: REL FND: a class for final node, and there is none for initial node"])
    kinds_refused("KND before the identifier", one("FND", "IND"), ["2: REL FND: a class for initial node, and there is none for final node"])
    kinds_refused("given codes", one("a", "W") + one("b", "IND"), ["2: REL a: a class for left face, and there is none for right face"], "X,Y,W,Z")
    room.expect("a code of another producer", ["explain", "--kinds", "XA,XB,XC,IND", "s", "d", "v"],
                (2, b"refused kinds 604\n" + refused(b"s", room.read("s"), [b"XA", b"XB", b"XC", b"IND"]), b""))

    def kinds_described(name, classes, lines, kinds=()):
        room.write("t", front + one("NOD_id", None, "PGE") + classes + end)
        status, out, err = room.run(["explain", *kinds, "t", "d", "v"])
        told = [it for it in out.decode().split("\n") if it.startswith(("initial node: ", "final node: ", "left face: ", "right face: "))]
        room.report.check(name, (status, told, err), (0, lines, b""))

    no_nodes, no_faces = ["initial node: no class", "final node: no class"], ["left face: no class", "right face: no class"]
    kinds_described("four classes", faces + nodes, ["initial node: t:10: REL a", "final node: t:13: REL b", "left face: t:4: REL c", "right face: t:7: REL e"])
    kinds_described("no faces", nodes, ["initial node: t:4: REL a", "final node: t:7: REL b", *no_faces])
    kinds_described("no nodes", faces, [*no_nodes, "left face: t:4: REL c", "right face: t:7: REL e"])
    kinds_described("codes that no class has", faces + nodes, no_nodes + no_faces, ["--kinds", "W,X,Y,Z"])


def explains_partners(room):
    """The earlier records of rules 307 and 501."""
    front = "BOMT 01:X\nRTYSA03:PNO\nRIDSA01:a\nSCPCP22:EDAB01;SeSD;PGE;NOD_id\nCORCC04:0;0;\n"
    front += "RTYSA03:PAR\nRIDSA01:c\nSCPCP22:EDAB01;SeSD;PGE;ARC_id\nCORCC04:0;0;\nCORCC04:1;0;\n"
    link = "RTYSA03:LNK\nRIDSA01:{0}\nSCPCP22:EDAB01;SeSD;REL;{1}_id\nFTPCP17:EDAB01;SeT1;PAR;c\nFTPCP17:EDAB01;SeT1;PNO;a\n"
    room.write("sides", front + link.format("k", "FIN") + link.format("m", "INI") + link.format("n", "INI") + "EOMT 00:\n")
    sides = b"refused 307 record 5\nsides:21: LNK n: a link of a kind whose arc has an earlier link of that kind [307]\nsides:16: LNK m: the earlier link [307]\nsides:24: FTP EDAB01;SeT1;PAR;c: the arc [307]\n"
    room.expect("an arc with two links of a kind", ["explain", "s", "d", "sides"], (2, sides, b""))
    record = "RTYSA03:FEA\nRIDSA01:{0}\nSCPCP27:EDAB01;SeSD;OBJ;PARCELLE_id\n"
    full = record.format("o") + "ATPCP22:EDAB01;SeSD;ATT;NOM_id\nATVSA01:x\n"
    room.write("objects", "BOMT 01:X\n" + full + record.format("p") + record.format("q") + "EOMT 00:\n")
    objects = b"refused 501 record 3\nobjects:10: FEA q: an object with the class, attributes, extras and pieces of an earlier object [501]\nobjects:7: FEA p: the earlier object [501]\n"
    room.expect("an object equal to an earlier one", ["explain", "s", "d", "objects"], (2, objects, b""))
    room.write("ends", "BOMT 01:X\n\nREMT 03:EOM\nEOMT 00:\n\nEOMT 00:\n")
    ends = b"refused 107 line 6\nends:6: a zone after the first EOM [107]\nends:4: the earlier line [107]\n"
    room.expect("a zone behind the end", ["explain", "s", "d", "ends"], (2, ends, b""))
    room.write("sets", "BOMT 01:X\nRTYSA03:PNO\nRTYSA03:PNO\nCSET 03:IRV\nEOMT 00:\n")
    sets = b"BOM after a BOM; a CSE after a CSE or after an RTY [108]\n"
    room.expect("a character set behind a record", ["explain", "s", "d", "sets"], (2, b"refused 108 line 4\nsets:4: a " + sets + b"sets:2: the earlier line [108]\n", b""))
    room.write("twice", "BOMT 01:X\nBOMT 01:X\nEOMT 00:\n")
    room.expect("classes with two heads", ["explain", "twice", "d", "ends"], (2, b"refused scd 108 line 2\ntwice:2: a " + sets + b"twice:1: the earlier line [108]\n", b""))


def explains_hints(room, sheet):
    """The usual causes of a refusal that the files show, and how many zones of quality and remarks an accepted sheet has."""
    report = room.report
    room.write("v", sheet)
    node = "RTYSA03:PNO\nRIDSA01:a\nSCPCP22:EDAB01;SeSD;PGE;NOD_id\nCORCC04:7;0;\nQACSN02:00\nQAPSA02:NE\nNEXT 02:XT\n"
    room.write("quality", "BOMT 01:X\nREMT 03:QAC\n" + node + "EOMT 00:\n")
    report.holds("zones of quality", room.run(["explain", "s", "d", "quality"])[1].endswith(b"\nquality zones left out: 2\nremarks left out: 1\n"))
    room.write("remarks", "REMT 03:BOM\nBOMT 01:X\n\n" + node.replace("NEXT", "REMT 00:  \r\nREMT 02:QA\nNEXT") + "REMT 03:END\nEOMT 00:\nREMT 03:REM\n\nREMT 00:")
    report.holds("remarks", room.run(["explain", "s", "d", "remarks"])[1].endswith(b"\nquality zones left out: 2\nremarks left out: 6\n"))

    def hinted(name, words, wanted):
        status, out, err = room.run(["explain", *words])
        lines = [it for it in out.decode("latin-1").split("\n") if it.startswith("hint: ")]
        report.check(name, (status, lines, err), (2, wanted, b""))

    cut = " seems to be cut: its last line has no end"
    mark, end = " begins with a byte order mark, which has to go", " ends in a byte 0x1A, which has to go"
    room.write("marked", b"\xef\xbb\xbf" + room.read("v"))
    room.write("closed", room.read("v") + b"\x1a")
    room.write("thf", "BOMT 01:X\nRTYSA03:GTS\nRIDSA01:a\nEOMT 00:\n")
    room.write("odd", "BOMT 01:X\nRTYSA03:XXX\nRIDSA01:a\nEOMT 00:\n")
    other = " is {0} by its first record, and was given as {1}"
    hinted("a byte order mark", ["s", "d", "marked"], ["hint: marked" + mark])
    hinted("a byte order mark before a sheet in the place of the classes", ["marked", "d", "v"], ["hint: marked" + mark, "hint: marked" + other.format("VEC", "SCD")])
    hinted("a closing 0x1A", ["s", "d", "closed"], ["hint: closed" + end])
    both = ["hint: marked" + mark, "hint: marked" + other.format("VEC", "SCD"), "hint: closed" + end, "hint: closed" + other.format("VEC", "DIC")]
    hinted("both", ["marked", "closed", "v"], both)
    room.write("marked classes", b"\xef\xbb\xbf" + room.read("s"))
    hinted("a byte order mark before the classes", ["marked classes", "d", "v"], ["hint: marked classes" + mark])
    hinted("classes and words exchanged", ["d", "s", "v"], ["hint: d" + other.format("DIC", "SCD"), "hint: s" + other.format("SCD", "DIC")])
    hinted("words and sheet exchanged", ["s", "v", "d"], ["hint: v" + other.format("VEC", "DIC"), "hint: d" + other.format("DIC", "VEC")])
    hinted("another file of the delivery", ["s", "d", "thf"], ["hint: thf" + other.format("THF", "VEC")])
    hinted("no known type", ["s", "d", "odd"], [])
    room.write("broken", "BOMT 01:X\nRTYSA04:GTS\nRTYSA03:QUP\nRTYSA03:GTS\n")
    hinted("a file that breaks a rule of lines before its first type", ["s", "d", "broken"], ["hint: broken" + other.format("QAL", "VEC")])
    room.write("odd first", "BOMT 01:X\nRTYSA03:XXX\nRTYSA03:GTS\nRIDSA01:a\nEOMT 00:\n")
    hinted("a known type behind one that isn't known", ["s", "d", "odd first"], [])
    room.write("short", "BOMT 01:X\nRTYSA03:GT")
    hinted("a type of two bytes", ["s", "d", "short"], ["hint: short" + cut])
    room.write("cut", "BOMT 01:X\nRTYSA03:PNO\n")
    hinted("nothing to hint at", ["s", "d", "cut"], [])
    room.write("head", "BOMT 01:X\nRTYS")
    hinted("a file that was cut in a head", ["s", "d", "head"], ["hint: head" + cut])
    room.write("classes", "BOMT 01:X\nRTYSA03:OB")
    hinted("classes that were cut", ["classes", "d", "v"], ["hint: classes" + cut])
    room.write("behind", "BOMT 01:X\nRTYSA03:PN\nEOMT 00:")
    hinted("a line in front of the last that is too short", ["s", "d", "behind"], [])
    room.write("more", "BOMT 01:X\nRTYSA03:PNOX")
    hinted("a last line that is too long", ["s", "d", "more"], [])
    room.write("whole", "BOMT 01:X\nRTYSA03:PN\n")
    hinted("a last line that has its end", ["s", "d", "whole"], [])
    sheet = room.read("v")
    tar = io.BytesIO()
    with tarfile.open(fileobj=tar, mode="w") as archive:
        archive.add(os.path.join(room.folder, "v"), "BZ.VEC")
    zipped = io.BytesIO()
    with zipfile.ZipFile(zipped, "w") as archive:
        archive.writestr("v", sheet)
    unpack, take, turned = " is packed with {0}: unpack it first", " is a {0} archive: take the files out of it first", " seems to have been turned into UTF-16, so take the file as it was delivered"
    forms = (("bzip2", bz2.compress(sheet), unpack), ("gzip", gzip.compress(sheet), unpack), ("tar", tar.getvalue(), take), ("ZIP", zipped.getvalue(), take))
    for form, packed, words in (*forms, ("UTF-16", b"\xff\xfe" + sheet.decode("latin-1").encode("utf-16-le"), turned), ("UTF-16 BE", b"\xfe\xff\0B", turned)):
        room.write("packed", packed + b"\n\x1a")
        hinted(f"a sheet in {form}", ["s", "d", "packed"], ["hint: packed" + words.format(form)])
        hinted(f"a dictionary in {form}", ["s", "packed", "v"], ["hint: packed" + words.format(form)])


def explains_lengths(room):
    """Files that were turned into UTF-8 and kept their lengths, and others that 103 refuses."""
    hint = b" seems to have been turned into UTF-8: its lengths count characters, so take the file as it was delivered\n"
    broken = b":3: a byte other than a space follows the value [103]\n"
    front, end = "BOMT 01:X\nRTYSA03:PNO\n", "\nEOMT 00:\n"

    def hinted(name, value, hints):
        room.write("turned", (front + value + end).encode("utf-8"))
        hinted = b"hint: turned" + hint if hints else b""
        room.expect(name, ["explain", "s", "d", "turned"], (2, b"refused 103 line 3\nturned" + broken + hinted, b""))

    hinted("a length that counts characters", "RIDSA07:Ch\u00e2teau", True)
    hinted("the same with spaces behind the value", "RIDSA07:Ch\u00e2teau  \r", True)
    hinted("characters of three and four bytes", "RIDSA03:\u20ac\u20ac\U0001f600", True)
    hinted("a value that ends in a space", "RIDSA04:\u00e9\u00e9\u00e9 ", True)
    hinted("fewer than the characters", "RIDSA06:Ch\u00e2teau", False)
    hinted("fewer than the characters, and a space behind them", "RIDSA06:Ch\u00e2teau ", False)
    hinted("as many bytes as characters", "RIDSA06:Chateau", False)
    room.write("counted", (front + "RIDSA08:Ch\u00e2teau\n").encode("utf-8"))
    room.expect("a length that counts bytes", ["explain", "s", "d", "counted"], (2, b"refused 106 line 4\ncounted:4: there is no EOM [106]\n", b""))
    room.write("classes", room.read("s").replace(b"\n", "\nREMT 03:\u00e9t\u00e9\n".encode("utf-8"), 1))
    status, out, err = room.run(["explain", "classes", "d", "counted"])
    room.report.check("classes that were turned into UTF-8", (status, out.split(b"\n")[0], out.endswith(b" [103]\nhint: classes" + hint), err), (2, b"refused scd 103 line 2", True, b""))


def explains_zones(room):
    """The zone with which a record breaks a rule."""
    front, end = "BOMT 01:X\n", "EOMT 00:\n"
    pointer = "EDAB01;SeSD;{0}"
    one = lambda code, value: f"{code}SA{len(value):02}:{value}\n"
    record = lambda rty, *zones: one("RTY", rty) + "".join(one(*zone) for zone in zones)
    rid, node, arc, link = ("RID", "a"), ("SCP", pointer.format("PGE;NOD_id")), ("SCP", pointer.format("PGE;ARC_id")), ("SCP", pointer.format("REL;INI_id"))
    at, ends = ("COR", "7;0;"), (("FTP", "EDAB01;SeT1;PAR;c"), ("FTP", "EDAB01;SeT1;PNO;a"))
    named = ("ATP", pointer.format("ATT;NOM_id"))

    def said(name, records, rule, line, *behind):
        """What stands behind the line of the record, and that of an earlier one: the line of a zone, and others."""
        room.write("z", front + records + end)
        status, out, err = room.run(["explain", "s", "d", "z"])
        lines = out.decode().split("\n")[:-1]
        zone = [it for it in lines[2:] if ": the earlier " not in it and ": the first link " not in it]
        room.report.check(name, (status, lines[0].split()[1], zone, err), (2, str(rule), [f"z:{it} [{rule}]" for it in (line, *behind) if it], b""))

    said("no RID", record("PNO", node, at), 202, None)
    said("an RID with a semicolon", record("PNO", ("RID", "a;b"), node, at), 202, "3: RID a;b: no identifier")
    said("a second RID", record("PNO", rid, node, at, ("RID", "b")), 202, "6: RID b: a second identifier")
    said("a second RID that is no identifier", record("PNO", rid, node, at, ("RID", "a;b")), 202, "6: RID a;b: no identifier")
    said("an SCP with a part less", record("PNO", rid, ("SCP", "SeSD;PGE;NOD_id"), at), 203, "4: SCP SeSD;PGE;NOD_id: no pointer")
    said("a second SCP", record("PNO", rid, node, node, at), 203, "5: SCP EDAB01;SeSD;PGE;NOD_id: a second class")
    said("an ATP that is no pointer", record("PNO", rid, node, at, named, ("ATP", "x")), 204, "7: ATP x: no pointer")
    said("an ATV with no open attribute", record("PNO", rid, node, at, ("ATV", "x")), 204, None)
    said("a count of attributes", record("PNO", rid, node, at, ("ATC", "02"), named), 205, "6: ATC 02: not the count; there are 1")
    said("a second count", record("PAR", rid, arc, ("PTC", "02"), at, at, ("PTC", "2")), 205, "8: PTC 2: a second count")
    said("a count that is no number", record("LNK", rid, link, ("FTC", "+2"), *ends), 205, "5: FTC +2: not the count; there are 2")
    said("a count of points of no arc", record("PNO", rid, node, ("PTC", "9"), at, ("ATC", "1")), 205, "7: ATC 1: not the count; there are 0")
    said("a comma for a point", record("PNO", rid, node, ("COR", "7,5;0;")), 206, "5: COR 7,5;0;: no position")
    said("a point of an arc with four numbers", record("PAR", rid, arc, at, ("COR", "1;2;3;4"), at), 206, "6: COR 1;2;3;4: no position")
    said("a second position of a node", record("PNO", rid, node, at, ("COR", "1;2;3")), 206, "6: COR 1;2;3: a second position of the node")
    said("a second position of a node that is none", record("PNO", rid, node, at, ("COR", "1,5;2;")), 206, "6: COR 1,5;2;: no position")
    said("a node without a position", record("PNO", rid, node), 206, None)
    said("an arc of one point", record("PAR", rid, arc, at), 206, None)
    said("an end that is no pointer", record("LNK", rid, link, ends[0], ("FTP", "PAR;c")), 207, "6: FTP PAR;c: no pointer")
    said("a link of one end", record("LNK", rid, link, ends[0]), 207, None)
    unknown = lambda code, value: f"{code}CP{len(value):02}:{value}\n"
    said("a pointer that isn't known", record("PNO", rid, node, at, ("XYZ", "k")) + unknown("UVW", "") + unknown("XYZ", "k;l"), 208, "8: XYZ k;l: a pointer that isn't known")
    said("a count of points of a node that is a pointer", record("PNO", rid, node, at) + unknown("PTC", "2"), 208, "6: PTC 2: a pointer that isn't known")
    said("an end of an object", record("FEA", rid, ("SCP", pointer.format("OBJ;PARCELLE_id"))) + unknown("FTP", "EDAB01;SeT1;PAR;c"), 208, "5: FTP EDAB01;SeT1;PAR;c: a pointer that isn't known")
    texts = record("PNO", rid, node, at, named) + unknown("TEX", "a") + one("ATV", "b")
    said("a character set behind its attribute", texts + unknown("TEX", "c"), 208, "9: TEX c: a pointer that isn't known")
    said("an identifier of an earlier record", record("PNO", rid, node, at) + record("PNO", node, at, rid), 301, "9: RID a: the identifier")
    said("a class that there is none of", record("PNO", rid, ("SCP", pointer.format("PGE;X")), at), 302, "4: SCP EDAB01;SeSD;PGE;X: the class")
    said("an attribute that there is no class of", record("PNO", rid, node, at, named, ("ATP", pointer.format("ATT;X"))), 303, "7: ATP EDAB01;SeSD;ATT;X: no class of an attribute")
    said("a class that is none of attributes", record("PNO", rid, node, at, ("ATP", node[1])), 303, "6: ATP EDAB01;SeSD;PGE;NOD_id: no class of an attribute")
    joined = record("PNO", rid, node, at) + record("PAR", ("RID", "c"), arc, at, ("COR", "1;2;"))
    said("an end of another subset than the other", joined + record("LNK", rid, ("SCP", pointer.format("REL;ARC_id")), ends[0], ("FTP", "EDAB01;SeT2;PNO;a")), 302, "13: SCP EDAB01;SeSD;REL;ARC_id: the class")
    said("an end of another subset than that before it", joined + record("LNK", rid, link, ends[0], ("FTP", "EDAB01;SeT2;PNO;a")), 304, "15: FTP EDAB01;SeT2;PNO;a: another lot or subset")
    other = record("LNK", ("RID", "b"), link, ends[0], ("FTP", "EDAB02;SeT1;PNO;a"))
    said("an end of another lot than the first", joined + record("LNK", rid, link, *ends) + other, 304, "20: FTP EDAB02;SeT1;PNO;a: another lot or subset")
    lost = lambda *names: joined + record("LNK", rid, link, *[("FTP", "EDAB01;SeT1;" + name) for name in names])
    said("an end that is no record", lost("PAR;c", "PNO;z"), 305, "15: FTP EDAB01;SeT1;PNO;z: no node, arc, face or object")
    said("an end that has the identifier of a record of another type", lost("PAR;a", "PNO;a"), 305, "14: FTP EDAB01;SeT1;PAR;a: no node, arc, face or object")
    said("an end that is a link", lost("PAR;c", "LNK;a"), 305, "15: FTP EDAB01;SeT1;LNK;a: no node, arc, face or object")
    said("an end of a type that no record has", lost("PAR;c", "XYZ;c"), 305, "15: FTP EDAB01;SeT1;XYZ;c: no node, arc, face or object")
    said("an end behind its link", lost("PAR;c", "PNO;b", "PNO;z") + record("PNO", ("RID", "b"), node, ("COR", "9;9;")), 305, "16: FTP EDAB01;SeT1;PNO;z: no node, arc, face or object")
    said("a link of a kind of three ends", joined + record("LNK", rid, link, *ends, ends[1]), 306, "13: SCP EDAB01;SeSD;REL;INI_id: the class, which is of a kind")
    twice = record("LNK", rid, link, *ends) + record("LNK", ("RID", "b"), link, ends[1], ends[0])
    said("a second link of a kind", joined + twice, 307, "20: FTP EDAB01;SeT1;PAR;c: the arc")
    said("a node that is equal to an earlier one", record("PNO", rid, node, at) + record("PNO", ("RID", "b"), node, at), 403, "9: COR 7;0;: the position")
    initial, final = ("SCP", pointer.format("REL;INI_id")), ("SCP", pointer.format("REL;FIN_id"))
    line = record("PAR", ("RID", "c"), arc, ("COR", "1;1"), ("COR", "2;2"), ("COR", "3;3"))
    said("an arc that begins elsewhere", record("PNO", rid, node, at) + line + record("LNK", rid, initial, *ends), 401, "9: COR 1;1: the first point", "2: PNO a: the initial node")
    said("an arc that ends elsewhere", record("PNO", rid, node, at) + line + record("LNK", rid, final, *ends), 402, "11: COR 3;3: the last point", "2: PNO a: the final node")
    both = record("LNK", rid, initial, ("FTP", "EDAB01;SeT1;PNO;a"), ends[0]) + record("LNK", ("RID", "b"), final, ends[0], ("FTP", "EDAB01;SeT1;PNO;b"))
    said("an arc whose nodes stand behind it", line.replace("1;1", "7;0") + both + record("PNO", rid, node, at) + record("PNO", ("RID", "b"), node, ("COR", "9;9;")), 402, "7: COR 3;3: the last point", "22: PNO b: the final node")
    said("a value of two lines", record("PNO", ("RID", "a"), node, ("COR", "7,"))  + "NEXT 02:5;\n", 206, "5: COR 7,5;: no position")
    room.write("words", front + record("DIA", rid) + end)
    room.write("classes", front + record("ATT", rid, ("DIP", "EDAB01;SeSD;DIA;b"), ("DIP", "x")) + end)
    status, out, err = room.run(["explain", "classes", "words", "z"])
    room.report.check("a class without a word", (status, out.split(b"\n")[2], err), (2, b"classes:4: DIP EDAB01;SeSD;DIA;b: the word of the class [603]", b""))
    room.write("nameless", front + record("DIA", ("RID", "a;b")) + end)
    status, out, err = room.run(["explain", "classes", "nameless", "z"])
    room.report.check("a word without a name", (status, out.split(b"\n")[2], err), (2, b"nameless:3: RID a;b: no identifier [601]", b""))
    room.write("named twice", front + record("DIA", rid, ("RID", "b")) + end)
    status, out, err = room.run(["explain", "classes", "named twice", "z"])
    room.report.check("a word with two names", (status, out.split(b"\n")[2], err), (2, b"named twice:4: RID b: a second identifier [601]", b""))


def page_text(name):
    with open(os.path.join(DOCS, name), encoding="utf-8") as file:
        return file.read()


def section(out):
    """What the program prints of a rule, as docs/EXPLAINED.md has it."""
    head, *lines = out.decode().splitlines()
    return "\n".join(["## " + head, "", *["- " + it for it in lines], ""])


def explains_rules(room):
    """Each rule has the sentence of docs/FORMAT.md, and the reason, the usual cause and the advice of docs/EXPLAINED.md."""
    check = room.report.check
    sentences = {int(rule): sentence for rule, sentence in re.findall(r"^\| ([1-7]\d\d) \| (.*) \| .* \|$", page_text("FORMAT.md"), re.M)}
    sections = {int(it[3:6]): it for it in re.split(r"^(?=## )", page_text("EXPLAINED.md"), flags=re.M)[1:]}
    check("the rules of docs/FORMAT.md and docs/EXPLAINED.md", (sorted(sentences), list(sections)), (list(RULES), list(RULES)))
    whole = r"## \d+: .+\n\n- Why: .+\.\n- Usual cause: .+\.\n- What to do: .+\.\n\n?"
    check("rules without a reason, a cause or advice", [rule for rule, text in sections.items() if not re.fullmatch(whole, text)], [])
    for rule in RULES:
        status, out, err = room.run(["explain", str(rule)])
        check(f"rule {rule}: its sentence", out.decode().split("\n")[0], f"{rule}: {sentences.get(rule)}")
        check(f"rule {rule}: docs/EXPLAINED.md", (status, section(out).strip(), err), (0, sections.get(rule, "").strip(), b""))
