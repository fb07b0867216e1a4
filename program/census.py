"""What `explain --all` lists: each place and rule of the first broken phase, of one sheet and of several, and how often each rule is broken."""
from answered import written

SCHEMA = "SCPCP22:EDAB01;SeSD;{0}\n"
NODE = "RTYSA03:PNO\nRIDSA0{0}:{1}\n" + SCHEMA.format("PGE;NOD_id") + "CORCC0{2}:{3}\n"
ARC = "RTYSA03:PAR\nRIDSA01:{0}\n" + SCHEMA.format("PGE;ARC_id") + "{1}"
FACE = "RTYSA03:PFE\nRIDSA01:{0}\n" + SCHEMA.format("PGE;FAC_id")
OBJECT = "RTYSA03:FEA\nRIDSA01:{0}\nSCPCP27:EDAB01;SeSD;OBJ;PARCELLE_id\nATPCP22:EDAB01;SeSD;ATT;{1}\nATVSA01:{2}\n"
LINK = "RTYSA03:LNK\nRIDSA02:{0}\n" + SCHEMA.format("REL;{1}") + "FTPCP{2:02}:EDAB01;{3}\nFTPCP{4:02}:EDAB01;{5}\n"
BEGIN, END = "BOMT 01:X\n", "EOMT 00:\n"


def node(identifier, position):
    return NODE.format(len(identifier), identifier, len(position), position)


def arc(identifier, *positions):
    return ARC.format(identifier, "".join(f"CORCC{len(it):02}:{it}\n" for it in positions))


def link(identifier, kind, first, second):
    return LINK.format(identifier, kind, 7 + len(first), first, 7 + len(second), second)


def line_of(text, record):
    """The line in which the record of this number begins, from 1."""
    begins = [number for number, line in enumerate(text.split("\n"), 1) if line.startswith("RTY")]
    return begins[record - 1]


def values(name, wanted):
    """The values of JSON for what is wanted of a sheet."""
    told = []
    for place, *_, rule in wanted:
        at = {"line": place, "record": None} if rule < 200 else {"line": None, "record": place}
        told.append({"version": 1, "what": "broken", "name": name, "rule": rule, **at})
    return told


def count_values(wanted):
    rules = [it[-1] for it in wanted]
    return [{"version": 1, "what": "count", "rule": rule, "count": rules.count(rule)} for rule in sorted(set(rules))]


class Census:
    def __init__(self, room):
        self.room = room
        self.sentences = {}

    def sentence(self, rule):
        if rule not in self.sentences:
            said = self.room.run(["explain", str(rule)])[1].decode()
            self.sentences[rule] = said.split("\n")[0].partition(": ")[2]
        return self.sentences[rule]

    def lines(self, name, text, wanted):
        """The lines on what is wanted: a line and a rule of lines, or a record's number, its type and identifier, and a rule."""
        told = []
        for *where, rule in wanted:
            if len(where) == 1:
                told.append(f"{name}:{where[0]}: {self.sentence(rule)} [{rule}]\n")
            else:
                told.append(f"{name}:{line_of(text, where[0])}: {where[1]}: {self.sentence(rule)} [{rule}]\n")
        return "".join(told)

    @staticmethod
    def counts(wanted):
        rules = [it[-1] for it in wanted]
        return "".join(f"rule {rule}: {rules.count(rule)}\n" for rule in sorted(set(rules)))

    def lists(self, what, text, *wanted):
        """The sheet `w` has this text, and breaks what is wanted."""
        self.room.write("w", text)
        said = self.lines("w", text, wanted) + self.counts(wanted)
        self.room.expect(what, ["explain", "--all", "s", "d", "w"], (2, said.encode(), b""))
        lines = written(values("w", wanted) + count_values(wanted))
        self.room.expect(f"{what} as JSON", ["explain", "--json", "--all", "s", "d", "w"], (2, lines, b""))


def censuses(room, sheet):
    """Sheets that break each phase at several places, several sheets, and streams and files that are bad."""
    census = Census(room)
    of_lines = "QQ\nRTYSA03:PNO\nBOMT 01:X\nBOMT 01:X\nRIDSA01:a\nXX\n"
    in_lines = ((1, 101), (2, 105), (4, 108), (6, 101), (7, 106))
    census.lists("rules of lines", of_lines, *in_lines)
    census.lists("two rules of one line", "RIDSA01:a\n" + END + BEGIN, (1, 105), (1, 109), (3, 107))
    census.lists("no lines", "", (1, 106))
    census.lists("a continuation of nothing, and a length", "NEXT 00:\n" + BEGIN + "RTYSA04:PNO\n" + END, (1, 104), (3, 102))
    of_records = (BEGIN + "RTYSA03:ABC\nATVSA01:x\n" + "RTYSA03:PNO\nRIDSA01:a\n" + SCHEMA.format("PGE;NOD_id")
                  + "RTYSA03:LNK\nRIDSA01:l\n" + SCHEMA.format("REL;INI_id") + "FTPCP19:EDAB01;SeT1;PNO;a_a\nSNSSA01:D\nSNSSA01:D\n"
                  + "RTYSA03:PAR\nRIDSA01:b\n" + SCHEMA.format("PGE;ARC_id") + "ATCSN01:1\nPTCSN01:3\nCORCC03:1;x\nXYZCP01:q\n"
                  + node("c", "1;2;") + END)
    census.lists("rules of records", of_records, (1, "ABC", 201), (1, "ABC", 202), (1, "ABC", 203), (1, "ABC", 204), (2, "PNO a", 206), (3, "LNK l", 207),
                 (4, "PAR b", 205), (4, "PAR b", 206), (4, "PAR b", 208))
    of_references = (BEGIN + node("1", "0;0;") + node("2", "1;0;") + arc("A", "0;0;", "1;0;") + arc("B", "1;0;", "0;0;") + FACE.format("F")
                     + node("1", "5;5;") + link("L0", "INI_id", "SeT1;PAR;A", "SeT1;PNO;1") + link("L1", "INI_id", "SeT1;PAR;A", "SeT1;PNO;9")
                     + link("L2", "FIN_id", "SeT1;PAR;A", "SeT1;PAR;B") + link("L3", "FIN_id", "SeT1;PNO;1", "SeT1;PAR;B")
                     + link("L4", "GCH_id", "SeT1;PAR;A", "SeT1;PAR;A") + link("L5", "GCH_id", "SeT1;PFE;F", "SeT1;PAR;A")
                     + link("L5", "CMP_id", "SeT1;PFE;F", "SeT2;PAR;A") + link("L6", "XXX_id", "SeT1;LNK;L5", "SeT1;PAR;A")
                     + OBJECT.format("O", "XXX_id", "1") + OBJECT.format("Q", "SUP_id", "1") + END)
    in_references = ((6, "PNO 1", 301), (8, "LNK L1", 305), (8, "LNK L1", 306), (8, "LNK L1", 307), (9, "LNK L2", 306), (10, "LNK L3", 307),
                     (11, "LNK L4", 306), (12, "LNK L5", 307), (13, "LNK L5", 301), (13, "LNK L5", 304), (14, "LNK L6", 302), (14, "LNK L6", 305),
                     (15, "FEA O", 303))
    census.lists("rules of references", of_references, *in_references)
    of_topology = (BEGIN + node("1", "0;0;") + node("2", "0;0;") + arc("A", "0;0;", "1;0;", "0;0;") + arc("B", "0;0;", "1;0;", "0;0;") + arc("C", "2;0;", "3;0;")
                   + FACE.format("F") + FACE.format("G") + link("L0", "INI_id", "SeT1;PAR;B", "SeT1;PNO;1") + link("L1", "INI_id", "SeT1;PAR;C", "SeT1;PNO;2")
                   + link("L2", "FIN_id", "SeT1;PAR;C", "SeT1;PNO;2") + link("L3", "GCH_id", "SeT1;PAR;C", "SeT1;PFE;G") + END)
    census.lists("rules of topology", of_topology, (2, "PNO 2", 403), (3, "PAR A", 404), (4, "PAR B", 404), (4, "PAR B", 405), (5, "PAR C", 401), (5, "PAR C", 402),
                 (6, "PFE F", 406))
    of_objects = BEGIN + OBJECT.format("O", "SUP_id", "1") + OBJECT.format("P", "SUP_id", "2") + OBJECT.format("Q", "SUP_id", "1") + OBJECT.format("R", "SUP_id", "1") + END
    in_objects = ((3, "FEA Q", 501), (4, "FEA R", 501))
    census.lists("equal objects", of_objects, *in_objects)
    of_several(room, census, sheet, (of_lines, in_lines), (of_references, in_references), (of_objects, in_objects))
    bad(room, census, of_objects, in_objects)


def of_several(room, census, sheet, lines, references, objects):
    """Several sheets, of which one is accepted; and one that can't be read."""
    room.write("v", sheet)
    for name, (text, _) in (("l", lines), ("r", references), ("o", objects)):
        room.write(name, text)
    said = census.lines("o", *objects) + "v: accepted\n" + census.lines("l", *lines) + census.lines("r", *references) + census.lines("o", *objects)
    counts = census.counts((*objects[1], *lines[1], *references[1], *objects[1]))
    room.expect("several sheets", ["explain", "s", "d", "o", "v", "l", "--all", "r", "o"], (2, (said + counts).encode(), b""))
    room.expect("an accepted sheet", ["explain", "--all", "s", "d", "v"], (0, b"v: accepted\n", b""))
    room.expect("an accepted sheet on standard input", ["explain", "--all", "s", "d", "-"], (0, b"standard input: accepted\n", b""), room.read("v"))
    accepted = [{"version": 1, "what": "accepted", "name": "v"}]
    lines = written(values("o", objects[1]) + accepted + values("l", lines[1]) + values("r", references[1]) + values("o", objects[1])
                    + count_values((*objects[1], *lines[1], *references[1], *objects[1])))
    room.expect("several sheets as JSON", ["explain", "s", "d", "o", "v", "l", "--all", "r", "o", "--json"], (2, lines, b""))
    missing = written(values("o", objects[1]) + accepted + count_values(objects[1]))
    room.expect("a sheet that is missing, as JSON", ["explain", "--json", "--all", "s", "d", "o", "x", "v"], (4, missing, b"x: cannot read\nedicad: x: no such file\n"))
    few = census.lines("o", *objects) + "v: accepted\n" + census.counts(objects[1])
    room.expect("a sheet that is missing", ["explain", "--all", "s", "d", "o", "x", "v"], (4, few.encode(), b"x: cannot read\nedicad: x: no such file\n"))


def bad(room, census, text, wanted):
    """Words, schemas and outputs that are bad."""
    room.write("w", text)
    several = b"explain takes one VEC, or several with --all\n"
    none = b"explain takes RULE, or SCD, DIC and VEC\n"
    for words, why in ((["s", "d", "w", "w"], several), (["--all"], none), (["--all", "301"], none), (["--all", "s", "d"], none),
                       (["--all", "-", "d", "-"], b"only one input can be -\n")):
        room.expect(f"explain {words}", ["explain", *words], (3, b"", why))
    room.expect("a missing schema", ["explain", "--all", "x", "d", "w"], (4, b"", b"x: cannot read\nedicad: x: no such file\n"))
    room.write("twice", room.read("s").replace(b"RIDSA06:FAC_id", b"RIDSA06:NOD_id"))
    room.expect("a refused schema", ["explain", "--all", "twice", "d", "w"], (2, b"", b"twice: refused scd 602 record 3\n"))
    status, out, err = room.run(["explain", "--all", "--kinds", "W,X,LPO,RPO", "s", "d", "w"])
    said = census.lines("w", text, wanted) + census.counts(wanted)
    room.report.check("a kind without a class", (status, out, err), (2, said.encode(), b"edicad: s: no class for initial node, final node: see --kinds\n"))
    with open("/dev/full", "wb") as full:
        for words in (["--all"], ["--all", "--json"]):
            room.expect(f"{words} to a full output", ["explain", *words, "s", "d", "w"], (4, None, b"cannot write standard output\n"), stdout=full)
