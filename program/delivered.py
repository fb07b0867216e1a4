"""What `delivery` replies: to folders and THF files, to names in upper and lower case, to files that are missing and files that lie there unnamed."""
import bz2
import os
import shutil

EXAMPLES = os.path.join(os.path.dirname(os.path.abspath(__file__)), "..", "examples")
DELIVERY = os.path.join(EXAMPLES, "delivery")
# a delivery in the manner of the cadastral plan, with labels and dates, and its digest by a program that shares no code with this one
CADASTRE = os.path.join(EXAMPLES, "pci")
CADASTRE_DIGEST = b"271bb143a2fcfbe1776863d18c48af3c12e03678ab6e89e08424806e94f74fb2"
NAMES = ("EDAB01SE.THF", "EDAB01SE.SCD", "EDAB01SE.DIC", "EDAB01SE.GEN", "EDAB01SE.GEO", "EDAB01SE.QAL", "EDAB01T1.VEC")


def laid(room, folder):
    """The example's files in a folder of the room, which is made anew."""
    path = room.path(folder)
    shutil.rmtree(path, ignore_errors=True)
    shutil.copytree(DELIVERY, path)
    return lambda name: os.path.join(path, name)


def missing(path):
    return f"{path}: cannot read\nedicad: {path}: no such file\n".encode()


def deliveries(room):
    """Each reply, with its status, and the lines on both streams."""
    at = laid(room, "D")
    status, line, err = room.run(["hash", "D/EDAB01SE.SCD", "D/EDAB01SE.DIC", "D/EDAB01T1.VEC"])
    room.report.check("the digest by `hash`", (status, err), (0, b""))
    whole(room, line)
    cases_of_names(room, line)
    lost(room, line)
    left_over(room, line)
    refused(room, line)
    elsewhere(room)
    chosen(room, line)
    at = laid(room, "D")
    with open("/dev/full", "wb") as full:
        room.expect("a full output", ["delivery", "D"], (4, None, b"cannot write standard output\n"), stdout=full)
    other = ["--kinds", "W,X,Y,Z"]
    refused_too = (2, b"", b"edicad: D/EDAB01SE.SCD: no class for initial node, final node, left face, right face: see --kinds\n"
                   b"D/EDAB01T1.VEC: refused 406 record 5\n")
    room.expect("kinds that no class has, by `hash`", ["hash", *other, "D/EDAB01SE.SCD", "D/EDAB01SE.DIC", "D/EDAB01T1.VEC"], refused_too)
    room.expect("kinds that no class has", ["delivery", *other, "D"], refused_too)
    shutil.rmtree(room.path("D"))
    shutil.copytree(CADASTRE, room.path("P"))
    room.expect("a delivery of the cadastral plan", ["delivery", "P"], (0, CADASTRE_DIGEST + b"  P/EDAB01T3.VEC\n", b""))
    shutil.rmtree(room.path("P"))


def whole(room, line):
    """A delivery in a folder, by its folder and by its THF file."""
    room.expect("a folder", ["delivery", "D"], (0, line, b""))
    room.expect("a folder with a slash", ["delivery", "D/"], (0, line, b""))
    room.expect("a THF file", ["delivery", "D/EDAB01SE.THF"], (0, line, b""))
    room.expect("a folder by another path", ["delivery", "./D"], (0, line.replace(b"D/EDAB01T1", b"./D/EDAB01T1"), b""))
    for name in NAMES:
        shutil.copy(os.path.join(DELIVERY, name), room.path(name))
    own = line.replace(b"D/EDAB01T1", b"EDAB01T1")
    room.expect("a THF file in the current folder", ["delivery", "EDAB01SE.THF"], (0, own, b""))
    room.expect("the current folder", ["delivery", "."], (0, line.replace(b"D/EDAB01T1", b"./EDAB01T1"), b""))
    room.expect("a THF file on standard input", ["delivery", "-"], (0, own, b""), room.read("EDAB01SE.THF"))
    room.expect("standard input twice", ["delivery", "-", "-"], (3, b"", b"only one input can be -\n"))
    for name in NAMES:
        os.remove(room.path(name))
    room.expect("several paths", ["delivery", "D", "none", "D/EDAB01SE.THF"], (4, line + line, missing("none")))


def cases_of_names(room, line):
    """Names on the disk in upper and lower case."""
    at = laid(room, "D")
    for name in NAMES:
        os.rename(at(name), at(name.lower()))
    lower = line.replace(b"EDAB01T1.VEC", b"edab01t1.vec")
    room.expect("names in lower case", ["delivery", "D"], (0, lower, b""))
    shutil.copy(at("edab01t1.vec"), at("EDAB01T1.vec"))
    room.expect("the first of two names", ["delivery", "D"], (0, line.replace(b"T1.VEC", b"T1.vec"), b"D/edab01t1.vec: not named in the THF file\n"))


def lost(room, line):
    """Files that are named and missing."""
    for name in ("EDAB01SE.GEN", "EDAB01SE.GEO", "EDAB01SE.QAL"):
        at = laid(room, "D")
        os.remove(at(name))
        room.expect(f"{name} is missing", ["delivery", "D"], (4, line, missing("D/" + name)))
    for name in ("EDAB01SE.SCD", "EDAB01SE.DIC", "EDAB01T1.VEC"):
        at = laid(room, "D")
        os.remove(at(name))
        room.expect(f"{name} is missing", ["delivery", "D"], (4, b"", missing("D/" + name)))
    at = laid(room, "D")
    os.remove(at("EDAB01T1.VEC"))
    os.symlink(os.path.join(DELIVERY, "EDAB01T1.VEC"), at("EDAB01T1.VEC"))
    room.expect("a link out of the folder", ["delivery", "D"], (4, b"", missing("D/EDAB01T1.VEC")))


def left_over(room, line):
    """VEC files that no lot names, and other files."""
    at = laid(room, "D")
    for name in ("EDAB01T9.VEC", "other.Vec", "notes.txt", "VEC", ".VEC"):
        shutil.copy(at("EDAB01T1.VEC"), at(name))
    said = b"D/EDAB01T9.VEC: not named in the THF file\nD/other.Vec: not named in the THF file\n"
    room.expect("VEC files that no lot names", ["delivery", "D"], (0, line, said))
    os.rename(at("other.Vec"), at("a\nb.VEC"))
    said = b"D/EDAB01T9.VEC: not named in the THF file\n\\D/a\\nb.VEC: not named in the THF file\n"
    room.expect("a name with escapes", ["delivery", "D"], (0, line, said))


def refused(room, line):
    """Refused THF files, schemas and sheets."""
    at = laid(room, "D")
    with open(at("EDAB01SE.THF"), "rb") as file:
        thf = file.read()
    for name, text, words in (("no lines", b"", "106 line 1"), ("a lot's name that leads away", thf.replace(b"LONSA06:EDAB01", b"LONSA06:../../"), "703 record 2"),
                              ("a file's name that leads away", thf.replace(b"GDNSA02:T1", b"GDNSA02:/T"), "708 record 2"), ("a file twice", thf.replace(b"GDCSN01:1", b"GDCSN01:2").replace(b"GDNSA02:T1", b"GDNSA02:T1\nGDNSA02:t1"), "710 record 2"),
                              ("no lot", thf.replace(b":GTL\n", b":GTS\n").replace(b":GTL\r", b":GTS\r"), "711 record 3")):
        room.write("D/EDAB01SE.THF", text)
        room.expect(f"a refused THF file: {name}", ["delivery", "D"], (2, b"", f"D/EDAB01SE.THF: refused thf {words}\n".encode()))
    at = laid(room, "D")
    room.write("D/EDAB01SE.SCD", b"")
    room.expect("a refused schema", ["delivery", "D"], (2, b"", b"D/EDAB01SE.SCD: refused scd 106 line 1\n"))
    at = laid(room, "D")
    room.write("D/EDAB01T1.VEC", b"")
    room.expect("a refused sheet", ["delivery", "D"], (2, b"", b"D/EDAB01T1.VEC: refused 106 line 1\n"))
    with open(os.path.join(DELIVERY, "EDAB01T1.VEC"), "rb") as file:
        room.write("D/EDAB01T1.VEC", bz2.compress(file.read()) + b"\n")
    packed = b"D/EDAB01T1.VEC: refused 101 line 1\nhint: D/EDAB01T1.VEC is packed with bzip2: unpack it first\n"
    room.expect("a sheet that is still packed", ["delivery", "D"], (2, b"", packed))


def elsewhere(room):
    """VEC files of a lot that point into each other, which are refused: where the records are at which their links point."""
    at = laid(room, "D")
    with open(at("EDAB01SE.THF"), "rb") as file:
        room.write("D/EDAB01SE.THF", file.read().replace(b"GDCSN01:1", b"GDCSN01:2").replace(b"GDNSA02:T1", b"GDNSA02:T1\nGDNSA02:T2"))
    with open(at("EDAB01T1.VEC"), "rb") as file:
        first = file.read()
    second = first.replace(b"SeT1", b"SeT2")
    out, inner = b"FTPCP22:EDAB01;SeT1;PFE;Face_1", b"FTPCP21:EDAB01;SeT1;PAR;Arc_1"

    def points(name, sheet, other, wanted):
        room.write("D/EDAB01T1.VEC", sheet)
        room.write("D/EDAB01T2.VEC", other)
        digests = room.run(["hash", "D/EDAB01SE.SCD", "D/EDAB01SE.DIC", "D/EDAB01T2.VEC"])[1]
        room.expect(f"records of another VEC file: {name}", ["delivery", "D"], (2, digests, wanted))

    said = b"D/EDAB01T1.VEC: refused 304 record %d\n"
    hint = b"hint: D/EDAB01T1.VEC points at %s, which is in D/EDAB01T2.VEC\n"
    crossed = first.replace(out, out.replace(b"T1", b"T2"), 1)
    points("an end of the fifth link", crossed, second, said % 11 + hint % b"PFE Face_1")
    foreign = first.replace(inner, inner.replace(b"T1", b"T2"), 1)
    points("the first end of all", foreign, second, said % 7 + hint % b"PAR Arc_1")
    points("a record that the other doesn't have", crossed, second.replace(b"Face_1", b"Face_2"), said % 11)
    to_node = first.replace(b"SeT1;PNO;Noeud_1", b"SeT2;PNO;Noeud_1", 1)
    points("an end of the first link", to_node, second, said % 7 + hint % b"PNO Noeud_1")
    points("another that has no links", to_node, second[: second.index(b"RTYSA03:PAR")] + b"EOMT 00:\n", said % 7)
    points("another of a third subset", crossed, second.replace(b"SeT2", b"SeT3"), said % 11)
    points("another that breaks a rule of lines", crossed, b"", said % 11 + b"D/EDAB01T2.VEC: refused 106 line 1\n")
    points("another lot", crossed.replace(b"EDAB01;SeT2", b"EDAB02;SeT2"), second, said % 11)
    both = second.replace(out.replace(b"T1", b"T2"), out, 1)
    back = b"D/EDAB01T2.VEC: refused 304 record 11\nhint: D/EDAB01T2.VEC points at PFE Face_1, which is in D/EDAB01T1.VEC\n"
    points("each points into the other", crossed, both, said % 11 + hint % b"PFE Face_1" + back)
    room.expect("a list says nothing of other sheets", ["hash", "D/EDAB01SE.SCD", "D/EDAB01SE.DIC", "D/EDAB01T1.VEC", "D/EDAB01T2.VEC"],
                (2, b"", said % 11 + b"D/EDAB01T2.VEC: refused 304 record 11\n"))


def chosen(room, line):
    """Folders with no THF file, and with several."""
    at = laid(room, "D")
    shutil.copy(at("EDAB01SE.THF"), at("second.thf"))
    room.expect("two THF files", ["delivery", "D"], (4, b"", b"D: more than one THF file\n"))
    room.expect("one of two", ["delivery", "D/second.thf"], (0, line, b""))
    os.remove(at("second.thf"))
    os.remove(at("EDAB01SE.THF"))
    room.expect("no THF file", ["delivery", "D"], (4, b"", b"D: no THF file\n"))
    room.expect("a THF file that is missing", ["delivery", "D/EDAB01SE.THF"], (4, b"", missing("D/EDAB01SE.THF")))
