"""What `delivery --manifest` and `delivery --check` do: to whole deliveries, to parts that are missing or refused, and to FILE."""
import hashlib
import os
import shutil

from delivered import CADASTRE, DELIVERY, laid, missing

PARTS = (("EDAB01SE.GEO", "coordinates"), ("EDAB01SE.SCD", "schema"), ("EDAB01T1.VEC", "sheet"))
NONE = b": no manifest\n"
MISUSED = b"delivery takes one PATH with --manifest or --check, and not both\n"


def manifest(parts):
    """The manifest with these names, words and digests, in any order."""
    body = "edicad manifest 1\n" + "".join(sorted(f"{name} {word} {digest}\n" for name, word, digest in parts))
    return (body + f"digest {hashlib.sha256(body.encode()).hexdigest()}\n").encode()


def digests(room, folder, lots):
    """The parts of a delivery, by `hash --schema` and by the bytes of its GEO files."""
    found = []
    for schema, dictionary, sheet, geo in lots:
        status, out, _ = room.run(["hash", "--schema", f"{folder}/{schema}", f"{folder}/{dictionary}", f"{folder}/{sheet}"])
        assert status == 0, out
        first, second = out.decode().splitlines()
        found += [(schema, "schema", first.split()[1]), (sheet, "sheet", second.split()[0])]
        found.append((geo, "coordinates", hashlib.sha256(room.read(f"{folder}/{geo}")).hexdigest()))
    return found


def said(words):
    """What `--check` writes: a name and a word each."""
    return "".join(f"{name}: {word}\n" for name, word in words).encode()


def manifests(room):
    """Manifests that are made, kept back and checked."""
    laid(room, "D")
    parts = digests(room, "D", [("EDAB01SE.SCD", "EDAB01SE.DIC", "EDAB01T1.VEC", "EDAB01SE.GEO")])
    made(room, parts)
    presented(room, parts)
    several(room)
    kept_back(room)
    over_inputs(room)
    unwritable(room)
    from_strangers(room)
    many(room)
    checked(room, parts)
    against(room, parts)
    misused(room)


def made(room, parts):
    """To a file and to the output."""
    text = manifest(parts)
    room.expect("a manifest", ["delivery", "--manifest", "m", "D"], (0, b"", b""))
    room.report.check("its text", room.read("m"), text)
    room.expect("again, by the THF file", ["delivery", "D/EDAB01SE.THF", "--manifest=n"], (0, b"", b""))
    room.report.check("the same text", room.read("n"), text)
    room.expect("to the output", ["delivery", "--manifest", "-", "D"], (0, text, b""))
    room.expect("to a stream", ["delivery", "--manifest", "/dev/stderr", "D"], (0, b"", text))
    room.expect("changed takes it", ["changed", "m", "n"], (0, b"0 new, 0 gone, 0 changed, 3 the same\n", b""))
    shutil.copytree(CADASTRE, room.path("P"))
    room.expect("a delivery of the cadastral plan", ["delivery", "--manifest", "p", "P"], (0, b"", b""))
    room.report.holds("its lines", room.read("p").startswith(b"edicad manifest 1\nEDAB01SE.GEO coordinates "))
    shutil.rmtree(room.path("P"))


def presented(room, parts):
    """Other names of records, names of files in lower case and a file that no lot names change nothing."""
    at = laid(room, "D")
    for name in os.listdir(room.path("D")):
        os.rename(at(name), at(name.lower()))
    room.expect("names in lower case", ["delivery", "--manifest", "m2", "D"], (0, b"", b""))
    room.report.check("the names are those of the THF file", room.read("m2"), manifest(parts))
    at = laid(room, "D")
    status, out, _ = room.run(["canon", "D/EDAB01SE.SCD", "D/EDAB01SE.DIC", "D/EDAB01T1.VEC", "canonical"])
    assert status == 0, out
    shutil.move(room.path("canonical"), at("EDAB01T1.VEC"))
    shutil.copy(at("EDAB01T1.VEC"), at("OTHER.VEC"))
    room.expect("a sheet with other names, and one that no lot names", ["delivery", "--manifest", "m3", "D"],
                (0, b"", b"D/OTHER.VEC: not named in the THF file\n"))
    room.report.check("the manifest is the same", room.read("m3"), manifest(parts))


def two_lots(room, order):
    """A delivery of two lots, which the THF file states in this order."""
    at = laid(room, "T")
    thf = room.read("T/EDAB01SE.THF").decode("latin-1")
    lines = thf.splitlines(keepends=True)
    begins = [place for place, text in enumerate(lines) if text.startswith("RTYSA03:GTL")]
    ends = [place for place, text in enumerate(lines) if text.startswith("EOM")]
    lot = lines[begins[0]:ends[0]]
    other = [text.replace("EDAB01", "EDAB02") for text in lot]
    both = [lot, other] if order == "first" else [other, lot]
    room.write("T/EDAB01SE.THF", "".join(lines[:begins[0]] + both[0] + both[1] + lines[ends[0]:]))
    for name in list(os.listdir(room.path("T"))):
        if not name.endswith(".THF"):
            shutil.copy(at(name), at(name.replace("EDAB01", "EDAB02")))


def several(room):
    """Two lots, in either order."""
    two_lots(room, "first")
    room.expect("two lots", ["delivery", "--manifest", "t1", "T"], (0, b"", b""))
    both = digests(room, "T", [(f"EDAB0{n}SE.SCD", f"EDAB0{n}SE.DIC", f"EDAB0{n}T1.VEC", f"EDAB0{n}SE.GEO") for n in (1, 2)])
    room.report.check("their text", room.read("t1"), manifest(both))
    two_lots(room, "last")
    room.expect("two lots the other way round", ["delivery", "--manifest", "t2", "T"], (0, b"", b""))
    room.report.check("the text doesn't depend on the order", room.read("t2"), room.read("t1"))
    os.remove(room.path("T/EDAB01T1.VEC"))
    os.remove(room.path("T/EDAB02SE.GEO"))
    room.expect("what both lots lack is said", ["delivery", "--manifest", "t1", "T"],
                (4, b"", missing("T/EDAB02SE.GEO") + missing("T/EDAB01T1.VEC")))
    room.report.check("FILE stays", room.read("t1"), room.read("t2"))
    shutil.rmtree(room.path("T"))


def kept_back(room):
    """FILE stays as it was where a part is missing, refused or can't be read, and the errors say what `delivery` says."""
    room.write("kept", b"as it was")
    cases = [(f"{name} is missing", lambda at, name=name: os.remove(at(name)))
             for name in ("EDAB01SE.SCD", "EDAB01SE.DIC", "EDAB01T1.VEC", "EDAB01SE.GEO", "EDAB01SE.GEN", "EDAB01SE.QAL")]
    cases.append(("a refused schema", lambda at: room.write("D/EDAB01SE.SCD", b"")))
    cases.append(("a refused sheet", lambda at: room.write("D/EDAB01T1.VEC", b"")))
    cases.append(("a refused THF file", lambda at: room.write("D/EDAB01SE.THF", b"")))
    cases.append(("no THF file", lambda at: os.remove(at("EDAB01SE.THF"))))
    for name, change in cases:
        change(laid(room, "D"))
        status, _, err = room.run(["delivery", "D"])
        room.expect(f"{name}: as delivery", ["delivery", "--manifest", "kept", "D"], (status, b"", err))
        room.expect(f"{name}: to the output", ["delivery", "--manifest", "-", "D"], (status, b"", err))
        room.report.check(f"{name}: FILE stays", (status != 0, room.read("kept")), (True, b"as it was"))
    laid(room, "D")


def over_inputs(room):
    """FILE is one of the files of the delivery."""
    for name in ("EDAB01SE.THF", "EDAB01SE.SCD", "EDAB01SE.DIC", "EDAB01T1.VEC", "EDAB01SE.GEO", "EDAB01SE.GEN"):
        at = laid(room, "D")
        before = room.read(f"D/{name}")
        unsaid = lambda path: f"cannot write {path}\nedicad: {path}: is one of the inputs\n".encode()
        room.expect(f"over {name}", ["delivery", "--manifest", f"D/{name}", "D"], (4, b"", unsaid(f"D/{name}")))
        os.link(at(name), room.path("link"))
        room.expect(f"over a link to {name}", ["delivery", "--manifest", "link", "D"], (4, b"", unsaid("link")))
        room.report.check(f"{name} stays", room.read(f"D/{name}"), before)
        os.remove(room.path("link"))


def unwritable(room):
    """FILE can't be written."""
    laid(room, "D")
    room.expect("no such folder", ["delivery", "--manifest", "none/m", "D"],
                (4, b"", b"cannot write none/m\nedicad: none/m: no such folder\n"))
    with open("/dev/full", "wb") as full:
        room.expect("a full output", ["delivery", "--manifest", "-", "D"], (4, None, b"cannot write standard output\n"), stdout=full)
    room.report.check("nothing is left there", [name for name in os.listdir(room.folder) if name.startswith(".")], [])


def files_in(room):
    """What lies in the room: each file with its bytes."""
    found = {}
    for at, _, names in os.walk(room.folder):
        for name in names:
            with open(os.path.join(at, name), "rb") as file:
                found[os.path.join(at, name)] = file.read()
    return found


def from_strangers(room):
    """THF files with names that lead away or come twice, and links: each has its answer, and nothing is written."""
    laid(room, "D")
    thf = room.read("D/EDAB01SE.THF")
    room.write("E", b"a file outside")
    twice = thf.replace(b"GDCSN01:1", b"GDCSN01:2").replace(b"GDNSA02:T1", b"GDNSA02:T1\nGDNSA02:t1")
    for name, text, rule in (("a lot's name that leads away", thf.replace(b"LONSA06:EDAB01", b"LONSA06:../../"), "703 record 2"),
                             ("a lot's name with a NUL", thf.replace(b"LONSA06:EDAB01", b"LONSA06:EDA\x0001"), "703 record 2"),
                             ("a file's name that leads away", thf.replace(b"GDNSA02:T1", b"GDNSA02:/T"), "708 record 2"),
                             ("a file twice", twice, "710 record 2")):
        room.write("D/EDAB01SE.THF", text)
        before = files_in(room)
        said = (2, b"", f"D/EDAB01SE.THF: refused thf {rule}\n".encode())
        room.expect(name, ["delivery", "--manifest", "new", "D"], said)
        room.expect(f"{name}, by the file", ["delivery", "--manifest", "new", "D/EDAB01SE.THF"], said)
        room.report.check(f"{name}: nothing is written", files_in(room), before)
    at = laid(room, "D")
    os.remove(at("EDAB01T1.VEC"))
    os.symlink("../E", at("EDAB01T1.VEC"))
    before = files_in(room)
    room.expect("a link out of the folder", ["delivery", "--manifest", "new", "D"], (4, b"", missing("D/EDAB01T1.VEC")))
    room.report.check("a link out of the folder: nothing is written", files_in(room), before)
    os.remove(room.path("E"))
    laid(room, "D")


def many(room):
    """10,000 lots whose files are all missing, and a hundred whose files are there."""
    at = laid(room, "T")
    lines = room.read("T/EDAB01SE.THF").decode("latin-1").splitlines(keepends=True)
    begins = [place for place, text in enumerate(lines) if text.startswith("RTYSA03:GTL")][0]
    ends = [place for place, text in enumerate(lines) if text.startswith("EOM")][0]
    lots = [f"ED{number:04d}" for number in range(10_000)]
    lot = "".join(lines[begins:ends])
    room.write("T/EDAB01SE.THF", "".join(lines[:begins]) + "".join(lot.replace("EDAB01", name) for name in lots) + "".join(lines[ends:]))
    names = [name for name in os.listdir(room.path("T")) if not name.endswith(".THF")]
    status, out, err = room.run(["delivery", "--manifest", "new", "T"])
    room.report.check("10,000 lots without files", (status, out, err.count(b": cannot read\n")), (4, b"", 10_000 * len(names)))
    room.report.check("no manifest", os.path.exists(room.path("new")), False)
    room.write("T/EDAB01SE.THF", "".join(lines[:begins]) + "".join(lot.replace("EDAB01", name) for name in lots[:100]) + "".join(lines[ends:]))
    for name in names:
        for other in lots[:100]:
            os.link(at(name), at(name.replace("EDAB01", other)))
        os.remove(at(name))
    room.expect("a hundred lots", ["delivery", "--manifest", "new", "T"], (0, b"", b""))
    room.report.check("their manifest", room.read("new").count(b"\n"), 302)
    os.remove(room.path("new"))
    shutil.rmtree(room.path("T"))


def checked(room, parts):
    """A delivery against its own manifest, and what has become of each part."""
    names = [name for name, _ in PARTS]
    laid(room, "D")
    room.write("m", manifest(parts))
    fine = said((name, "OK") for name in names)
    room.expect("as it was", ["delivery", "--check", "m", "D"], (0, fine, b""))
    room.expect("a manifest on standard input", ["delivery", "--check", "-", "D"], (0, fine, b""), manifest(parts))
    at = laid(room, "D")
    with open(at("EDAB01SE.GEO"), "ab") as file:
        file.write(b"\r\n")
    room.expect("another coordinate system", ["delivery", "--check", "m", "D"], (1, fine.replace(b"GEO: OK", b"GEO: FAILED"), b""))
    at = laid(room, "D")
    os.remove(at("EDAB01SE.GEO"))
    room.expect("a file that is missing", ["delivery", "--check", "m", "D"],
                (4, fine.replace(b"GEO: OK", b"GEO: FAILED"), missing("D/EDAB01SE.GEO")))
    laid(room, "D")
    room.write("D/EDAB01T1.VEC", b"")
    room.expect("a refused sheet", ["delivery", "--check", "m", "D"],
                (2, fine.replace(b"VEC: OK", b"VEC: FAILED"), b"D/EDAB01T1.VEC: refused 106 line 1\n"))
    laid(room, "D")
    room.write("D/EDAB01SE.SCD", b"")
    room.expect("a refused schema", ["delivery", "--check", "m", "D"],
                (2, fine.replace(b"SCD: OK", b"SCD: FAILED").replace(b"VEC: OK", b"VEC: FAILED"), b"D/EDAB01SE.SCD: refused scd 106 line 1\n"))
    laid(room, "D")
    os.remove(room.path("D/EDAB01SE.QAL"))
    room.expect("all are well but one that has no digest", ["delivery", "--check", "m", "D"], (4, fine, missing("D/EDAB01SE.QAL")))
    laid(room, "D")


def against(room, parts):
    """Other manifests, and what is none."""
    fine = said((name, "OK") for name, _ in PARTS)
    room.write("less", manifest(parts[:1] + parts[2:]))
    room.expect("a part that is new", ["delivery", "--check", "less", "D"], (1, fine.replace(b"VEC: OK", b"VEC: NEW"), b""))
    room.write("more", manifest(parts + [("EDAB09T1.VEC", "sheet", "00" * 32)]))
    room.expect("a part that is gone", ["delivery", "--check", "more", "D"], (1, fine + b"EDAB09T1.VEC: FAILED\n", b""))
    other = [(name, word, "11" * 32 if word == "sheet" else digest) for name, word, digest in parts]
    room.write("other", manifest(other))
    room.expect("another digest", ["delivery", "--check", "other", "D"], (1, fine.replace(b"VEC: OK", b"VEC: FAILED"), b""))
    room.write("empty", manifest([]))
    room.expect("a manifest of nothing", ["delivery", "--check", "empty", "D"], (1, fine.replace(b"OK", b"NEW"), b""))
    for name, text in (("a list", b"00" * 32 + b"  EDAB01T1.VEC\n"), ("nothing", b""), ("another last line", manifest(parts)[:-2] + b"x\n"),
                       ("lines in another order", b"\n".join(reversed(manifest(parts).split(b"\n"))))):
        room.write("bad", text)
        room.expect(f"no manifest: {name}", ["delivery", "--check", "bad", "D"], (2, b"", b"bad" + NONE))
    room.expect("a manifest that isn't there", ["delivery", "--check", "none", "D"], (4, b"", missing("none")))
    room.write("m", manifest(parts))
    room.expect("a delivery that isn't there", ["delivery", "--check", "m", "none"], (4, b"", missing("none")))
    with open("/dev/full", "wb") as full:
        room.expect("a full output", ["delivery", "--check", "m", "D"], (4, None, b"cannot write standard output\n"), stdout=full)


def misused(room):
    """Arguments that make no sense."""
    room.expect("both", ["delivery", "--manifest", "m", "--check", "m", "D"], (3, b"", MISUSED))
    room.expect("a manifest of two", ["delivery", "--manifest", "m", "D", "D"], (3, b"", MISUSED))
    room.expect("two against a manifest", ["delivery", "--check", "m", "D", "D"], (3, b"", MISUSED))
    room.expect("standard input twice", ["delivery", "--check", "-", "-"], (3, b"", b"only one input can be -\n"))
