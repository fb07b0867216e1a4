"""What the program says as JSON: the values that the same says in words, by a reading of the words."""
import json
import os
import re

HERE = os.path.dirname(os.path.abspath(__file__))
PARCEL = os.path.join(HERE, "..", "examples", "parcel")
PAGE = os.path.join(HERE, "..", "docs", "JSON.md")
FILES = {"scd ": "scd", "dic ": "dic", "first ": "first", "second ": "second", "": "sheet"}


def value_of(words):
    """The value of an answer, by its words."""
    line, _, behind = words.decode("latin-1").partition("\n")
    told = {"version": 1, "what": "answer"}
    if line in ("accepted", "same", "pairs"):
        return {**told, "answer": line}
    if line == "does not pair":
        return {**told, "answer": "unpaired", "why": behind.rstrip("\n")}
    different = re.fullmatch(r"different at line (\d+)", line)
    if different:
        return {**told, "answer": "different", "line": int(different[1])}
    none = {"file": None, "rule": None, "line": None, "record": None, "why": None}
    if line == "refused kinds 604":
        return {**told, "answer": "refused", **none, "file": "kinds", "rule": 604}
    wrong = re.fullmatch(r"refused pairing line (\d+): (.*)", line)
    if wrong:
        return {**told, "answer": "refused", **none, "file": "pairing", "line": int(wrong[1]), "why": wrong[2]}
    which, rule, place, at = re.fullmatch(r"refused (scd |dic |first |second |)(\d+) (line|record) (\d+)", line).groups()
    return {**told, "answer": "refused", **none, "file": FILES[which], "rule": int(rule), place: int(at)}


def answers(room):
    """Each kind of answer, of each command."""
    for name, file in (("s", "schema.scd"), ("d", "dictionary.dic"), ("a", "sheet.vec"), ("same", "same_plan.vec")):
        with open(os.path.join(PARCEL, file), "rb") as source:
            room.write(name, source.read())
    room.write("b", room.read("a").replace(b"ATVSA04:A 12", b"ATVSA04:A 13"))
    room.write("set", room.read("a").replace(b"CSET 03:IRV\n", b""))
    room.write("cut", "BOMT 01:X\n")
    room.write("twice", room.read("a").replace(b"RIDSA07:Noeud_2", b"RIDSA07:Noeud_1"))
    room.write("names", room.read("s").replace(b"RIDSA06:FAC_id", b"RIDSA06:NOD_id"))
    room.write("none", "")
    room.run(["compare", "--pairing", "p", "s", "d", "a", "same"])
    room.write("turned", room.read("p").replace(b"edicad pairing 1", b"edicad pairing 2"))
    for words in (["check", "s", "d", "a"], ["check", "s", "d", "cut"], ["check", "s", "d", "twice"], ["check", "names", "d", "a"], ["check", "s", "none", "a"],
                  ["check", "--kinds", "XA,XB,XC,IND", "s", "d", "a"], ["compare", "s", "d", "a", "same"], ["compare", "s", "d", "a", "b"],
                  ["compare", "s", "d", "cut", "a"], ["compare", "s", "d", "a", "twice"], ["compare", "none", "d", "a", "b"],
                  ["compare", "--pairing", "q", "s", "d", "a", "same"], ["compare", "--pairing", "q", "s", "d", "a", "b"],
                  ["verify", "s", "d", "a", "same", "p"], ["verify", "s", "d", "a", "set", "p"], ["verify", "s", "d", "a", "b", "p"],
                  ["verify", "s", "d", "a", "same", "turned"], ["verify", "s", "d", "twice", "same", "p"]):
        as_json(room, words)
    for words in (["check", "s", "d", "x"], ["check", "--kinds", "A", "s", "d", "a"], ["compare", "s", "d", "a", "x"], ["verify", "s", "d", "a", "same", "x"]):
        room.expect(f"{words} as JSON, which has no answer", [words[0], "--json", *words[1:]], room.run(words))
    with open("/dev/full", "wb") as full:
        room.expect("an answer as JSON to a full output", ["check", "--json", "s", "d", "a"], (4, None, b"cannot write standard output\n"), stdout=full)


def as_json(room, words):
    """The answer to these words as JSON, and its status, are those of the words."""
    status, out, err = room.run(words)
    value = value_of(out)
    line = json.dumps(value, separators=(",", ":"), ensure_ascii=False).encode("utf-8") + b"\n"
    room.expect(f"{words} as JSON", [words[0], "--json", *words[1:]], (status, line, err))
    room.expect(f"{words} as JSON, asked for last", [*words, "--json"], (status, line, err))


def written(values):
    """Lines of JSON with these values."""
    return b"".join(json.dumps(it, separators=(",", ":"), ensure_ascii=False).encode("utf-8") + b"\n" for it in values)


def value_of_digest(room, name):
    """The values that `hash` gives of one sheet, by what it says of it in words."""
    status, out, err = room.run(["hash", "s", "d", name])
    called = {"name": name.encode().decode("latin-1")}
    if status == 0:
        return [{"version": 1, "what": "digest", "of": "sheet", **called, "digest": re.search(rb"[0-9a-f]{64}", out)[0].decode()}]
    refused = re.search(rb": refused (\d+) (line|record) (\d+)\n", err)
    if not refused:
        return []
    places = {"line": None, "record": None, refused[2].decode(): int(refused[3])}
    return [{"version": 1, "what": "refusal", **called, "rule": int(refused[1]), **places}]


def digests(room, sheet, canonical):
    """Digests and refusals of sheets, and the digest of the schema."""
    for name, text in (("v", sheet), ("w", canonical), ("bad", b""), ("cut", b"BOMT 01:X\nRTYSA03:PN"), ("a\"b\\c", sheet), ("\u00e9", sheet), ("\u00e8", b"")):
        room.write(name, text)
    room.write("twice", sheet.replace(b"EOMT", b"RTYSA03:PNO\nEOMT"))
    for sheets in (["v"], ["bad"], ["twice"], ["v", "bad", "w", "twice"], ["x"], ["x", "v", ".", "cut"], ["a\"b\\c"], ["\u00e9", "\u00e8"]):
        status, _, err = room.run(["hash", "s", "d", *sheets])
        lines = written(value for name in sheets for value in value_of_digest(room, name))
        room.expect(f"digests of {sheets} as JSON", ["hash", "--json", "s", "d", *sheets], (status, lines, err))
    first = [{"version": 1, "what": "digest", "of": "schema", "name": "s", "digest": room.run(["hash", "--schema", "s", "d"])[1][7:71].decode()}]
    room.expect("the digest of the schema as JSON", ["hash", "--schema", "--json", "s", "d"], (0, written(first), b""))
    below = written(first + value_of_digest(room, "v"))
    room.expect("a digest below that of the schema as JSON", ["hash", "s", "d", "v", "--json", "--schema"], (0, below, b""))
    room.expect("a refused schema beside JSON", ["hash", "--json", "bad", "d", "v"], room.run(["hash", "bad", "d", "v"]))
    room.write("list", room.run(["hash", "s", "d", "v"])[1])
    room.expect("a list that is held as JSON", ["hash", "--json", "--check", "list", "s", "d"], (3, b"", b"hash --check LIST takes SCD and DIC alone\n"))
    with open("/dev/full", "wb") as full:
        for name, said in (("v", b""), ("bad", b"")):
            room.expect(f"{name} as JSON to a full output", ["hash", "--json", "s", "d", name], (4, None, said + b"cannot write standard output\n"), stdout=full)


def explanations(room, sheet):
    """What is said of a sheet, of a rule and of all rules, line by line."""
    room.write("v", sheet)
    room.write("cut", "BOMT 01:X\nRTYSA03:PN")
    room.write("twice", sheet.replace(b"EOMT", b"RTYSA03:PNO\nEOMT"))
    room.write("names", room.read("s").replace(b"RIDSA06:FAC_id", b"RIDSA06:NOD_id"))
    room.write("none", "")
    for words in (["s", "d", "v"], ["s", "d", "cut"], ["s", "d", "twice"], ["names", "d", "v"], ["s", "none", "v"], ["--kinds", "XA,XB,XC,IND", "s", "d", "v"]):
        status, out, err = room.run(["explain", *words])
        first, _, more = out.partition(b"\n")
        lines = written([value_of(first), *words_of(more)])
        room.expect(f"explain {words} as JSON", ["explain", "--json", *words], (status, lines, err))
    for words in ([], ["101"], ["604"]):
        status, out, err = room.run(["explain", *words])
        room.expect(f"explain {words} as JSON", ["explain", *words, "--json"], (status, written(words_of(out)), err))
    for words in (["999"], ["s", "d", "x"], ["s", "d"], ["--kinds", "A", "s", "d", "v"]):
        room.expect(f"explain {words} as JSON, which says nothing", ["explain", "--json", *words], room.run(["explain", *words]))
    with open("/dev/full", "wb") as full:
        for words in (["s", "d", "v"], ["s", "d", "cut"], ["101"], []):
            room.expect(f"explain {words} as JSON to a full output", ["explain", "--json", *words], (4, None, b"cannot write standard output\n"), stdout=full)


def shape(line):
    """The names of the members of a line of JSON in their order, and of each what tells forms apart or the type of its value."""
    return tuple((name, value if name in ("version", "what", "answer", "of", "file") else type(value).__name__) for name, value in json.loads(line).items())


def shown():
    """The shapes of the lines that docs/JSON.md shows, but for those of what differs, and whether each line is written as the program writes lines."""
    with open(PAGE, encoding="utf-8") as file:
        lines = re.findall(r"^    (\{.*\})$", file.read().partition("\n## Answers\n")[2], re.M)
    return [shape(it) for it in lines], all(written([json.loads(it)]).decode() == it + "\n" for it in lines)


def page(room):
    """The lines that docs/JSON.md shows are such as the program writes, and it shows one for each that the program writes."""
    for name, file in (("s", "schema.scd"), ("d", "dictionary.dic"), ("a", "sheet.vec"), ("same", "same_plan.vec")):
        with open(os.path.join(PARCEL, file), "rb") as source:
            room.write(name, source.read())
    room.write("b", room.read("a").replace(b"ATVSA04:A 12", b"ATVSA04:A 13"))
    room.write("cut", "BOMT 01:X\n")
    room.write("twice", room.read("a").replace(b"RIDSA07:Noeud_2", b"RIDSA07:Noeud_1"))
    room.run(["compare", "--pairing", "p", "s", "d", "a", "same"])
    room.write("turned", room.read("p").replace(b"edicad pairing 1", b"edicad pairing 2"))
    made = set()
    for words in (["check", "s", "d", "a"], ["check", "s", "d", "cut"], ["check", "--kinds", "XA,XB,XC,IND", "s", "d", "a"], ["compare", "s", "d", "a", "same"],
                  ["compare", "s", "d", "a", "b"], ["compare", "s", "d", "twice", "a"], ["verify", "s", "d", "a", "same", "p"], ["verify", "s", "d", "b", "same", "p"],
                  ["verify", "s", "d", "a", "same", "turned"], ["hash", "--schema", "s", "d", "a", "cut", "twice"], ["explain", "s", "d", "twice"],
                  ["explain", "--all", "s", "d", "a", "cut", "twice"]):
        made.update(shape(it) for it in room.run([words[0], "--json", *words[1:]])[1].decode().splitlines())
    there, is_as_written = shown()
    room.report.check("lines of JSON.md that the program doesn't write", [it for it in there if it not in made], [])
    forms = {(dict(it)["what"], dict(it).get("answer"), dict(it).get("of")) for it in there}
    room.report.check("forms that JSON.md doesn't show", [it for it in made if (dict(it)["what"], dict(it).get("answer"), dict(it).get("of")) not in forms], [])
    room.report.holds("the lines of JSON.md are written as the program's", is_as_written)


def words_of(text):
    """The values of lines of words."""
    return [{"version": 1, "what": "words", "words": it.decode("latin-1")} for it in text.split(b"\n")[:-1]]


def names(room):
    """Objects called by the attributes that are given."""
    for name, file in (("s", "schema.scd"), ("d", "dictionary.dic"), ("a", "sheet.vec")):
        with open(os.path.join(PARCEL, file), "rb") as source:
            room.write(name, source.read())
    room.write("b", room.read("a").replace(b"ATVSA04:A 12", b"ATVSA04:A 13"))
    sheets = ["s", "d", "a", "b"]
    status, out, err = room.run(["diff", *sheets])
    first = out.split(b"\n")[0]
    room.report.check("an object by its usual attribute", (status, first, err), (1, b"~ PARCELLE_id NOM_id A 12 (lines 39 and 39):", b""))
    for given, called in (("NOM_id", b"PARCELLE_id NOM_id A 12"), ("XXX_id", b"PARCELLE_id"), ("", b"PARCELLE_id"), ("XXX_id,NOM_id", b"PARCELLE_id NOM_id A 12"),
                          ("NOM_i", b"PARCELLE_id"), ("NOM_id ,SUP_id", b"PARCELLE_id SUP_id 25")):
        said = out.replace(first, b"~ " + called + b" (lines 39 and 39):")
        room.expect(f"an object by {given!r}", ["diff", "--name-by", given, *sheets], (1, said, b""))
    for form in ("--records", "--json", "--brief"):
        room.expect(f"names of objects with {form}", ["diff", "--name-by", "XXX_id", form, *sheets], room.run(["diff", form, *sheets]))
    for bad in (["diff", "--name-by", *sheets], ["check", "--name-by", "NOM_id", "s", "d", "a"], ["diff", "--name-by", "A", "--name-by", "B", *sheets]):
        status, out, err = room.run(bad)
        room.report.check(f"{bad}", (status, out, err.startswith(b"error: ")), (3, b"", True))
