"""Files of cases, and what the program has to answer to each case that it can be asked.

The files lie in cases/, and in crates/conform/data, whose other cases the program can't show. crates/conform/src/case.rt says
how they are written: a line `--` between two blocks, `==` between two inputs of a block, `->` before what is wanted; a backslash
at the end of a line joins the next line to it. The first block of a file names a call; its inputs are an explanation, and the
schema file and the dictionary of all cases of the file; its answer is the codes of the four kinds.
"""
import collections
import glob
import hashlib
import json
import os
import re

from classes import described, note, refused
from pictured import draw_case, picture_case
from room import line, status_of

HERE = os.path.dirname(os.path.abspath(__file__))
OWN = os.path.join(HERE, "cases")
SHARED = os.path.join(HERE, "..", "crates", "conform", "data")
USUAL = "IND,FND,LPO,RPO"

# a case: the name of its file and its own, the call, the files and codes that all cases of the file share, its inputs and its answer
Case = collections.namedtuple("Case", "name call scd dic kinds inputs wanted")


def blocks_of(path):
    """The blocks of a file of cases: of each its title, its inputs and what is wanted."""
    with open(path, encoding="latin-1", newline="") as file:
        for block in file.read().split("--\n"):
            title, rest = block.split("\n", 1)
            inputs, wanted = rest.split("->\n", 1)
            yield title, [it.replace("\\\n", "") for it in inputs.split("==\n")], wanted


def cases_of(path):
    (call, shared, codes), *blocks = blocks_of(path)
    scd, dic = (shared + ["", ""])[1:3]
    name = os.path.splitext(os.path.basename(path))[0]
    return [Case(f"{name}: {title}", call, scd, dic, codes.strip() or USUAL, inputs, wanted) for title, inputs, wanted in blocks]


def read_cases():
    """The cases that the program can be asked: all of the own folder, and those of the shared one whose call is a command's."""
    own = [case for path in sorted(glob.glob(os.path.join(OWN, "*.cases"))) for case in cases_of(path)]
    shared = [case for path in sorted(glob.glob(os.path.join(SHARED, "*.cases"))) for case in cases_of(path)]
    return own + [case for case in shared if case.call in ("canon", "compare") or case.call in FILES and is_refused(case)]


def is_refused(case):
    return case.wanted.startswith("refused")


def named(cases, name):
    """The only case of this name."""
    (found,) = (case for case in cases if case.name == name)
    return found


def digest_of(text):
    return hashlib.sha256(text.encode("latin-1") if isinstance(text, str) else text).hexdigest().encode()


def place_of(room, name, number):
    """Where the record of this number stands in a file, by its lines alone: the number of its line, type and identifier."""
    rows = room.read(name).replace(b"\r", b"").split(b"\n")
    heads = [at for at, it in enumerate(rows) if it.startswith(b"RTY")]
    own = rows[heads[number - 1] : heads[number] if number < len(heads) else None]
    rid = next((it[8:] for it in own if it.startswith(b"RID")), None)
    return f"{heads[number - 1] + 1}: ".encode() + own[0][8:] + (b" " + rid if rid is not None else b"") + b": "


def codes_in(words):
    """The codes of the kinds that are given by words."""
    return (words[1] if words[:1] == ["--kinds"] else USUAL).encode().split(b",")


def noted(room, words, answer):
    """The note on the kinds of links that no class has, behind the answer of a command with these words. A file of classes that breaks a
    rule of lines has none."""
    return b"" if re.match(rb"refused scd 1\d\d ", answer) else note(b"s", room.read("s"), codes_in(words))


def explain_case(room, name, words, wanted):
    """What explain says of a sheet that is checked: the line and the status of the check, and where it is refused."""
    status, out, err = room.run(["explain", *words])
    room.report.check(name + ": explained, status", (status, err), (wanted[0], b""))
    room.report.holds(name + ": explained, first line", out.startswith(wanted[1]))
    said = out[len(wanted[1]) :]
    found = re.fullmatch(rb"refused (scd |dic |)(\d+) (line|record) (\d+)\n", wanted[1])
    if found:
        file = {b"scd ": "s", b"dic ": "d", b"": "v"}[found[1]]
        number = int(found[4])
        simple = b"NEX" not in room.read(file)
        if found[3] == b"line" or simple:
            where = b"%d: " % number if found[3] == b"line" else place_of(room, file, number)
            room.report.holds(name + ": explained, place", said.startswith(file.encode() + b":" + where))
        room.report.holds(name + ": explained, rule", said.split(b"\n")[0].endswith(b" [" + found[2] + b"]"))
    elif b"NEX" not in room.read("s"):
        codes = codes_in(words)
        told = described if wanted[0] == 0 else refused
        room.report.holds(name + ": explained, classes", told(b"s", room.read("s"), codes) in said)


def pair_case(room, name, kinds, wanted):
    """What compare says of a pair with a file for its pairing, which it writes or leaves, and what verify says of that file."""
    check = room.report.check
    room.write("p", "kept")
    room.expect(name + ": with a pairing", ["compare", *kinds, "--pairing", "p", "s", "d", "a", "b"], wanted)
    if wanted[:2] == (0, b"same\n"):
        room.report.holds(name + ": the pairing's first line", room.read("p").startswith(b"edicad pairing 1\n"))
        room.expect(name + ": the pairing verified", ["verify", *kinds, "s", "d", "a", "b", "p"], (0, b"pairs\n", wanted[2]))
        rows = room.read("p").splitlines(keepends=True)
        room.write("p", b"".join(rows[:-1]))
        late = line(f"refused pairing line {len(rows)}: the file ends before this line")
        room.expect(name + ": the pairing without its last line", ["verify", *kinds, "s", "d", "a", "b", "p"], (2, late, wanted[2]))
    else:
        check(name + ": FILE", room.read("p"), b"kept")
        bad = (2, line("refused pairing line 1: the file ends within this line"), wanted[2]) if wanted[0] == 1 else wanted
        room.expect(name + ": a file without a pairing", ["verify", *kinds, "s", "d", "a", "b", "p"], bad)
    os.remove(room.path("p"))


def diff_case(room, name, kinds, wanted):
    """What diff says of a pair: nothing exactly if compare says that both are the same, else lines and how many; or compare's fault."""
    check = room.report.check
    status, out, err = whole = room.run(["diff", "--records", *kinds, "s", "d", "a", "b"])
    brief = room.run(["diff", "--brief", *kinds, "s", "d", "a", "b"])
    if wanted[0] > 1:
        check(name + ": diff", (whole, brief), (wanted, wanted))
        return
    rows = out.splitlines(keepends=True)
    count = lambda mark: sum(it.startswith(mark) for it in rows)
    last = f"{count(b'- ')} only in A, {count(b'+ ')} only in B, {count(b'~ ') - count(b'~ CSE ')} changed"
    check(name + ": diff, status and errors", (status, err), (wanted[0], wanted[2]))
    check(name + ": diff, last line", rows[-1:], [line(last)])
    check(name + ": diff, more than a line", len(rows) > 1, wanted[0] == 1)
    charsets = b"".join(it for it in rows if it.startswith(b"~ CSE "))
    check(name + ": diff, brief", brief, (status, charsets + line(last), wanted[2]))


def sheet_case(room, case, sheet):
    """A sheet that is refused, or its canonical file: by each command that takes one sheet, and as the end of a bundle."""
    name, kinds = case.name, kinds_of(case)
    canonical = None if is_refused(case) else case.wanted.replace("\n", "\r\n").encode("latin-1")
    answer = case.wanted.encode("latin-1") if canonical is None else b"accepted\n"
    wanted = (2 if canonical is None else 0, answer, noted(room, kinds, answer))
    room.write("v", sheet)
    room.expect(name, ["check", *kinds, "s", "d", "v"], wanted)
    explain_case(room, name, [*kinds, "s", "d", "v"], wanted)
    draw_case(room, name, [*kinds, "s", "d", "v"], wanted)
    canon_case(room, name, kinds, wanted, canonical)
    if "\r" not in sheet:
        room.write("v", sheet.replace("\n", "\r\n"))
        canon_case(room, name + ", its lines ended by CR LF", kinds, wanted, canonical)
        room.write("v", sheet)
    loaded = not answer.startswith((b"refused dic", b"refused scd", b"refused kinds"))
    if canonical is not None:
        hashed = (0, digest_of(canonical) + b"  v\n", wanted[2])
        room.write("w", canonical)
        room.expect(name + ": the canonical file again", ["canon", *kinds, "s", "d", "w", "-"], (0, canonical, wanted[2]))
    else:
        file = b"d" if answer.startswith(b"refused dic") else b"s" if answer.startswith((b"refused scd", b"refused kinds")) else b"v"
        hashed = (2, b"", (wanted[2] if loaded else b"") + file + b": " + answer + (hints_of_v(room, kinds) if loaded else b""))
    room.expect(name + ": hash", ["hash", *kinds, "s", "d", "v"], hashed)
    if not kinds and b"EOM" in room.read("s") and b"EOM" in room.read("d"):
        bundle = room.read("s") + room.read("d") + room.read("v")
        room.expect(name + ": in a bundle", [], (wanted[0], answer if canonical is None else canonical, b""), bundle)


def hints_of_v(room, kinds):
    """The hints that explain gives of the sheet."""
    said = room.run(["explain", *kinds, "s", "d", "v"])[1]
    return b"".join(it for it in said.splitlines(keepends=True) if it.startswith(b"hint: v "))


def canon_case(room, name, kinds, wanted, canonical):
    """The answer of canon, and OUT, which stays as it was where the sheet is refused."""
    room.write("o", "kept")
    room.expect(name + ": canon", ["canon", *kinds, "s", "d", "v", "o"], wanted)
    room.report.check(name + ": OUT", room.read("o"), b"kept" if canonical is None else canonical)
    os.remove(room.path("o"))


def kinds_of(case):
    """The words that name the codes of a case, where they aren't the usual ones."""
    return [] if case.kinds == USUAL else ["--kinds", case.kinds]


def compare_case(room, case):
    """Two sheets: whether they are the same, a pairing of them, what differs, and a picture of that."""
    kinds = kinds_of(case)
    answer = case.wanted.encode("latin-1")
    wanted = (status_of(case.wanted), answer, noted(room, kinds, answer))
    room.expect(case.name, ["compare", *kinds, "s", "d", "a", "b"], wanted)
    pair_case(room, case.name, kinds, wanted)
    diff_case(room, case.name, kinds, wanted)
    picture_case(room, case.name, kinds, wanted)


def text_case(room, case):
    """Two sheets and the text of what differs between them, or the refusal."""
    kinds = kinds_of(case)
    word, text = ("", case.wanted) if is_refused(case) else case.wanted.split("\n", 1)
    answer = text.encode("latin-1")
    wanted = ({"same": 0, "different": 1, "": 2}[word], answer, noted(room, kinds, answer))
    room.report.check(case.name + ": compare, status", room.run(["compare", *kinds, "s", "d", "a", "b"])[0], wanted[0])
    room.expect(case.name, ["diff", "--records", *kinds, "s", "d", "a", "b"], wanted)
    diff_case(room, case.name, kinds, wanted)
    picture_case(room, case.name, kinds, wanted)


def verify_case(room, case):
    """Two sheets and a file: that it pairs them, why it doesn't, or which of the three is refused."""
    carries, fails = case.wanted == "true\n", case.wanted.startswith("does not pair\n")
    kinds, answer = kinds_of(case), b"pairs\n" if carries else case.wanted.encode("latin-1")
    room.write("p", case.inputs[2])
    room.expect(case.name, ["verify", *kinds, "s", "d", "a", "b", "p"], (0 if carries else 1 if fails else 2, answer, noted(room, kinds, answer)))
    room.report.holds(case.name + ": an answer that is known", carries or fails or is_refused(case))


def bundle_case(room, case):
    """A bundle on standard input."""
    wanted = (2, case.wanted, b"") if is_refused(case) else (0, case.wanted.replace("\n", "\r\n"), b"")
    room.expect(case.name, [], (wanted[0], wanted[1].encode("latin-1"), b""), case.inputs[0].encode("latin-1"))


def cuts_case(room, case):
    """Each cut of a sheet is refused where it lies: inside a line by 101 or 102 at that line, between two lines by 106, one
    line past the last. Only the last line feed may be missing."""
    sheet, wrong, said = case.inputs[0].encode("latin-1"), [], noted(room, [], b"")
    for length in range(len(sheet) - 1):
        ends = sheet[length : length + 1] == b"\n"
        number = sheet.count(b"\n", 0, length) + 1 + ends
        between = ends or length == 0 or sheet[length - 1 : length] == b"\n"
        room.write("v", sheet[:length])
        found = room.run(["check", "s", "d", "v"])
        if found not in [(2, line(f"refused {rule} line {number}"), said) for rule in ((106,) if between else (101, 102))]:
            wrong.append((length, found))
    room.report.check(case.name, wrong, [])
    room.write("v", sheet[:-1])
    room.expect(case.name + ": the last line feed missing", ["check", "s", "d", "v"], (0, b"accepted\n", said))


def hash_case(room, case):
    """Sheets by their names, with the lines on both streams."""
    for name, text in case["files"].items():
        room.write(name, text)
    wanted = (case["status"], case["out"].encode("latin-1"), case["err"].encode("latin-1"))
    room.expect("hash: " + case["name"], ["hash", "s", "d", *case["names"]], wanted, case.get("stdin", "").encode("latin-1"))
    for name in case["files"]:
        os.remove(room.path(name))


# the calls whose cases give files alone: of the shared cases of the last three, only those that are refused
PAIRS = {"compare": compare_case, "diff": text_case, "verify": verify_case}
FILES = ("schema", "records", "zones")


def run_case(room, case, sheet):
    """One case. Where it has no schema or no sheet, they are the usual ones."""
    scd, dic = case.inputs[:2] if case.call == "schema" else (case.scd, case.dic)
    room.write("s", scd or room.schema)
    room.write("d", dic if scd else room.dictionary)
    if case.call in PAIRS:
        room.write("a", case.inputs[0])
        room.write("b", case.inputs[1])
        PAIRS[case.call](room, case)
    elif case.call == "run_bundle":
        bundle_case(room, case)
    elif case.call == "cuts":
        cuts_case(room, case)
    else:
        sheet_case(room, case, sheet if case.call == "schema" else case.inputs[0])


def all_cases(room, cases):
    sheet = named(cases, "nodes: one node").inputs[0]
    for case in cases:
        run_case(room, case, sheet)
    room.write("s", room.schema)
    room.write("d", room.dictionary)
    with open(os.path.join(HERE, "hashes.json"), encoding="utf-8") as file:
        for case in json.load(file):
            hash_case(room, case)
    said = {int(rule) for case in cases for rule in re.findall(r"^refused (?:[a-z]+ )?(\d+)", case.wanted)}
    rules = [*range(101, 110), *range(201, 209), *range(301, 308), *range(401, 407), 501, 601, 602, 603, 604]
    room.report.check("each rule has a case", [rule for rule in rules if rule not in said], [])
