"""Commands with good and bad words, and what they write where."""
import fcntl
import os
import pty
import re
import resource
import shlex
import signal
import subprocess

from cases import digest_of
from room import drafts, line, unread, unwritten

HERE = os.path.dirname(os.path.abspath(__file__))
# what is said of words that are not all UTF-8
NOT_TEXT = b"""error: the words are not all UTF-8
edicad: name such a file by a link whose name is, or read it by - from standard input
"""


def words(room):
    """Commands with good and bad words."""
    report = room.report
    for bad in (["paint"], ["check"], ["check", "s"], ["check", "s", "d"], ["canon", "s", "d", "v"], ["compare", "s", "d", "v"],
                ["hash", "s"], ["delivery"], ["changed"], ["changed", "a"], ["changed", "a", "b", "c"], ["changed", "--kinds", "A,B,C,D", "a", "b"], ["explain", "--paint"], ["verify", "s", "d", "v", "v"], ["verify", "s", "d", "v", "v", "p", "p"], ["compare", "--pairing", "s", "d", "v", "v"],
                ["verify", "--pairing", "p", "s", "d", "v", "v", "p"], ["diff", "s", "d", "v"], ["diff", "--brief=yes", "s", "d", "v", "v"], ["diff", "--brief", "--brief", "s", "d", "v", "v"], ["compare", "--brief", "s", "d", "v", "v"], ["check", "s", "d", "v", "v"], ["draw", "s", "d", "v"], ["draw", "s", "d", "v", "o", "o"], ["draw", "--picture", "o", "s", "d", "v"],
                ["diff", "--picture", "s", "d", "v", "v"], ["diff", "--picture", "p", "--picture", "q", "s", "d", "v", "v"], ["compare", "--picture", "p", "s", "d", "v", "v"], ["--paint"], ["check", "--paint", "s", "d", "v"], ["check", "--kinds"], ["help", "paint"]):
        status, out, err = room.run(bad)
        report.check(f"{bad}: status and output", (status, out), (3, b""))
        report.holds(f"{bad}: says what is wrong", err.startswith(b"error: ") and err.endswith(b"\n"))
    for asked in (["--help"], ["-h"], ["help"], ["help", "check"], ["check", "--help"], ["canon", "-h"], ["compare", "--help"], ["hash", "--help"], ["explain", "--help"], ["verify", "--help"], ["diff", "--help"], ["draw", "--help"], ["delivery", "--help"], ["changed", "--help"], ["help", "draw"]):
        status, out, err = room.run(asked)
        report.check(f"{asked}: status and output", (status, out), (0, b""))
        report.holds(f"{asked}: has the usage", b"Usage: edicad" in err and err.endswith(b"\n"))
        report.check(f"{asked}: lines of more than 80 columns", [it for it in err.decode().splitlines() if len(it) > 80], [])
    status, out, err = room.run(["--version"])
    report.check("--version", (status, out, err), (0, b"", b"edicad 0.1.0\n"))
    count, empty = "takes four codes parted by commas", "a code is empty"
    for kinds, why in (("A,B,C", count), ("A,B,C,D,E", count), ("", count), ("A,,B,C", empty), ("A,B,C,", empty), ("A,,C,,", count), ("A,,A,D", empty),
                       ("A,A,B,C", "A is there twice"), ("A,B,C,A", "A is there twice"), ("A,B,C,B", "B is there twice"), ("A,B,C,C", "C is there twice"),
                       ("\x1b,B,C,\x1b", "\\x1b is there twice")):
        for command in (["check", "absent", "absent", "absent"], ["canon", "absent", "absent", "absent", "o"], ["compare", "absent", "absent", "absent", "absent"], ["hash", "absent", "absent", "absent"], ["verify", *["absent"] * 5], ["diff", *["absent"] * 4], ["diff", "--picture", "p", *["absent"] * 4], ["draw", "absent", "absent", "absent", "o"]):
            room.expect(f"{command[0]} with the kinds {kinds!r}", [command[0], "--kinds", kinds, *command[1:]], (3, b"", b"bad kinds\n" + line(f"edicad: --kinds {kinds}: {why}".replace("\x1b", "\\x1b"))))
    for twice in (["check", "-", "-", "v"], ["check", "-", "d", "-"], ["canon", "s", "-", "-", "o"], ["compare", "s", "d", "-", "-"], ["verify", "s", "d", "-", "v", "-"], ["verify", "-", "d", "v", "v", "-"], ["diff", "s", "d", "-", "-"], ["diff", "--picture", "p", "s", "d", "-", "-"], ["draw", "s", "-", "-", "o"],
                  ["hash", "s", "d", "-", "v", "-"], ["hash", "s", "-", "v", "-"], ["changed", "-", "-"]):
        room.expect(f"{twice}", twice, (3, b"", b"only one input can be -\n"))
    status, out, err = room.run([b"\xff"])
    report.check("words that are no text", (status, out, err), (3, b"", NOT_TEXT))


def files(room, sheet, canonical):
    """Files that are missing, made, kept, and links."""
    report = room.report
    room.write("v", sheet)
    for name, command in (("s", ["check", "x", "d", "v"]), ("d", ["check", "s", "x", "v"]), ("v", ["check", "s", "d", "x"]),
                          ("first", ["compare", "s", "d", "x", "v"]), ("second", ["compare", "s", "d", "v", "x"]), ("canon", ["canon", "s", "d", "x", "o"])):
        room.expect(f"a missing file, {name}", command, (4, b"", unread("x")))
    os.rename(room.path("d"), room.path("kept d"))
    room.expect("a dictionary that is missing", ["check", "s", "d", "v"], (4, b"", unread("d")))
    os.rename(room.path("kept d"), room.path("d"))
    room.expect("the first missing file is named", ["check", "s", "x", "y"], (4, b"", unread("x")))
    room.expect("all are opened before one is read", ["check", ".", "d", "y"], (4, b"", unread("y")))
    for command, inputs, out in (("check", "sdv", []), ("explain", "sdv", []), ("canon", "sdv", ["o"]), ("draw", "sdv", ["o"]), ("compare", "sdvv", []), ("diff", "sdvv", [])):
        for at, name in enumerate(inputs):
            paths = [*inputs[:at], ".", *inputs[at + 1:], *out]
            room.expect(f"{command} with a folder for {name} at {at}", [command, *paths], (4, b"", unread(".", "is a folder")))
    room.expect("a file where a folder is named", ["check", "s", "s/x", "v"], (4, b"", unread("s/x", "no such folder")))
    room.expect("a file in a folder that is missing", ["check", "s", "none/x", "v"], (4, b"", unread("none/x")))
    report.check("no OUT of missing files", room.read("o"), None)
    room.expect("OUT is made", ["canon", "s", "d", "v", "o"], (0, b"accepted\n", b""))
    report.check("OUT that is made", room.read("o"), canonical)
    room.write("o", "kept" * 10000)
    os.chmod(room.path("o"), 0o640)
    room.expect("OUT is replaced", ["canon", "s", "d", "v", "o"], (0, b"accepted\n", b""))
    report.check("OUT that is replaced", room.read("o"), canonical)
    report.check("the permissions of OUT", os.stat(room.path("o")).st_mode & 0o777, 0o640)
    os.mkdir(room.path("folder"))
    room.expect("OUT in a folder", ["canon", "s", "d", "v", "folder/o"], (0, b"accepted\n", b""))
    report.check("OUT in a folder: bytes", room.read("folder/o"), canonical)
    room.expect("OUT is a folder", ["canon", "s", "d", "v", "folder"], (4, b"", unwritten("folder", "is a folder")))
    room.expect("OUT in a file", ["canon", "s", "d", "v", "s/o"], (4, b"", unwritten("s/o", "no such folder")))
    room.expect("OUT in no folder", ["canon", "s", "d", "v", "none/o"], (4, b"", unwritten("none/o", "no such folder")))
    for name in ("s", "d", "v"):
        before = room.read(name)
        for out in (name, "./" + name, "folder/../" + name):
            room.expect(f"OUT is the input {out}", ["canon", "s", "d", "v", out], (4, b"", unwritten(out, "is one of the inputs")))
        os.symlink(name, room.path("to_" + name))
        os.link(room.path(name), room.path("also_" + name))
        for out in ("to_" + name, "also_" + name):
            room.expect(f"OUT is a link to an input, {out}", ["canon", "s", "d", "v", out], (4, b"", unwritten(out, "is one of the inputs")))
        room.expect(f"OUT is an input that is named by a link, {name}", ["canon", "to_s", "to_d" if name != "s" else "d", "to_v" if name == "v" else "v", name]
                    if name != "s" else ["canon", "to_s", "d", "v", "s"], (4, b"", unwritten(name, "is one of the inputs")))
        report.check(f"the input {name} stays", room.read(name), before)
        room.expect("an OUT that is an input is refused before a file is opened", ["canon", "absent", "absent", name, name], (4, b"", unwritten(name, "is one of the inputs")))
    room.write("far", "old")
    os.symlink("far", room.path("near"))
    room.expect("OUT is a link", ["canon", "s", "d", "v", "near"], (0, b"accepted\n", b""))
    report.check("a link stays, and its file is replaced", (os.path.islink(room.path("near")), room.read("far")), (True, canonical))
    os.symlink("nowhere", room.path("broken"))
    room.expect("OUT is a link to nothing", ["canon", "s", "d", "v", "broken"], (4, b"", unwritten("broken", "no such file")))
    report.check("no draft stays", drafts(room.folder), [])
    drafts_of_others(room, canonical)
    too_long(room)


def too_long(room):
    """A file of more bytes than a run reads is refused by its length, and not read."""
    with open(room.path("long"), "wb") as file:
        file.truncate(5_000_000_000)
    words = [room.program, "check", "s", "d", "long"]
    with subprocess.Popen(words, cwd=room.folder, stdin=subprocess.DEVNULL, stdout=subprocess.PIPE, stderr=subprocess.PIPE) as run:
        said = run.stdout.read(), run.stderr.read()
        _, status, usage = os.wait4(run.pid, 0)
        run.returncode = os.waitstatus_to_exitcode(status)
    room.report.check("a file that is too long", (run.returncode, *said), (4, b"", line("too long long")))
    room.report.holds("a file that is too long isn't read", usage.ru_maxrss < 1_000_000)
    os.remove(room.path("long"))


def drafts_of_others(room, canonical):
    """What stopped runs left is removed, and what a run that goes on is writing is not."""
    report = room.report
    for number in (0, 1, 3):
        room.write(f".edicad-{number}.tmp", "left")
    room.expect("canon where stopped runs left drafts", ["canon", "s", "d", "v", "o2"], (0, b"accepted\n", b""))
    report.check("OUT where stopped runs left drafts", room.read("o2"), canonical)
    report.check("drafts are removed up to the first name that is free", drafts(room.folder), [".edicad-3.tmp"])
    room.write(".edicad-0.tmp", "being written")
    room.write(".edicad-1.tmp", "left")
    os.symlink("o2", room.path(".edicad-2.tmp"))
    with open(room.path(".edicad-0.tmp"), "rb") as held:
        fcntl.flock(held, fcntl.LOCK_EX)
        room.expect("canon beside a draft that is being written", ["canon", "s", "d", "v", "o3"], (0, b"accepted\n", b""))
    report.check("OUT beside a draft that is being written", room.read("o3"), canonical)
    report.check("a draft that is being written stays", room.read(".edicad-0.tmp"), b"being written")
    report.check("a link of a draft's name stays, and what it leads to", (sorted(drafts(room.folder)), room.read("o2")),
                 ([".edicad-0.tmp", ".edicad-2.tmp"], canonical))
    for name in drafts(room.folder):
        os.remove(room.path(name))


def fifty_bytes():
    """No file gets longer than that."""
    signal.signal(signal.SIGXFSZ, signal.SIG_IGN)
    resource.setrlimit(resource.RLIMIT_FSIZE, (50, 50))


def standard_streams(room, sheet, canonical):
    """Standard input and output by `-`, closed and full streams, devices and pipes."""
    report = room.report
    room.write("v", sheet)
    schema, dictionary = room.read("s"), room.read("d")
    room.expect("the sheet on standard input", ["check", "s", "d", "-"], (0, b"accepted\n", b""), sheet)
    room.expect("the schema on standard input", ["check", "-", "d", "v"], (0, b"accepted\n", b""), schema)
    room.expect("the dictionary on standard input", ["check", "s", "-", "v"], (0, b"accepted\n", b""), dictionary)
    room.expect("one of two sheets on standard input", ["compare", "s", "d", "-", "v"], (0, b"same\n", b""), sheet)
    room.expect("the canonical file to standard output", ["canon", "s", "d", "v", "-"], (0, canonical, b""))
    room.expect("from standard input to standard output", ["canon", "s", "d", "-", "-"], (0, canonical, b""), sheet)
    room.expect("a refused sheet has its line on standard error", ["canon", "s", "d", "-", "-"], (2, b"", b"refused 106 line 1\n"))
    room.expect("a refused dictionary has its line on standard error", ["canon", "s", "v", "v", "-"], (2, b"", room.run(["canon", "s", "v", "v", "o"])[1]))
    report.check("no file of the name -", room.read("-"), None)
    room.expect("a file of the name -", ["canon", "s", "d", "v", "./-"], (0, b"accepted\n", b""))
    report.check("the file of the name -", room.read("-"), canonical)
    room.expect("a file of the name - is read", ["check", "s", "d", "./-"], (0, b"accepted\n", b""))
    os.remove(room.path("-"))
    bundle = schema + dictionary + sheet
    room.expect("the bundle", [], (0, canonical, b""), bundle)
    with open("/dev/full", "wb") as full:
        room.expect("the bundle to a full output", [], (4, None, b"cannot write standard output\n"), bundle, stdout=full)
        room.expect("the canonical file to a full output", ["canon", "s", "d", "v", "-"], (4, None, b"cannot write standard output\n"), stdout=full)
        unsaid = (4, None, b"cannot write standard output\n")
        room.expect("accepted to a full output", ["check", "s", "d", "v"], unsaid, stdout=full)
        room.expect("refused to a full output", ["check", "s", "d", "s"], unsaid, stdout=full)
        room.expect("the same to a full output", ["compare", "s", "d", "v", "v"], unsaid, stdout=full)
        room.expect("accepted, with OUT, to a full output", ["canon", "s", "d", "v", "o"], unsaid, stdout=full)
        room.expect("refused beside a full output", ["canon", "s", "d", "s", "-"], (2, None, b"refused 201 record 1\n"), stdout=full)
        report.check("errors to a full stream", room.run(["check", "s", "d", "x"], stderr=full)[0], 4)
    with open(room.path("short"), "wb") as short:
        room.expect("the canonical file to an output that takes a part", ["canon", "s", "d", "v", "-"],
                    (4, None, b"cannot write standard output\n" + line("edicad: standard output: the first 50 bytes were written")),
                    stdout=short, preexec_fn=fifty_bytes)
    report.check("the part that it took", room.read("short"), canonical[:50])
    room.expect("a closed output", ["check", "s", "d", "v"], (4, b"", unsaid[2]), preexec_fn=lambda: os.close(1))
    report.check("a closed stream of errors", room.run(["check", "s", "d", "x"], preexec_fn=lambda: os.close(2))[0], 4)
    room.expect("a closed input", ["check", "s", "d", "-"], (4, b"", b"cannot read standard input\n"), preexec_fn=lambda: os.close(0))
    room.expect("a closed input of the bundle", [], (4, b"", b"cannot read standard input\n"), preexec_fn=lambda: os.close(0))
    room.expect("OUT is a full device", ["canon", "s", "d", "v", "/dev/full"], (4, b"", unwritten("/dev/full", "no space left")))
    room.expect("OUT is a device", ["canon", "s", "d", "v", "/dev/null"], (0, b"accepted\n", b""))
    report.holds("a device stays", not os.path.isfile("/dev/null"))
    os.mkfifo(room.path("pipe"))
    reader = subprocess.Popen(["cat", room.path("pipe")], stdout=subprocess.PIPE)
    room.expect("OUT is a pipe", ["canon", "s", "d", "v", "pipe"], (0, b"accepted\n", b""))
    report.check("a pipe gets the bytes", reader.communicate(timeout=20)[0], canonical)
    report.check("no draft of a stream", drafts(room.folder), [])
    redirected_streams(room)


def redirected_streams(room):
    """An OUT or FILE that is the file of standard output or standard error is refused, and the file keeps what it had."""
    report, why = room.report, "is standard output or standard error"
    commands = {
        "canon": lambda out: ["canon", "s", "d", "v", out],
        "draw": lambda out: ["draw", "s", "d", "v", out],
        "compare --pairing": lambda out: ["compare", "--pairing", out, "s", "d", "v", "v"],
        "diff --picture": lambda out: ["diff", "--picture", out, "s", "d", "v", "v"],
    }
    for name, words_of in commands.items():
        for out in ("/dev/stdout", "log"):
            room.write("log", "before\n")
            with open(room.path("log"), "ab") as log:
                room.expect(f"{name} to {out}, the file of standard output", words_of(out), (4, None, unwritten(out, why)), stdout=log)
            report.check(f"{name} to {out}: what the file had", room.read("log"), b"before\n")
    room.write("log", "before\n")
    with open(room.path("log"), "ab") as log:
        report.check("the file of standard error", room.run(["canon", "s", "d", "v", "/dev/stderr"], stderr=log), (4, b"", None))
    report.check("what the file of standard error had", room.read("log"), b"before\n" + unwritten("/dev/stderr", why))


def shown(room):
    """Identifiers and names of files that a terminal would act on, in the lines of each command."""
    node = "RTYSA03:PNO\nRIDSA06:{0}\nSCPCP22:EDAB01;SeSD;PGE;NOD_id\nCORCC04:{1};0;\n"
    of = lambda *nodes: "BOMT 01:X\n" + "".join(node.format(*it) for it in nodes) + "EOMT 00:\n"
    room.write("a", of(("a\x1b[2J\x7f", 7)))
    room.write("b", of(("c\\d\r\te", 8)))
    room.write("c", of(("a\x1b[2J\x7f", 7), ("c\\d\r\te", 7)))
    first, second = b"a\\x1b[2J\\x7f", b"c\\\\d\\x0d\\x09e"
    room.expect("diff of identifiers with control bytes", ["diff", "--records", "s", "d", "a", "b"],
                (1, b"~ PNO " + first + b" " + second + b" (lines 2 and 2): points\n0 only in A, 0 only in B, 1 changed\n", b""))
    room.write("e", of(("caf\xe9_1", 7)))
    for name, identifier, shown_as in (("in UTF-8", "caf\xc3\xa9_", b"caf\xc3\xa9_"), ("with a second control character", "ab\xc2\x9b_1", b"ab\\xc2\\x9b_1")):
        room.write("f", of((identifier, 8)))
        room.expect(f"diff of an identifier in Latin-1 and one {name}", ["diff", "--records", "s", "d", "e", "f"],
                    (1, b"~ PNO caf\\xe9_1 " + shown_as + b" (lines 2 and 2): points\n0 only in A, 0 only in B, 1 changed\n", b""))
    repeated = b"refused 403 record 2\nc:6: PNO " + second
    room.report.check("explain of identifiers with control bytes", room.run(["explain", "s", "d", "c"])[1][: len(repeated)], repeated)
    name = "x\x1b]0;y\x07\n\\"
    hidden = "x\\x1b]0;y\\x07\\x0a\\\\"
    room.expect("a missing file with such a name", ["check", "s", "d", name], (4, b"", unread(hidden)))
    room.expect("OUT with such a name in no folder", ["canon", "s", "d", "a", name + "/o"], (4, b"", unwritten(hidden + "/o", "no such folder")))
    room.write(name, "")
    told = b"refused 106 line 1\n" + hidden.encode() + b":1: "
    room.report.check("explain of a file with such a name", room.run(["explain", "s", "d", name])[1][: len(told)], told)
    room.write(name, "\xef\xbb\xbf")
    room.report.holds("a hint on a file with such a name", b"\nhint: " + hidden.encode() + b" begins" in room.run(["explain", "s", "d", name])[1])


def hashes(room, sheet, canonical):
    """Digests of many sheets: what is refused before a sheet is opened, full streams, and the greatest status."""
    report = room.report
    room.write("v", sheet)
    room.write("w", canonical)
    room.write("bad", b"")
    one = digest_of(canonical)
    both = one + b"  v\n" + one + b"  w\n"
    room.expect("a sheet and its canonical file have one digest", ["hash", "s", "d", "v", "w"], (0, both, b""))
    checked = subprocess.run(["sha256sum", "-c"], cwd=room.folder, input=one + b"  w\n", capture_output=True).stdout
    report.check("sha256sum -c takes the line of a canonical file", checked, b"w: OK\n")
    room.expect("the first missing file of a schema", ["hash", "x", "y", "v"], (4, b"", b"x: cannot read\nedicad: x: no such file\n"))
    room.expect("the second missing file of a schema", ["hash", "s", "y", "v"], (4, b"", b"y: cannot read\nedicad: y: no such file\n"))
    room.expect("a refused schema", ["hash", "bad", "d", "x"], (2, b"", b"bad: refused scd 106 line 1\n"))
    room.expect("a refused dictionary", ["hash", "s", "bad", "x"], (2, b"", b"bad: refused dic 106 line 1\n"))
    room.expect("refused kinds", ["hash", "--kinds", "XA,XB,XC,IND", "s", "d", "x"], (2, b"", b"s: refused kinds 604\n"))
    none = b": no class for initial node, final node, left face, right face: see --kinds\n"
    room.expect("codes that no class has", ["hash", "--kinds", "W,X,Y,Z", "s", "d", "v", "bad"], (2, one + b"  v\n", b"edicad: s" + none + b"bad: refused 106 line 1\n"))
    room.write("a\nb", room.read("s"))
    room.expect("the same in a schema whose name has escapes", ["hash", "--kinds=W,X,Y,Z", "a\nb", "d", "v"], (0, one + b"  v\n", b"edicad: a\\nb" + none))
    room.expect("the same in one on standard input", ["hash", "--kinds=W,X,Y,Z", "-", "d", "v"], (0, one + b"  v\n", b"edicad: -" + none), room.read("s"))
    room.write("faceless", room.read("s").replace(b"LPO", b"XPO").replace(b"RPO", b"YPO"))
    room.expect("no class for faces", ["hash", "faceless", "d", "v"], (0, one + b"  v\n", b"edicad: faceless: no class for left face, right face: see --kinds\n"))
    os.remove(room.path("a\nb"))
    room.write("b\\d", b"")
    room.expect("the name of a refused schema has its escapes", ["hash", "b\\d", "d", "x"], (2, b"", b"\\b\\\\d: refused scd 106 line 1\n"))
    room.expect("the greatest status", ["hash", "s", "d", "x", "bad", "v"], (4, one + b"  v\n", b"x: cannot read\nedicad: x: no such file\nbad: refused 106 line 1\n"))
    room.expect("a folder among the sheets", ["hash", "s", "d", ".", "v"], (4, one + b"  v\n", b".: cannot read\nedicad: .: is a folder\n"))
    room.expect("a reason is that of its own sheet", ["hash", "s", "d", "x", ".", "s/x", "v"],
                (4, one + b"  v\n", b"x: cannot read\nedicad: x: no such file\n.: cannot read\nedicad: .: is a folder\ns/x: cannot read\nedicad: s/x: no such folder\n"))
    room.expect("the name of a reason has its escapes", ["hash", "s", "d", "a\nb"], (4, b"", b"\\a\\nb: cannot read\nedicad: a\\nb: no such file\n"))
    room.expect("the schema on standard input", ["hash", "-", "d", "v", "w"], (0, both, b""), room.read("s"))
    room.expect("a closed input", ["hash", "s", "d", "-", "v"], (4, one + b"  v\n", b"-: cannot read\n"), preexec_fn=lambda: os.close(0))
    many = ["v"] * 3000
    room.expect("many sheets", ["hash", "s", "d", *many], (0, (one + b"  v\n") * 3000, b""))
    with open("/dev/full", "wb") as full:
        room.expect("digests to a full output", ["hash", "s", "d", "x", "v", "bad"], (4, None, b"x: cannot read\nedicad: x: no such file\ncannot write standard output\n"), stdout=full)
        report.check("faults to a full stream", room.run(["hash", "s", "d", "bad", "v"], stderr=full)[:2], (2, one + b"  v\n"))
        room.expect("a refused schema beside a full output", ["hash", "bad", "d", "v"], (2, None, b"bad: refused scd 106 line 1\n"), stdout=full)
    room.expect("a closed output", ["hash", "s", "d", "v"], (4, b"", b"cannot write standard output\n"), preexec_fn=lambda: os.close(1))
    schema_digests(room, one)
    hashed_hints(room, one)


def hashed_hints(room, one):
    """The hints on the files of refused sheets, which are those of `explain`; none of what isn't read twice."""
    turned = b" seems to have been turned into UTF-8: its lengths count characters, so take the file as it was delivered\n"
    cut = b" seems to be cut: its last line has no end\n"
    room.write("turned", "BOMT 01:X\nRTYSA03:PNO\nRIDSA07:Ch\u00e2teau\nEOMT 00:\n".encode("utf-8"))
    room.write("cut", "BOMT 01:X\nRTYSA03:PN")
    of_turned, of_cut = b"turned: refused 103 line 3\nhint: turned" + turned, b"cut: refused 102 line 2\nhint: cut" + cut
    room.expect("a sheet whose lengths count characters", ["hash", "s", "d", "turned", "v"], (2, one + b"  v\n", of_turned))
    room.expect("a sheet that was cut", ["hash", "s", "d", "v", "cut"], (2, one + b"  v\n", of_cut))
    room.expect("each hint behind its sheet", ["hash", "s", "d", "cut", "x", "turned", "bad"],
                (4, b"", of_cut + b"x: cannot read\nedicad: x: no such file\n" + of_turned + b"bad: refused 106 line 1\n"))
    room.write("marked", b"\xef\xbb\xbf" + room.read("v") + b"\x1a")
    room.write("thf", "BOMT 01:X\nRTYSA03:GTS\nRIDSA01:a\nEOMT 00:\n")
    room.write("twice", room.read("v").replace(b"EOMT", b"RTYSA03:PNO\nEOMT"))
    for name in ("turned", "cut", "marked", "thf", "twice"):
        explained = room.run(["explain", "s", "d", name])[1].splitlines(keepends=True)
        wanted = name.encode() + b": " + b"".join([explained[0], *(it for it in explained if it.startswith(b"hint: "))])
        room.expect(f"the hints of explain: {name}", ["hash", "s", "d", name], (2, b"", wanted))
    room.write("a\nb", room.read("cut"))
    room.expect("a name with escapes in a hint", ["hash", "s", "d", "a\nb"], (2, b"", b"\\a\\nb: refused 102 line 2\nhint: a\\x0ab" + cut))
    os.remove(room.path("a\nb"))
    room.expect("no hint on standard input", ["hash", "s", "d", "-"], (2, b"", b"-: refused 102 line 2\n"), room.read("cut"))
    os.mkfifo(room.path("pipe"))
    writer = subprocess.Popen(["sh", "-c", "cat cut > pipe"], cwd=room.folder)
    room.expect("no hint on a pipe", ["hash", "s", "d", "pipe"], (2, b"", b"pipe: refused 102 line 2\n"))
    writer.wait(timeout=20)
    os.remove(room.path("pipe"))
    room.write("list", one + b"  cut\n")
    room.expect("no hint where a list is held", ["hash", "--check", "list", "s", "d"], (2, b"cut: FAILED\n", b"cut: refused 102 line 2\n"))


# The text of the schema of most cases, as FORMAT.md has it.
SCHEMA_TEXT = """edicad schema 1
ATT;NOM_id;A;bytes;-
ATT;SUP_id;R;number;-
OBJ;PARCELLE_id;-;-;-
PGE;ARC_id;-;-;-
PGE;FAC_id;-;-;-
PGE;NOD_id;-;-;-
REL;CMP_id;-;-;-
REL;DRT_id;-;-;right face
REL;FIN_id;-;-;final node
REL;GCH_id;-;-;left face
REL;INI_id;-;-;initial node
"""


def schema_digests(room, one):
    """Digests of sheets below that of their schema, which may stand alone."""
    schema = b"schema " + digest_of(SCHEMA_TEXT) + b"  "
    room.expect("the digest of the schema first", ["hash", "--schema", "s", "d", "v", "w"], (0, schema + b"s\n" + one + b"  v\n" + one + b"  w\n", b""))
    room.expect("the same, asked for at the end", ["hash", "s", "d", "v", "--schema"], (0, schema + b"s\n" + one + b"  v\n", b""))
    room.expect("the digest of the schema alone", ["hash", "--schema", "s", "d"], (0, schema + b"s\n", b""))
    room.expect("neither a sheet nor the schema", ["hash", "s", "d"], (3, b"", b"hash takes SCD, DIC and a VEC, or --schema\n"))
    room.expect("a refused sheet below the schema", ["hash", "--schema", "s", "d", "bad", "v"], (2, schema + b"s\n" + one + b"  v\n", b"bad: refused 106 line 1\n"))
    room.expect("a refused schema has no digest", ["hash", "--schema", "bad", "d", "v"], (2, b"", b"bad: refused scd 106 line 1\n"))
    room.expect("a schema on standard input", ["hash", "--schema", "-", "d"], (0, schema + b"-\n", b""), room.read("s"))
    room.write("a\nb", room.read("s").replace(b"EDAB01", b"EDAB02"))
    room.expect("another lot, and a name with escapes", ["hash", "--schema", "a\nb", "d"], (0, schema.replace(b"schema ", b"schema \\") + b"a\\nb\n", b""))
    os.remove(room.path("a\nb"))
    exchanged = room.read("s").replace(b"LPO", b"XPO").replace(b"RPO", b"LPO").replace(b"XPO", b"RPO")
    room.write("x", exchanged)
    other = digest_of(SCHEMA_TEXT.replace("left", "X").replace("right", "left").replace("X", "right"))
    room.expect("left and right exchanged", ["hash", "--schema", "x", "d"], (0, b"schema " + other + b"  x\n", b""))
    os.remove(room.path("x"))
    with open("/dev/full", "wb") as full:
        room.expect("the digest of the schema to a full output", ["hash", "--schema", "s", "d", "x", "v"], (4, None, b"cannot write standard output\n"), stdout=full)
    room.expect("the same to a closed one", ["hash", "--schema", "s", "d"], (4, b"", b"cannot write standard output\n"), preexec_fn=lambda: os.close(1))


def pairings(room, sheet):
    """Pairings that are written and verified: each line and status of both commands, what is missing, kept and replaced."""
    report = room.report
    node = "RTYSA03:PNO\nRIDSA01:{0}\nSCPCP22:EDAB01;SeSD;PGE;NOD_id\nCORCC04:{1};0;\n"
    of = lambda *nodes: "BOMT 01:X\n" + "".join(node.format(*it) for it in nodes) + "EOMT 00:\n"
    room.write("a", of(("a", 7), ("b", 8)))
    room.write("b", of(("c", 8), ("d", 7)))
    room.write("c", of(("c", 8), ("d", 9)))
    room.write("bad", "")
    pairing = b"edicad pairing 1\nPNO;a;d\nPNO;b;c\n"
    wrong = lambda at, why: (2, line(f"refused pairing line {at}: {why}"), b"")
    fails = lambda why: (1, b"does not pair\n" + line(why), b"")
    sheets = ["s", "d", "a", "b"]
    same = (0, b"same\n", b"")
    room.expect("a pairing is written", ["compare", "--pairing", "p", *sheets], same)
    report.check("the pairing", room.read("p"), pairing)
    room.write("p", "old" * 1000)
    os.chmod(room.path("p"), 0o640)
    room.expect("a pairing replaces FILE", ["compare", *sheets, "--pairing=p"], same)
    report.check("FILE that is replaced", (room.read("p"), os.stat(room.path("p")).st_mode & 0o777), (pairing, 0o640))
    for name, text, wanted in (
        ("the pairing", pairing, (0, b"pairs\n", b"")),
        ("one that exchanges the nodes", b"edicad pairing 1\nPNO;a;c\nPNO;b;d\n", fails("FILE:2: PNO a: is not PNO c of B: other points")),
        ("one with both nodes to one", b"edicad pairing 1\nPNO;a;d\nPNO;b;d\n", fails("FILE:3: PNO b: goes to PNO d of B, as PNO a does in line 2")),
        ("one that reverses a node", b"edicad pairing 1\nPNO;a;d;reversed\nPNO;b;c\n", fails("FILE:2: PNO a: is not PNO d of B: it is reversed, and no arc")),
        ("an empty file", b"", wrong(1, "the file ends before this line")),
        ("another version", b"edicad pairing 2\nPNO;a;d\nPNO;b;c\n", wrong(1, "it is not edicad pairing 1")),
        ("a carriage return", b"edicad pairing 1\r\nPNO;a;d\nPNO;b;c\n", wrong(1, "it ends in a carriage return")),
        ("a later carriage return", b"edicad pairing 1\nPNO;a;d\r\nPNO;b;c\r\n", wrong(2, "it ends in a carriage return")),
        ("another form", b"edicad pairing 1\nPNO;a\nPNO;b;c\n", wrong(2, "it is not TYPE;IDENTIFIER;IDENTIFIER, with or without ;reversed")),
        ("a line cut off", b"edicad pairing 1\nPNO;a", wrong(2, "the file ends within this line")),
        ("no record of A", b"edicad pairing 1\nPNO;x;d\nPNO;b;c\n", wrong(2, "it is the line of a record that neither sheet has")),
        ("no record of B", b"edicad pairing 1\nPNO;a;d\nPNO;b;x\n", wrong(3, "no record of B has the second identifier")),
        ("another type", b"edicad pairing 1\nPAR;a;d\nPNO;b;c\n", wrong(2, "it is the line of a record that neither sheet has")),
        ("a line repeated", b"edicad pairing 1\nPNO;a;d\nPNO;a;d\nPNO;b;c\n", wrong(3, "it is the line of another record of A than the next")),
        ("a line after the last", pairing + b"PNO;b;c\n", wrong(4, "A has no more records")),
        ("lines in another order", b"edicad pairing 1\nPNO;b;c\nPNO;a;d\n", wrong(2, "it is the line of another record of A than the next")),
        ("a line too few", pairing[:-8], wrong(3, "the file ends before this line")),
        ("no end of the last line", pairing[:-1], wrong(3, "the file ends within this line")),
        ("a sheet", room.read("a"), wrong(1, "it is not edicad pairing 1")),
    ):
        room.write("q", text)
        status, said, err = wanted
        room.expect(f"verify of {name}", ["verify", *sheets, "q"], (status, said.replace(b"FILE", b"q"), err))
        room.expect(f"verify of {name} on standard input", ["verify", *sheets, "-"], (status, said.replace(b"FILE", b"standard input"), err), text)
    room.expect("verify of other sheets", ["verify", "s", "d", "a", "c", "p"], fails("p:2: PNO a: is not PNO d of B: other points"))
    room.write("more", of(("c", 8), ("d", 7), ("e", 9), ("f", 6)))
    room.expect("verify where B has more records", ["verify", "s", "d", "a", "more", "p"], fails("PNO e of B: no record of A goes to it"))
    room.write("set", of(("c", 8), ("d", 7)).replace("\n", "\nCSET 03:IRV\n", 1))
    room.expect("verify of other character sets", ["verify", "s", "d", "a", "set", "p"], fails("A and B have different character sets"))
    room.write("bell", of(("c", 8), ("\a", 9)))
    room.write("q\a\\", "edicad pairing 1\nPNO;a;\a\nPNO;b;c\n")
    room.expect("verify of what a terminal could act on", ["verify", "s", "d", "a", "bell", "q\a\\"], fails("q\\x07\\\\:2: PNO a: is not PNO \\x07 of B: other points"))
    room.expect("verify with A and B exchanged", ["verify", "s", "d", "b", "a", "p"], wrong(2, "it is the line of a record of B, and not of A: the sheets may be exchanged"))
    for at, name in enumerate(("s", "d", "a", "b", "p")):
        words = [*sheets, "p"]
        words[at] = "-"
        room.expect(f"verify with {name} on standard input", ["verify", *words], (0, b"pairs\n", b""), room.read(name))
        words[at] = "x"
        room.expect(f"verify without {name}", ["verify", *words], (4, b"", unread("x")))
        words[at] = "."
        room.expect(f"verify with a folder for {name}", ["verify", *words], (4, b"", unread(".", "is a folder")))
        if name != "p":
            room.expect(f"all are opened before one is read, {name}", ["verify", *words[:4], "y"], (4, b"", unread("y")))
    refusals = ((["bad", "d", "a", "b"], b"refused scd 106 line 1\n"), (["s", "bad", "a", "b"], b"refused dic 106 line 1\n"),
                (["s", "d", "bad", "bad"], b"refused first 106 line 1\n"), (["s", "d", "a", "bad"], b"refused second 106 line 1\n"),
                (["--kinds", "XA,XB,XC,IND", "s", "d", "a", "b"], b"refused kinds 604\n"))
    room.write("kept", "kept")
    for words, said in refusals:
        note = b"edicad: s: no class for initial node, final node, left face: see --kinds\n" if "--kinds" in words else b""
        room.expect(f"verify of {words}", ["verify", *words, "bad"], (2, said, note))
        room.expect(f"a pairing of {words}", ["compare", "--pairing", "kept", *words], (2, said, note))
    room.expect("a pairing of different sheets", ["compare", "--pairing", "kept", "s", "d", "a", "c"], (1, b"different at line 5\n", b""))
    room.expect("a pairing of a missing sheet", ["compare", "--pairing", "kept", "s", "d", "a", "x"], (4, b"", unread("x")))
    room.expect("a pairing to -", ["compare", "--pairing", "-", *sheets], (3, b"", b"--pairing takes a file, and not -\n"))
    report.check("FILE of other answers", (room.read("kept"), room.read("-")), (b"kept", None))
    room.expect("a new FILE of different sheets", ["compare", "--pairing", "new", "s", "d", "a", "c"], (1, b"different at line 5\n", b""))
    report.check("no FILE of different sheets", room.read("new"), None)
    for name in sheets:
        before = room.read(name)
        os.symlink(name, room.path("to_" + name))
        for file in (name, "./" + name, "to_" + name):
            room.expect(f"FILE is the input {file}", ["compare", "--pairing", file, *sheets], (4, b"", unwritten(file, "is one of the inputs")))
        room.expect(f"FILE is the input {name}, before a file is opened", ["compare", "--pairing", name, *["absent" if it != name else it for it in sheets]], (4, b"", unwritten(name, "is one of the inputs")))
        report.check(f"the input {name} stays", room.read(name), before)
    room.expect("a FILE of the name -", ["compare", "--pairing", "./-", *sheets], same)
    report.check("the FILE of the name -", room.read("-"), pairing)
    room.expect("a sheet on standard input", ["compare", "--pairing", "p", "s", "d", "-", "b"], same, room.read("a"))
    room.expect("FILE in no folder", ["compare", "--pairing", "none/p", *sheets], (4, b"", unwritten("none/p", "no such folder")))
    room.expect("FILE is a full device", ["compare", "--pairing", "/dev/full", *sheets], (4, b"", unwritten("/dev/full", "no space left")))
    room.expect("FILE is the device of standard output", ["compare", "--pairing", "/dev/stdout", *sheets], (0, pairing + b"same\n", b""))
    with open("/dev/full", "wb") as full:
        for words in (["compare", "--pairing", "p", *sheets], ["verify", *sheets, "p"], ["verify", *sheets, "a"]):
            room.expect(f"{words} to a full output", words, (4, None, b"cannot write standard output\n"), stdout=full)
        report.check("FILE where the answer didn't go out", room.read("p"), pairing)
    report.check("no draft of a pairing stays", drafts(room.folder), [])
    room.write("v", sheet)
    room.expect("a pairing of a sheet with itself", ["compare", "--pairing", "p", "s", "d", "v", "v"], same)
    report.check("the pairing of a sheet with itself", room.read("p"), b"edicad pairing 1\nPNO;Noeud_1;Noeud_1\n")


def kinds_noted(room, sheet, canonical):
    """The note on the kinds of links that no class has: behind each answer, by the name of the file of classes, on standard error."""
    room.write("v", sheet)
    room.write("w", canonical)
    room.write("bad", "")
    none = b": no class for initial node, final node, left face, right face: see --kinds\n"
    note = b"edicad: s" + none
    other = ["--kinds", "W,X,Y,Z"]
    room.expect("a pairing to be verified", ["compare", "--pairing", "p", "s", "d", "v", "w"], (0, b"same\n", b""))
    answers = ((["check"], ["v"], b"accepted\n"), (["canon"], ["v", "o"], b"accepted\n"), (["canon"], ["v", "-"], canonical),
               (["draw"], ["v", "o"], b"accepted\n"), (["compare"], ["v", "w"], b"same\n"), (["compare", "--pairing", "q"], ["v", "w"], b"same\n"),
               (["verify"], ["v", "w", "p"], b"pairs\n"), (["diff"], ["v", "w"], b"records: 0 only in A, 0 only in B, 0 changed\n"),
               (["diff", "--brief", "--picture", "q"], ["v", "w"], b"0 only in A, 0 only in B, 0 changed\n"))
    for command, names, answer in answers:
        room.expect(f"codes that no class has, {command}", [*command, *other, "s", "d", *names], (0, answer, note))
        room.expect(f"codes that a class has each, {command}", [*command, "s", "d", *names], (0, answer, b""))
    room.expect("beside a refused sheet", ["check", *other, "s", "d", "bad"], (2, b"refused 106 line 1\n", note))
    room.expect("beside a refused sheet to -", ["canon", *other, "s", "d", "bad", "-"], (2, b"", b"refused 106 line 1\n" + note))
    room.expect("beside a refused dictionary", ["check", *other, "s", "bad", "v"], (2, b"refused dic 106 line 1\n", note))
    room.expect("not on a file of classes that breaks a rule of lines", ["check", *other, "bad", "d", "v"], (2, b"refused scd 106 line 1\n", b""))
    room.expect("not where a file is missing", ["compare", *other, "s", "d", "v", "x"], (4, b"", unread("x")))
    room.expect("not where OUT is an input", ["canon", *other, "s", "d", "v", "v"], (4, b"", unwritten("v", "is one of the inputs")))
    room.expect("behind an OUT that can't be written", ["canon", *other, "s", "d", "v", "none/o"], (4, b"", unwritten("none/o", "no such folder") + note))
    room.expect("on a file of classes on standard input", ["check", *other, "-", "d", "v"], (0, b"accepted\n", b"edicad: standard input" + none), room.read("s"))
    room.write("a\nb", room.read("s"))
    room.expect("by a name as a line shows it", ["check", *other, "a\nb", "d", "v"], (0, b"accepted\n", b"edicad: a\\x0ab" + none))
    os.remove(room.path("a\nb"))
    room.write("faceless", room.read("s").replace(b"LPO", b"XPO").replace(b"RPO", b"YPO"))
    room.expect("no class for faces", ["check", "faceless", "d", "v"], (0, b"accepted\n", b"edicad: faceless: no class for left face, right face: see --kinds\n"))
    with open("/dev/full", "wb") as full:
        room.expect("beside a full output", ["check", *other, "s", "d", "v"], (4, None, b"cannot write standard output\n" + note), stdout=full)
        room.report.check("to a full stream", room.run(["check", *other, "s", "d", "v"], stderr=full)[:2], (0, b"accepted\n"))


def as_compare(room, words, status, **how):
    """What diff answers where compare has this status, 2 or more: the same, with --brief too."""
    wanted = room.run(["compare", *words], **how)
    room.report.check(f"compare of {words}, status", wanted[0], status)
    for flag in ([], ["--brief"]):
        room.expect(f"diff of {[*flag, *words]}", ["diff", *flag, *words], wanted, **how)


def by_objects(room):
    """What differs, object by object: the parcel of the example with another attribute and one more, with a node moved and an arc bent, gone, and with
    another object on its face; each text with its count by class. And a link of five records, of which the last one's outline differs."""
    first = room.read("a")
    label = (b"RTYSA03:FEA\nRIDSA05:Label\nSCPCP27:EDAB01;SeSD;OBJ;PARCELLE_id\nATCSN02:01\nATPCP22:EDAB01;SeSD;ATT;NOM_id\nATVSA01:B\n"
             b"RTYSA03:LNK\nRIDSA06:Lien_8\nSCPCP22:EDAB01;SeSD;REL;CMP_id\nFTCSN02:02\nFTPCP21:EDAB01;SeT1;FEA;Label\nFTPCP22:EDAB01;SeT1;PFE;Face_1\nATCSN02:00\n")
    at, end = first.index(b"RTYSA03:FEA\n"), first.index(b"EOMT")
    others = b"".join(b"FTPCP%02d:EDAB01;SeT1;%s\n" % (len(name) + 12, name) for name in (b"PNO;Noeud_1", b"PNO;Noeud_2", b"PAR;Arc_1"))
    wide = first.replace(b"FTCSN02:02\nFTPCP23:EDAB01;SeT1;FEA;Objet_1\n", b"FTCSN02:05\nFTPCP23:EDAB01;SeT1;FEA;Objet_1\n" + others)
    gone = first[:at] + first[first.index(b"RTYSA03:LNK\n"):first.index(b"RTYSA03:LNK\nRIDSA06:Lien_7\n")] + first[end:]
    one_changed, one_gone, one_new = ((b"PARCELLE_id: %d only in A, %d only in B, %d changed\n" % counts) for counts in ((0, 0, 1), (1, 0, 0), (0, 1, 0)))
    changes = {
        "another attribute": (first.replace(b"ATVSA04:A 12", b"ATVSA04:A 13"),
                              b"~ PARCELLE_id NOM_id A 12 (lines 39 and 39):\n    NOM_id: A 12 -> A 13\n" + one_changed),
        "an attribute more": (first.replace(b"ATCSN02:02\nATPCP22:EDAB01;SeSD;ATT;SUP_id\nATVSR05:25.00", b"ATCSN02:03\nATPCP22:EDAB01;SeSD;ATT;SUP_id\nATVSR05:25.00\nATPCP22:EDAB01;SeSD;ATT;SUP_id\nATVSR05:26.50"),
                              b"~ PARCELLE_id NOM_id A 12 (lines 39 and 39):\n    SUP_id: 25 -> 25, 26.5\n" + one_changed),
        "a node moved": (first.replace(b"+10.00;+0.00;", b"+11.00;+0.00;"),
                         b"~ PARCELLE_id NOM_id A 12 (lines 39 and 39):\n    outline of face (line 34): arcs 2 gone, 2 new, 0 changed\n"
                         b"- arc 0;0 .. 10;0 (line 15)\n- arc 10;0 .. 0;0 (line 24)\n+ arc 0;0 .. 11;0 (line 15)\n+ arc 11;0 .. 0;0 (line 24)\n"
                         b"~ node 10;0 (lines 9 and 9): points (to 11;0, by 1)\n" + one_changed),
        "an arc bent": (first.replace(b"+5.00;+5.00;", b"+5.00;+6.00;"),
                        b"~ PARCELLE_id NOM_id A 12 (lines 39 and 39):\n    outline of face (line 34): arcs 0 gone, 0 new, 1 changed\n~ arc 10;0 .. 0;0 (lines 24 and 24): points (1 of 3, by at most 1)\n" + one_changed),
        "the parcel gone": (gone, b"- PARCELLE_id NOM_id A 12 (line 39)\n" + one_gone),
        "a parcel on the same face": (first[:end] + label + first[end:], b"+ PARCELLE_id NOM_id B (line 106)\n" + one_new),
    }
    room.write("wide", wide)
    room.write("b", wide.replace(b"+5.00;+5.00;", b"+5.00;+6.00;"))
    status, told, _ = room.run(["diff", "s", "d", "wide", "b"])
    room.report.check("the fifth record of a link, by objects", told.startswith(b"~ PARCELLE_id NOM_id A 12 (lines 39 and 39):\n    outline of others\n~ arc "), True)
    for name, (second, told) in changes.items():
        room.write("b", second)
        status, brief, _ = room.run(["diff", "--brief", "s", "d", "a", "b"])
        room.report.check(f"{name}: brief", status, 1)
        room.expect(f"{name}, by objects", ["diff", "s", "d", "a", "b"], (1, told + b"records: " + brief, b""))
        room.expect(f"{name}, in brief where records are asked for too", ["diff", "--records", "--brief", "s", "d", "a", "b"], (1, brief, b""))
    room.write("b", first.replace(b"ATVSA04:A 12", b"ATVSA04:A 13"))


def as_json(room, sheets):
    """What differs, as lines of JSON: the two records of the text, no record, another character set; and which form is meant where two are asked for."""
    record = b'{"version":1,"what":"record","mark":"changed","type":"%s","a":{"identifier":"%s","line":%d},"b":{"identifier":"%s","line":%d},"parts":[%s]}\n'
    counts = b'{"version":1,"what":"counts","only_in_a":0,"only_in_b":0,"changed":%d}\n'
    found = (1, record % (b"FEA", b"Objet_1", 39, b"Objet_1", 39, b'"attributes"') + record % (b"LNK", b"Lien_7", 98, b"Lien_7", 98, b"") + counts % 2, b"")
    room.write("set", room.read("a").replace(b"CSET 03:IRV\n", b""))
    charsets = b'{"version":1,"what":"charsets","a":"IRV","b":null}\n'
    room.expect("another value, as JSON", ["diff", "--json", *sheets], found)
    room.expect("another value, as JSON where records are asked for too", ["diff", "--records", *sheets, "--json"], found)
    room.expect("another value, in brief where JSON is asked for too", ["diff", "--json", "--brief", *sheets], (1, b"0 only in A, 0 only in B, 2 changed\n", b""))
    room.expect("no difference, as JSON", ["diff", "--json", "s", "d", "a", "same"], (0, counts % 0, b""))
    room.expect("another character set, as JSON", ["diff", "--json", "s", "d", "a", "set"], (1, charsets + counts % 0, b""))


def differences(room):
    """What differs between two sheets: the lines, the statuses and what is missing or refused."""
    parcel = os.path.join(HERE, "..", "examples", "parcel")
    for name, file in (("s", "schema.scd"), ("d", "dictionary.dic"), ("a", "sheet.vec"), ("same", "same_plan.vec")):
        with open(os.path.join(parcel, file), "rb") as source:
            room.write(name, source.read())
    room.write("b", room.read("a").replace(b"ATVSA04:A 12", b"ATVSA04:A 13"))
    room.write("bad", "")
    sheets = ["s", "d", "a", "b"]
    none = b"0 only in A, 0 only in B, 0 changed\n"
    nothing = (0, b"records: " + none, b"")
    counts = b"0 only in A, 0 only in B, 2 changed\n"
    found = (1, b"~ FEA Objet_1 Objet_1 (lines 39 and 39): attributes\n~ LNK Lien_7 Lien_7 (lines 98 and 98): linked records\n" + counts, b"")
    room.expect("no difference", ["diff", "s", "d", "a", "a"], nothing)
    room.expect("no difference between two exports", ["diff", "s", "d", "a", "same"], nothing)
    room.expect("no difference, in brief", ["diff", "--brief", "s", "d", "a", "same"], (0, none, b""))
    room.expect("another value", ["diff", "--records", *sheets], found)
    room.expect("another value, in brief", ["diff", *sheets, "--brief"], (1, counts, b""))
    room.expect("another value, with the usual kinds", ["diff", "--kinds", "IND,FND,LPO,RPO", *sheets, "--records"], found)
    by_objects(room)
    as_json(room, sheets)
    room.write("set", room.read("a").replace(b"CSET 03:IRV\n", b""))
    room.expect("another character set", ["diff", "s", "d", "a", "set"], (1, b"~ CSE IRV none\n" + nothing[1], b""))
    room.expect("another character set, in brief", ["diff", "--brief", "s", "d", "a", "set"], (1, b"~ CSE IRV none\n" + none, b""))
    for at, name in enumerate(sheets):
        words = list(sheets)
        words[at] = "-"
        room.expect(f"diff with {name} on standard input", ["diff", "--records", *words], found, room.read(name))
        for other in ("x", "."):
            words[at] = other
            as_compare(room, words, 4)
            as_compare(room, [*words[:3], "y"], 4)
    for words in (["bad", "d", "a", "b"], ["s", "bad", "a", "b"], ["s", "d", "bad", "bad"], ["s", "d", "a", "bad"], ["--kinds", "XA,XB,XC,IND", *sheets]):
        as_compare(room, words, 2)
    room.expect("the second sheet is refused", ["diff", "s", "d", "a", "bad"], (2, b"refused second 106 line 1\n", b""))
    with open("/dev/full", "wb") as full:
        for words in (sheets, ["s", "d", "a", "same"], ["--brief", *sheets]):
            status, _, err = room.run(["diff", *words], stdout=full)
            room.report.check(f"diff of {words} to a full output", (status, err.split(b"\n")[0]), (4, b"cannot write standard output"))
        as_compare(room, ["s", "d", "bad", "b"], 4, stdout=full)


def terminal(room):
    """Without words on a terminal, a line says what is awaited."""
    awaited = b"reading SCD, DIC and VEC from the terminal, one after the other; edicad --help says more\n"
    for words, wanted in (([], (2, b"refused scd 106 line 1\n", awaited)), (["check", "s", "d", "-"], (2, b"refused 106 line 1\n", b""))):
        master, slave = pty.openpty()
        os.write(master, b"\x04")
        room.report.check(f"{words} on a terminal that gives nothing", room.run(words, stdin=slave), wanted)
        os.close(slave)
        os.close(master)
    room.report.check("no words on a device", room.run([], stdin=subprocess.DEVNULL), (2, b"refused scd 106 line 1\n", b""))


def plain(row):
    """A line of the manual page, as `man` shows it."""
    row = re.sub(r"\\f[BIR]|\\&", "", row.strip()).replace("\\-", "-")
    return "".join(shlex.split(row)[1:]) if re.match(r"\.(B|I|BI|BR|IR|RI) ", row) else row


def items(page, section):
    """The items of a section of the manual page: their tags, and the text of each."""
    rows = page[page.index(f'.SH {section}') + 1 :]
    found = []
    for at, row in enumerate(rows):
        if row in (".PP",) or row.startswith(".SH"):
            break
        if row == ".TP":
            found.append((rows[at + 1], []))
        elif rows[at - 1] != ".TP":
            found[-1][1].append(row)
    return {tag: " ".join(text) for tag, text in found}


def helped(text, part):
    """The names that stand in a part of a help."""
    rows = re.search(rf"^{part}:\n((?:  .*\n)*)", text, re.M)
    return [re.split(r"  +", it.strip())[0] for it in rows[1].splitlines()] if rows else []


# What each exit status means, as the help says it, and as the manual page does.
STATUSES = {
    "0": ("accepted, the same, or a file that pairs",
          "The sheet is accepted, the two state the same plan, or the file pairs them; of hash and delivery, each sheet has a digest; of changed, hash --check and delivery --check, each digest is the same."),
    "1": ("different, or a file that doesn't pair", "The two sheets state different plans, or the file doesn't pair them; of changed, hash --check and delivery --check, a digest is new, gone or another."),
    "2": ("refused", "The schema, a sheet, the file of a pairing, a list of digests or a manifest is refused."),
    "3": ("wrong words", "The words of the command are wrong."),
    "4": ("a file can't be read or written", "A file can't be read or written."),
    "5": ("out of memory", "Memory ran out."),
}


def commands_of(said):
    """The commands of which the text of an option speaks: `Of a, b and c: ..`."""
    return {it for names in re.findall(r"\bOf ([a-z, ]+):", said) for it in re.split(r", | and ", names)}


def manual(room):
    """The manual page has the usage lines, the commands, the options and the exit statuses that the program prints."""
    check = room.report.check
    with open(os.path.join(HERE, "..", "docs", "edicad.1"), encoding="utf-8") as file:
        page = [plain(it) for it in file]
    top = room.run(["--help"])[2].decode()
    commands = [it for it in helped(top, "Commands") if it != "help"]
    check("the commands of the manual page", list(items(page, "COMMANDS")), helped(top, "Commands"))
    synopsis = [it for it in page[page.index(".SH SYNOPSIS") : page.index(".SH DESCRIPTION")] if it.startswith("edicad")]
    texts = {"edicad": top, **{it: room.run([it, "--help"])[2].decode() for it in commands}}
    check("the usage lines", [it for text in texts.values() for it in re.findall(r"^Usage: (.*)", text, re.M)], synopsis)
    options = items(page, "OPTIONS")
    for name, text in texts.items():
        own = [it for it, said in options.items() if name in commands_of(said)]
        shared = {"edicad": ["-h, --help", "-V, --version"], "changed": ["-h, --help"]}.get(name, ["--kinds I,F,L,R", "-h, --help"])
        check(f"{name}: its options", sorted(it.replace("<", "").replace(">", "") for it in helped(text, "Options")), sorted(own + shared))
    known = {it for text in texts.values() for it in helped(text, "Options")}
    check("options of the manual page alone", sorted(set(options) - {re.sub("[<>]", "", it) for it in known}), [])
    for name in commands:
        room.expect(f"help {name}", ["help", name], (0, b"", texts[name].encode()))
    said = dict(re.findall(r"^(?:Exit status:)? +(\d) (.*)", top[top.find("Exit status:") :], re.M))
    check("the exit statuses of the help", said, {status: text for status, (text, _) in STATUSES.items()})
    check("the exit statuses of the manual page", items(page, '"EXIT STATUS"'), {status: text for status, (_, text) in STATUSES.items()})
