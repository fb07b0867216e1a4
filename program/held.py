"""What `hash --check` says: of digests that are still those that are found, of others, of sheets and lists that can't be read, and of full streams."""
import os

from room import unread


def held(room, sheet, canonical):
    """Each answer, with its status, and the lines on both streams."""
    room.write("v", sheet)
    room.write("w", canonical)
    room.write("bad", b"")
    made = room.run(["hash", "--schema", "s", "d", "v", "w"])[1]
    room.write("list", made)
    command = ["hash", "--check", "list", "s", "d"]
    all_fine = b"schema s: OK\nv: OK\nw: OK\n"
    room.expect("a list that was just made", command, (0, all_fine, b""))
    room.expect("the list on standard input", ["hash", "--check", "-", "s", "d"], (0, all_fine, b""), made)
    room.expect("the option behind the files", ["hash", "s", "d", "--check=list"], (0, all_fine, b""))
    schema, one, two = made.splitlines(keepends=True)
    room.write("list", two + one + two)
    room.expect("in the order of the list, a name twice", command, (0, b"w: OK\nv: OK\nw: OK\n", b""))
    room.write("list", b"")
    room.expect("a list of nothing", command, (0, b"", b""))
    of_other_digests(room, command, made)
    of_names(room, command, one)
    of_no_list(room, command, made)
    of_words(room)
    of_streams(room, command, made)


def of_other_digests(room, command, made):
    """Digests that are not those that are found, and sheets that have none."""
    schema, one, two = made.splitlines(keepends=True)
    other = b"0" * 64
    room.write("list", schema + one.replace(one[:64], other) + two)
    room.expect("another digest of a sheet", command, (1, b"schema s: OK\nv: FAILED\nw: OK\n", b""))
    room.write("list", b"schema " + other + b"  s\n" + one)
    room.expect("another digest of the schema", command, (1, b"schema s: FAILED\nv: OK\n", b""))
    room.write("list", one + one.replace(b"  v", b"  bad") + two)
    room.expect("a refused sheet", command, (2, b"v: OK\nbad: FAILED\nw: OK\n", b"bad: refused 106 line 1\n"))
    room.write("list", one.replace(b"  v", b"  x") + one.replace(one[:64], other) + two)
    gone = b"x: cannot read\nedicad: x: no such file\n"
    room.expect("a sheet that is gone, and another digest", command, (4, b"x: FAILED\nv: FAILED\nw: OK\n", gone))
    room.write("list", schema.replace(b"  s", b"  gone") + one)
    room.expect("the name of a schema is only said", command, (0, b"schema gone: OK\nv: OK\n", b""))
    exchanged = room.read("s").replace(b"LPO", b"XPO").replace(b"RPO", b"LPO").replace(b"XPO", b"RPO")
    room.write("x", exchanged)
    room.write("list", schema + one)
    room.expect("under another schema", ["hash", "--check", "list", "x", "d"], (1, b"schema s: FAILED\nv: OK\n", b""))
    os.remove(room.path("x"))
    note = b"edicad: s: no class for initial node, final node, left face, right face: see --kinds\n"
    room.expect("under other kinds", ["hash", "--kinds=W,X,Y,Z", "--check", "list", "s", "d"], (1, b"schema s: FAILED\nv: OK\n", note))


def of_names(room, command, one):
    """Names with escapes, of standard input and of bytes that are no text."""
    room.write("a\nb", room.read("v"))
    room.write("list", b"\\" + one.replace(b"  v", b"  a\\nb"))
    room.expect("a name with an escape", command, (0, b"\\a\\nb: OK\n", b""))
    os.remove(room.path("a\nb"))
    room.expect("the same where it is gone", command, (4, b"\\a\\nb: FAILED\n", b"\\a\\nb: cannot read\nedicad: a\\nb: no such file\n"))
    room.write("list", one.replace(b"  v", b"  -") + one)
    standard = b"edicad: the list names standard input, which is not read\n"
    room.expect("the name of standard input", command, (4, b"-: FAILED\nv: OK\n", standard), room.read("v"))
    room.write("list", one.replace(b"  v", b"  \xe9") + one)
    no_text = b"edicad: the list names a file by a path that is not UTF-8\n"
    room.expect("a name that is no text", command, (4, b"\xe9: FAILED\nv: OK\n", no_text))


def of_no_list(room, command, made):
    """What is no list, or can't be read, is said before anything else is opened."""
    for name, text in (("cut", made[:-1]), ("of sums", made.replace(b"  v", b" *v")), ("a manifest", b"edicad manifest 1\n"), ("a sheet", room.read("v"))):
        room.write("list", text)
        room.expect(f"no list: {name}", ["hash", "--check", "list", "x", "y"], (2, b"", b"list: no list of digests\n"))
    room.expect("a list that is gone", ["hash", "--check", "x", "s", "d"], (4, b"", unread("x").replace(b"cannot read x", b"x: cannot read")))
    room.write("list", made)
    room.expect("a refused schema", ["hash", "--check", "list", "bad", "d"], (2, b"", b"bad: refused scd 106 line 1\n"))
    room.expect("a schema that is gone", ["hash", "--check", "list", "x", "d"], (4, b"", b"x: cannot read\nedicad: x: no such file\n"))


def of_words(room):
    """Arguments that make no sense."""
    for name, words in (("a sheet", ["--check", "list", "s", "d", "v"]), ("the schema", ["--schema", "--check", "list", "s", "d"])):
        room.expect(f"a list and {name}", ["hash", *words], (3, b"", b"hash --check LIST takes SCD and DIC alone\n"))
    room.expect("two inputs by -", ["hash", "--check", "-", "-", "d"], (3, b"", b"only one input can be -\n"))


def of_streams(room, command, made):
    """Streams that are full or closed."""
    room.write("list", made.splitlines(keepends=True)[1].replace(b"  v", b"  x") + made)
    gone = b"x: cannot read\nedicad: x: no such file\n"
    with open("/dev/full", "wb") as full:
        room.expect("a full output ends it", command, (4, None, gone + b"cannot write standard output\n"), stdout=full)
        room.report.check("a full stream of errors", room.run(command, stderr=full)[:2], (4, b"x: FAILED\nschema s: OK\nv: OK\nw: OK\n"))
    room.expect("a closed output", command, (4, b"", gone + b"cannot write standard output\n"), preexec_fn=lambda: os.close(1))
