"""What `changed` says: of manifests and lists of digests, of names that are new, gone, changed or there twice, and of files that are neither."""
import hashlib

DIGITS = "0123456789abcdef"


def digest(number):
    """Some digest, by a number."""
    return DIGITS[number % 16] * 64


def listed(*entries):
    """A list of digests: of names, with an `s` before the number where it is that of a schema."""
    lines = []
    for name, number in entries:
        shown = name.replace("\\", "\\\\").replace("\n", "\\n").replace("\r", "\\r")
        word = "schema " if isinstance(number, str) else ""
        lines.append(f"{word}{'' if shown == name else chr(92)}{digest(int(str(number).strip('s')))}  {shown}\n")
    return "".join(lines).encode()


def manifest(*entries):
    """A manifest with these names, words and digests."""
    body = b"edicad manifest 1\n" + b"".join(sorted(f"{name} {word} {digest(number)}\n".encode() for name, word, number in entries))
    return body + f"digest {hashlib.sha256(body).hexdigest()}\n".encode()


def counts(new, gone, other, same):
    return f"{new} new, {gone} gone, {other} changed, {same} the same\n".encode()


NEITHER = b": neither a manifest nor a list of digests\n"


def changes(room):
    """Each answer, with its status, and the lines on both streams."""
    before = listed(("a.vec", 1), ("b.vec", 2), ("c.vec", 3), ("x.scd", "s4"))
    room.write("before", before)
    of_lists(room, before)
    of_manifests(room)
    of_names(room)
    of_neither(room, before)


def of_lists(room, before):
    for name, after, out in (
            ("the same list", before, counts(0, 0, 0, 4)),
            ("in another order", listed(("x.scd", "s4"), ("c.vec", 3), ("b.vec", 2), ("a.vec", 1)), counts(0, 0, 0, 4)),
            ("one is new", before + listed(("d.vec", 5)), b"new sheet d.vec\n" + counts(1, 0, 0, 4)),
            ("one is gone", listed(("a.vec", 1), ("c.vec", 3), ("x.scd", "s4")), b"gone sheet b.vec\n" + counts(0, 1, 0, 3)),
            ("one has changed", listed(("a.vec", 1), ("b.vec", 9), ("c.vec", 3), ("x.scd", "s4")), b"changed sheet b.vec\n" + counts(0, 0, 1, 3)),
            ("the schema has changed", listed(("a.vec", 1), ("b.vec", 2), ("c.vec", 3), ("x.scd", "s5")), b"changed schema x.scd\n" + counts(0, 0, 1, 3)),
            ("a sheet by the name of the schema", listed(("a.vec", 1), ("b.vec", 2), ("c.vec", 3), ("x.scd", 4)), b"gone schema x.scd\nnew sheet x.scd\n" + counts(1, 1, 0, 3)),
            ("all at once", listed(("b.vec", 3), ("c.vec", 3), ("z.vec", 0), ("0.vec", 0)),
             b"gone schema x.scd\nnew sheet 0.vec\ngone sheet a.vec\nchanged sheet b.vec\nnew sheet z.vec\n" + counts(2, 2, 1, 1)),
            ("nothing", b"", b"gone schema x.scd\ngone sheet a.vec\ngone sheet b.vec\ngone sheet c.vec\n" + counts(0, 4, 0, 0))):
        room.write("after", after)
        room.expect(f"lists: {name}", ["changed", "before", "after"], (0 if out.endswith(b"the same\n") and out.count(b"\n") == 1 else 1, out, b""))
    room.expect("lists: one on standard input", ["changed", "before", "-"], (0, counts(0, 0, 0, 4), b""), before)
    room.write("after", b"")
    room.expect("lists: two that are empty", ["changed", "after", "after"], (0, counts(0, 0, 0, 0), b""))
    with open("/dev/full", "wb") as full:
        room.expect("lists: a full output", ["changed", "before", "after"], (4, None, b"cannot write standard output\n"), stdout=full)


def of_manifests(room):
    parts = [("E.GEO", "coordinates", 1), ("E.SCD", "schema", 2), ("T1.VEC", "sheet", 3), ("T2.VEC", "sheet", 4)]
    room.write("m", manifest(*parts))
    for name, after, status, out in (
            ("the same", manifest(*parts), 0, counts(0, 0, 0, 4)),
            ("each part", manifest(("E.GEO", "coordinates", 2), ("E.SCD", "schema", 3), ("T1.VEC", "sheet", 5), ("T3.VEC", "sheet", 4)), 1,
             b"changed coordinates E.GEO\nchanged schema E.SCD\nchanged sheet T1.VEC\ngone sheet T2.VEC\nnew sheet T3.VEC\n" + counts(1, 1, 3, 0)),
            ("a list", listed(("T2.VEC", 4), ("T1.VEC", 3), ("E.SCD", "s2")), 1, b"gone coordinates E.GEO\n" + counts(0, 1, 0, 3))):
        room.write("after", after)
        room.expect(f"manifests: {name}", ["changed", "m", "after"], (status, out, b""))


def of_names(room):
    """Names with escapes, and names that are there twice."""
    for name, before, after, status, out in (
            ("escapes", listed(("a\nb", 1), ("c\\d", 2)), listed(("a\nb", 3), ("e\rf", 2)), 1, b"\\changed sheet a\\nb\n\\gone sheet c\\\\d\n\\new sheet e\\rf\n" + counts(1, 1, 1, 0)),
            ("spaces", listed((" a  b ", 1)), listed((" a  b ", 1)), 0, counts(0, 0, 0, 1)),
            ("bytes that are no text", b"0" * 64 + b"  \xff\n", b"1" * 64 + b"  \xff\n", 1, b"changed sheet \xff\n" + counts(0, 0, 1, 0)),
            ("twice, in another order", listed(("a", 1), ("a", 2)), listed(("a", 2), ("b", 3), ("a", 1)), 1, b"new sheet b\n" + counts(1, 0, 0, 1)),
            ("twice, and once", listed(("a", 1), ("a", 1)), listed(("a", 1)), 1, b"changed sheet a\n" + counts(0, 0, 1, 0))):
        room.write("one", before)
        room.write("other", after)
        room.expect(f"names: {name}", ["changed", "one", "other"], (status, out, b""))


def of_neither(room, before):
    good = manifest(("T1.VEC", "sheet", 3))
    for name, text in (("no line feed", before[:-1]), ("capitals", b"A" * 64 + b"  a\n"), ("63 digits", b"0" * 63 + b"  a\n"), ("one space", b"0" * 64 + b" a\n"),
                       ("a mark that isn't needed", b"\\" + b"0" * 64 + b"  a\n"), ("no mark", b"0" * 64 + b"  a\\\\b\n"), ("an escape of another letter", b"\\" + b"0" * 64 + b"  a\\tb\n"),
                       ("another word", b"sheet " + b"0" * 64 + b"  a\n"), ("an empty line", before + b"\n"), ("carriage returns", before.replace(b"\n", b"\r\n")),
                       ("a manifest without its last line", good[:good.index(b"digest ")]), ("a manifest with another digest", good.replace(b"33", b"44", 1))):
        room.write("bad", text)
        room.expect(f"neither: {name}", ["changed", "before", "bad"], (2, b"", b"bad" + NEITHER))
    room.expect("neither: the first", ["changed", "bad", "none"], (2, b"", b"bad" + NEITHER))
    room.expect("a file that is missing", ["changed", "none", "bad"], (4, b"", b"none: cannot read\nedicad: none: no such file\n"))
    room.expect("the second is missing", ["changed", "before", "none"], (4, b"", b"none: cannot read\nedicad: none: no such file\n"))
