"""Each command with a small stack: no proof bounds what a run needs of it (docs/ASSUMPTIONS.md)."""
import os
import resource
import shutil

EXAMPLES = os.path.join(os.path.dirname(os.path.abspath(__file__)), "..", "examples")
# how many bytes of stack a run gets
STACK = 640 * 1024
# The words of each run, and its status. The sheet is `v`, `w` states the same plan, and `x` has a parcel that is named otherwise.
RUNS = [
    (["check", "s", "d", "v"], 0),
    (["check", "--json", "s", "d", "v"], 0),
    (["check", "s", "d", "bad"], 2),
    (["canon", "s", "d", "v", "made"], 0),
    (["hash", "s", "d", "v", "w", "x", "bad"], 2),
    (["explain", "s", "d", "v"], 0),
    (["explain", "s", "d", "bad"], 2),
    (["explain", "--all", "s", "d", "v", "bad"], 2),
    (["compare", "s", "d", "v", "w"], 0),
    (["compare", "s", "d", "v", "x"], 1),
    (["compare", "--pairing", "made", "s", "d", "v", "w"], 0),
    (["verify", "s", "d", "v", "w", "pairing"], 0),
    (["diff", "s", "d", "v", "x"], 1),
    (["diff", "--json", "s", "d", "v", "x"], 1),
    (["diff", "--picture", "made", "s", "d", "v", "x"], 1),
    (["draw", "s", "d", "v", "made"], 0),
    (["delivery", "delivery"], 0),
    (["delivery", "--manifest", "made", "delivery"], 0),
    (["changed", "list", "list"], 0),
]


def limited():
    resource.setrlimit(resource.RLIMIT_STACK, (STACK, STACK))


def prepare(room):
    """The parcel of the examples, a sheet that states the same plan, one that differs and one that is refused; a pairing, a delivery and a list."""
    for name, file in (("s", "schema.scd"), ("d", "dictionary.dic"), ("v", "sheet.vec"), ("w", "same_plan.vec")):
        shutil.copy(os.path.join(EXAMPLES, "parcel", file), room.path(name))
    sheet = room.read("v").decode("latin-1")
    lines = sheet.split("\n")
    last = max(at for at, line in enumerate(lines) if line.startswith("ATV"))
    room.write("x", "\n".join([*lines[:last], lines[last].rstrip("\r")[:-1] + "7" + "\r" * lines[last].endswith("\r"), *lines[last + 1 :]]))
    room.write("bad", sheet.replace("RTYSA03:PNO", "RTYSA03:PNX", 1))
    shutil.copytree(os.path.join(EXAMPLES, "delivery"), room.path("delivery"))
    room.expect("a pairing to be verified", ["compare", "--pairing", "pairing", "s", "d", "v", "w"], (0, b"same\n", b""))
    room.write("list", room.run(["hash", "s", "d", "v", "w"])[1])


def stacks(room):
    prepare(room)
    for words, status in RUNS:
        room.write("made", b"")
        wanted = (*room.run(words), room.read("made"))
        room.write("made", b"")
        name = " ".join(words)
        room.report.check(f"{name}: its status", wanted[0], status)
        room.report.check(f"{name}, with {STACK // 1024} KiB of stack", (*room.run(words, preexec_fn=limited), room.read("made")), wanted)
