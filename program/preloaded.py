"""Runs with a small library before the C library: the order in which files are stored and renamed, a file that can't be stored or
renamed, and growths of memory that are refused."""
import os
import signal
import subprocess

from room import drafts, line

HERE = os.path.dirname(os.path.abspath(__file__))
GROWTH = os.path.join(HERE, "..", "growth")

# each command that makes a file, and what it answers where that goes well
MAKERS = {
    "canon": (lambda out: ["canon", "s", "d", "v", out], b"accepted\n"),
    "draw": (lambda out: ["draw", "s", "d", "v", out], b"accepted\n"),
    "compare --pairing": (lambda out: ["compare", "--pairing", out, "s", "d", "v", "v"], b"same\n"),
    "diff --picture": (lambda out: ["diff", "--picture", out, "s", "d", "v", "v"], b"records: 0 only in A, 0 only in B, 0 changed\n"),
}
# more growths of memory than a run that explains a rule makes
MOST_GROWTHS = 1000


def made_files(room, sheet):
    """Each file that is made: as it should be, and where it can't be stored or renamed."""
    room.write("v", sheet)
    order = compiled(room, HERE, "preload.c", "preload")
    if order is None:
        return
    os.mkdir(room.path("made"))
    for name, (words_of, said) in MAKERS.items():
        for before in (b"old", None):
            made_file(room, order, f"{name} over {before}", words_of("made/o"), said, "made/o", before)
    os.symlink("o", room.path("made/near"))
    made_file(room, order, "canon to a link", ["canon", "s", "d", "v", "made/near"], b"accepted\n", "made/o", b"old")
    for closed in ((0,), (1,), (2,), (0, 1), (0, 2), (1, 2), (0, 1, 2)):
        beside_closed(room, order, closed)


def compiled(room, folder, name, part):
    """A library, compiled from this file into the room; or nothing, and why."""
    library = room.path(name + ".so")
    try:
        made = subprocess.run(["cc", "-O1", "-shared", "-fPIC", os.path.join(folder, name), "-o", library, "-ldl"], capture_output=True)
        why = made.stderr.decode(errors="replace") if made.returncode else None
    except OSError as error:
        why = str(error)
    room.report.check(f"{name} can be compiled by cc (--without {part} leaves out what needs it)", why, None)
    return library if why is None else None


def noted(room, library, words, preexec_fn=None, **environment):
    """The answer of a run with this library and environment, and the lines that the library noted."""
    reading, writing = os.pipe()
    settings = dict(os.environ, LD_PRELOAD=library, NOTES=str(writing), **environment)
    answer = room.run(words, env=settings, pass_fds=[writing], preexec_fn=preexec_fn)
    os.close(writing)
    with os.fdopen(reading) as notes:
        return answer, notes.read().splitlines()


def made_file(room, library, name, words, said, out, before):
    """A file that is stored before it is renamed. Where either fails, OUT is as it was, and nothing new is beside it."""
    check = room.report.check

    def begun():
        if room.read(out) is not None:
            os.remove(room.path(out))
        if before is not None:
            room.write(out, before)
        return sorted(os.listdir(room.path("made")))

    begun()
    answer, notes = noted(room, library, words)
    check(name + ": with the library", answer, (0, said, b""))
    made = os.stat(room.path(out)).st_ino
    check(name + ": stored, and then renamed", notes, [f"stored {made}", f"renamed {made}"])
    for failing, steps in (("renamed", ["stored", "renamed"]), ("stored", ["stored"])):
        names = begun()
        answer, notes = noted(room, library, words, FAILS=failing)
        check(f"{name}: can't be {failing}", answer, (4, b"", line("cannot write " + words_out(words))))
        check(f"{name}: can't be {failing}, steps", [it.split()[0] for it in notes], steps)
        check(f"{name}: can't be {failing}, files", (room.read(out), sorted(os.listdir(room.path("made")))), (before, names))
    for ending in ("stored", "renamed"):
        names = begun()
        answer, _ = noted(room, library, words, ENDS=ending)
        left = sorted(set(os.listdir(room.path("made"))) - set(names))
        check(f"{name}: ended before it is {ending}", (answer[0], room.read(out), left), (-signal.SIGTERM, before, [".edicad-0.tmp"]))
        room.expect(f"{name}: after a run that was ended", words, (0, said, b""))
        check(f"{name}: after a run that was ended, files", drafts(room.path("made")), [])


def beside_closed(room, library, closed):
    """A new file takes the place of no standard stream that is closed."""
    def close():
        for stream in closed:
            os.close(stream)

    unsaid = b"" if 2 in closed else b"cannot write standard output\n"
    wanted = (4, b"", unsaid) if 1 in closed else (0, b"accepted\n", b"")
    answer, notes = noted(room, library, ["canon", "s", "d", "v", "made/o"], preexec_fn=close)
    made = os.stat(room.path("made/o")).st_ino
    room.report.check(f"canon where {closed} are closed", (answer, notes), (wanted, [f"stored {made}", f"renamed {made}"]))


def words_out(words):
    """The word that names what is made."""
    (out,) = (it for it in words if it.startswith("made/"))
    return out


def refused_growths(room):
    """Each growth of memory of a short run, refused in turn: the answer, or lack of memory, which is said."""
    check = room.report.check
    library = compiled(room, GROWTH, "refuse.c", "growths")
    if library is None:
        return
    words = ["explain", "403"]
    whole, lacking, wrong, refused = room.run(words), (5, b"", b"out of memory\n"), [], 0
    while refused < MOST_GROWTHS:
        answer, notes = noted(room, library, words, REFUSE=str(refused + 1))
        if not notes:
            break
        refused += 1
        if answer not in (whole, lacking):
            wrong.append((refused, answer))
    room.report.holds("some growth of memory is refused", refused > 0)
    check("growths of memory refused: other answers", wrong, [])
    check("growths of memory refused: the run that meets none", (answer, notes), (whole, []))
