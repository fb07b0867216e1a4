"""Folders, disks and limits that stand in the way, the greatest sheet, and runs that are killed."""
import os
import resource
import signal
import subprocess
import time

from room import drafts, unread, unwritten

NOBODY = 65534


def nobody():
    """From here on, as a user who may do little."""
    if os.geteuid() == 0:
        os.setgroups([])
        os.setgid(NOBODY)
        os.setuid(NOBODY)


def hostile_folders(room, sheet):
    """A folder that can't be written to, a file that can't be, a file system without space, and a limit on files."""
    report = room.report
    room.write("v", sheet)
    os.mkdir(room.path("locked"))
    room.write("locked/o", "old")
    os.chmod(room.path("locked/o"), 0o666)
    os.chmod(room.path("locked"), 0o555)
    room.expect("OUT in a folder that is read-only", ["canon", "s", "d", "v", "locked/o"], (4, b"", unwritten("locked/o", "not permitted")), preexec_fn=nobody)
    room.expect("a new OUT in a folder that is read-only", ["canon", "s", "d", "v", "locked/new"], (4, b"", unwritten("locked/new", "not permitted")), preexec_fn=nobody)
    room.expect("a picture in a folder that is read-only", ["draw", "s", "d", "v", "locked/o"], (4, b"", unwritten("locked/o", "not permitted")), preexec_fn=nobody)
    room.expect("a picture of what differs in a folder that is read-only", ["diff", "--picture", "locked/new", "s", "d", "v", "v"], (4, b"", unwritten("locked/new", "not permitted")), preexec_fn=nobody)
    report.check("a folder that is read-only", (sorted(os.listdir(room.path("locked"))), room.read("locked/o")), (["o"], b"old"))
    os.chmod(room.path("locked"), 0o755)
    os.mkdir(room.path("open"))
    os.chmod(room.path("open"), 0o777)
    room.write("open/o", "old")
    os.chmod(room.path("open/o"), 0o444)
    room.expect("OUT is read-only", ["canon", "s", "d", "v", "open/o"], (4, b"", unwritten("open/o", "not permitted")), preexec_fn=nobody)
    report.check("OUT that is read-only", (os.listdir(room.path("open")), room.read("open/o")), (["o"], b"old"))

    room.write("secret", sheet)
    os.chmod(room.path("secret"), 0)
    room.expect("a file that may not be read", ["check", "s", "d", "secret"], (4, b"", unread("secret", "not permitted")), preexec_fn=nobody)
    room.expect("a sheet that may not be read", ["hash", "s", "d", "secret"], (4, b"", b"secret: cannot read\nedicad: secret: not permitted\n"), preexec_fn=nobody)

    def limited():
        signal.signal(signal.SIGXFSZ, signal.SIG_IGN)
        resource.setrlimit(resource.RLIMIT_FSIZE, (40, 40))

    room.write("o", "old")
    room.expect("a file that can't grow", ["canon", "s", "d", "v", "o"], (4, b"", unwritten("o", "file too large")), preexec_fn=limited)
    report.check("OUT where a file can't grow", (room.read("o"), drafts(room.folder)), (b"old", []))


def full_disk(room, sheet):
    """A small file system that is full, and then read-only."""
    report = room.report
    room.write("v", sheet)
    disk = room.path("disk")
    os.mkdir(disk)
    mounted = subprocess.run(["mount", "-t", "tmpfs", "-o", "size=1m", "tmpfs", disk], capture_output=True)
    report.check("a file system can be mounted (--without mount leaves out what needs it)", mounted.returncode, 0)
    if mounted.returncode != 0:
        print(mounted.stderr.decode(errors="replace"), flush=True)
        return
    try:
        fill(room, disk)
        room.expect("OUT on a full disk", ["canon", "s", "d", "v", "disk/o"], (4, b"", unwritten("disk/o", "no space left")))
        report.check("OUT of a full disk", (room.read("disk/o"), sorted(os.listdir(disk))), (b"old", ["fill", "o"]))
        locked = subprocess.run(["mount", "-o", "remount,ro", disk], capture_output=True)
        report.check("a file system can be made read-only", locked.returncode, 0)
        room.expect("OUT on a disk that is read-only", ["canon", "s", "d", "v", "disk/o"], (4, b"", unwritten("disk/o", "read-only file system")))
    finally:
        subprocess.run(["umount", disk], check=True)


def fill(room, disk):
    room.write("disk/o", "old")
    file = os.open(os.path.join(disk, "fill"), os.O_WRONLY | os.O_CREAT)
    try:
        while os.write(file, b"x" * 4096):
            pass
    except OSError:
        pass
    os.close(file)


def most_records(room):
    """One record more than a file may have."""
    with open(room.path("many"), "wb") as file:
        file.write(b"BOMT 01:X\n" + b"RTYSA03:PNO\n" * 10_000_000 + b"EOMT 00:\n")
    refused = (2, b"refused 110 line 10000001\n", b"")
    room.expect("refused 110", ["check", "s", "d", "many"], refused)
    room.write("o", "kept")
    room.expect("refused 110 by canon", ["canon", "s", "d", "many", "o"], refused)
    room.report.check("OUT of 110", room.read("o"), b"kept")
    os.remove(room.path("many"))


def nodes(count):
    """A sheet of so many nodes."""
    lines = ["BOMT 01:X\n"]
    for number in range(count):
        lines.append(f"RTYSA03:PNO\nRIDSA07:{number:07}\nSCPCP22:EDAB01;SeSD;PGE;NOD_id\nCORCC10:{number:07};0;\n")
    return "".join(lines + ["EOMT 00:\n"])


# A run is killed until each outcome was seen so often, in so many runs at most. It is a run over the first of these numbers
# of nodes over which a run takes no longer than so many seconds, or over the last.
SEEN, MOST_KILLS = 20, 300
SIZES, LONGEST = (60_000, 12_000, 2_400), 0.5


def kills(room):
    """A run over a large sheet, killed at many moments: OUT has its old bytes or all the new ones."""
    report = room.report
    took, answers = measured(room)
    report.check("runs over a large sheet", answers, {(0, b"accepted\n", b"")})
    whole = room.read("whole")
    for before in (b"old", None):
        counts = killed(room, took, before, whole)
        report.check(f"killed runs over {before} that leave another OUT", counts["other"], 0)
        report.holds(f"killed runs over {before} of both outcomes, {SEEN} times each in {MOST_KILLS} runs", min(counts["before"], counts["whole"]) >= SEEN)
        print(f"{sum(counts.values())} kills over {before}: {counts}", flush=True)
    others = sorted(name for name in os.listdir(room.folder) if not name.startswith(".edicad") and name != "o")
    report.check("killed runs leave the other files", others, ["d", "large", "s", "whole"])
    print(f"{len(drafts(room.folder))} drafts were left behind", flush=True)
    room.expect("a run after killed ones", ["canon", "s", "d", "large", "o"], (0, b"accepted\n", b""))
    report.check("a run after killed ones: OUT", room.read("o") == whole, True)


def measured(room):
    """Writes a large sheet; the middle one of the times of five runs over it, and what they answered."""
    answers = set()
    for count in SIZES:
        room.write("large", nodes(count))
        took = []
        while len(took) < 5 and (count == SIZES[-1] or max(took, default=0) <= 2 * LONGEST):
            started = time.monotonic()
            answers.add(room.run(["canon", "s", "d", "large", "whole"]))
            took.append(time.monotonic() - started)
        if sorted(took)[len(took) // 2] <= LONGEST:
            break
    return sorted(took)[len(took) // 2], answers


def killed(room, took, before, whole):
    """How often each outcome came, of runs that are killed: by turns at a moment of the whole run, and about where the outcome
    changes, which each such kill brings nearer. So it doesn't matter how good the measured time was."""
    counts, edge = {"before": 0, "whole": 0, "other": 0}, took
    for number in range(MOST_KILLS):
        if before is not None:
            room.write("o", before)
        elif os.path.exists(room.path("o")):
            os.remove(room.path("o"))
        run = subprocess.Popen([room.program, "canon", "s", "d", "large", "o"], cwd=room.folder, stdout=subprocess.DEVNULL)
        near = number % 2 == 1
        # the fractions of the multiples of this number spread evenly, however many there are
        time.sleep(edge if near else 1.5 * edge * (number * 0.3090169944 % 1))
        run.kill()
        run.wait()
        left = room.read("o")
        found = "before" if left == before else "whole" if left == whole else "other"
        counts[found] += 1
        if near:
            edge *= 1.05 if found == "before" else 0.95
        if number >= 49 and min(counts["before"], counts["whole"]) >= SEEN:
            break
    return counts
