"""What a terminal is shown of a run over many deliveries or lots: how many of how many are done."""
import os
import pty
import re
import shutil
import threading
import time

from delivered import DELIVERY, missing
from manifested import two_lots

# Nothing is shown in the first second. A pipe in place of a sheet gives it after that.
SLOW = 1.4
WIPE = b"\x1b[K"
SHOWN = rb"\d+ of \d+ done(?:, \d+ with errors)?\r"


def piped(room, path):
    """Puts a pipe in the place of a sheet, and gives what feeds it once it is read."""
    at = room.path(path)
    with open(at, "rb") as file:
        sheet = file.read()
    os.remove(at)
    os.mkfifo(at)

    def feed():
        time.sleep(SLOW)
        with open(at, "wb") as pipe:
            pipe.write(sheet)

    return feed


def seen(room, words, terminal="xterm", slow=None):
    """The status, standard output, and what a terminal got from standard error. Of counts that follow one another it is
    the first alone: a slow machine is shown more of them."""
    master, slave = pty.openpty()
    feeding = threading.Thread(target=slow or (lambda: None), daemon=True)
    feeding.start()
    status, out, _ = room.run(words, stderr=slave, env={**os.environ, "TERM": terminal})
    os.close(slave)
    got = b""
    try:
        while more := os.read(master, 65536):
            got += more
    except OSError:
        # the other end is closed, and all was read
        pass
    os.close(master)
    return status, out, re.sub(b"(" + SHOWN + b")(?:" + SHOWN + b")+", rb"\1", got.replace(b"\r\n", b"\n"))


def progress(room):
    """Paths and lots, on a terminal and elsewhere."""
    for folder in ("D", "S"):
        shutil.copytree(DELIVERY, room.path(folder))
    _, line, _ = room.run(["delivery", "D"])
    slow_line = line.replace(b"  D/", b"  S/")
    slow = piped(room, "S/EDAB01T1.VEC")
    paths(room, line, slow_line, slow)
    elsewhere(room, line, slow_line, slow)
    lots(room)


def paths(room, line, slow_line, slow):
    """Several paths."""
    check = room.report.check
    check("several paths on a terminal", seen(room, ["delivery", "D", "S", "D"], slow=slow), (0, line + slow_line + line, b"2 of 3 done\r" + WIPE))
    lost = missing("none")
    check("paths that aren't there", seen(room, ["delivery", "none", "S", "none"], slow=slow),
          (4, slow_line, lost + b"2 of 3 done, 1 with errors\r" + WIPE + lost))
    check("several paths in less than a second", seen(room, ["delivery", "D", "D", "D"]), (0, 3 * line, b""))
    check("one path", seen(room, ["delivery", "S"], slow=slow), (0, slow_line, b""))
    check("a terminal that wipes no line", seen(room, ["delivery", "D", "S", "D"], terminal="dumb", slow=slow), (0, line + slow_line + line, b""))


def elsewhere(room, line, slow_line, slow):
    """Where standard error is no terminal."""
    words = ["delivery", "D", "S", "D"]
    feeding = threading.Thread(target=slow, daemon=True)
    feeding.start()
    room.expect("standard error is a pipe", words, (0, line + slow_line + line, b""))
    master, slave = pty.openpty()
    feeding = threading.Thread(target=slow, daemon=True)
    feeding.start()
    status, _, err = room.run(words, stdin=slave, stdout=slave)
    room.report.check("only the other streams are a terminal", (status, err), (0, b""))
    os.close(slave)
    os.close(master)


def lots(room):
    """The lots of one path, and those of several, of which only the paths are counted."""
    two_lots(room, "first")
    _, both, _ = room.run(["delivery", "T"])
    status, _, _ = room.run(["delivery", "--manifest", "m", "T"])
    assert status == 0, status
    _, fine, _ = room.run(["delivery", "--check", "m", "T"])
    slow = piped(room, "T/EDAB01T1.VEC")
    shown = b"1 of 2 done\r" + WIPE
    check = room.report.check
    check("two lots", seen(room, ["delivery", "T"], slow=slow), (0, both, shown))
    check("two lots for a manifest", seen(room, ["delivery", "--manifest", "n", "T"], slow=slow), (0, b"", shown))
    check("the manifest is the same", room.read("n"), room.read("m"))
    check("two lots against a manifest", seen(room, ["delivery", "--check", "m", "T"], slow=slow), (0, fine, shown))
    status, _, err = seen(room, ["delivery", "T", "D"], slow=slow)
    check("two lots and another path", (status, err), (0, shown))
