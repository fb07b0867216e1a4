"""The toolchain's `rt` as a module, and one check of a crate whose files were changed."""
import contextlib
import functools
import importlib.machinery
import importlib.util
import math
import os
import shutil
import signal
import subprocess
import sys
import tempfile
import threading
import time

sys.dont_write_bytecode = True


def load():
    """`rt` and what it stands on, with this repository's handles."""
    path = os.path.realpath(shutil.which("rt"))
    loader = importlib.machinery.SourceFileLoader("rt_of_the_kit", path)
    made = importlib.util.module_from_spec(importlib.util.spec_from_loader("rt_of_the_kit", loader))
    loader.exec_module(made)
    made.rtlib.Crate = made.Crate
    # (its first call sets a signal's handler, which only the main thread may)
    made.rtlib.guarded()
    # A crate's sum stands for its sources and those of all crates below it. `rt` takes it anew along each way down, which are thousands at
    # the top.
    made.Crate.stamp = functools.cache(made.Crate.stamp)
    return made


RT = load()


def crates_of(top):
    """The repository's crates by their names."""
    return {it.name: it for it in RT.rtlib.crates_below(top)}


# how often a check is begun that the system kills
TRIES = 3


class Checked:
    """What a check said, whether it ended in time, how many seconds of a processor it took, and whether it came to a verdict on the crate."""

    def __init__(self, text, ended, seconds):
        self.text = text
        self.ended = ended
        self.seconds = seconds
        self.is_stale = bool(RT.rtlib.STALE.search(text))
        self.is_whole = ended and text.rstrip("\n").split("\n")[-1].startswith("logic=")


def check(crate, texts, without, kept, seconds):
    """Checks a copy of the crate with these texts in the place of its own and without the answers of these functions, over the work in
    the folder `kept`, which gets what is new."""
    with tempfile.TemporaryDirectory(prefix="edits-room-") as room:
        for part in RT.rtlib.PARTS:
            if os.path.isdir(f"{crate.folder}/{part}"):
                shutil.copytree(f"{crate.folder}/{part}", f"{room}/{part}")
        for path, text in texts.items():
            os.makedirs(os.path.dirname(f"{room}/{path}"), exist_ok=True)
            with open(f"{room}/{path}", "w", encoding="utf-8") as file:
                file.write(text)
        for path in without:
            answers = f"{room}/proofs/{'/'.join(path)}/Answers.antt"
            if os.path.isfile(answers):
                os.remove(answers)
        words = [RT.rtlib.RATTLE, "check", *crate.words(["--jobs", "1"], keeps=False), "--incremental", kept]
        for _ in range(TRIES):
            with ROOM.taken():
                if HOURS.are_over():
                    raise Late()
                said = ended_within([*RT.rtlib.guarded(), *words], room, seconds)
            if said:
                return said
        return Checked("", False, 0)


class Late(Exception):
    """A check that wasn't begun, since the gate's time for checks was over."""


class Hours:
    """The time in which checks begin: all the time, or so many seconds from the driver's beginning on. A check that goes on for SPARE seconds more is
    ended."""

    SPARE = 1800

    def __init__(self):
        self.begun = time.monotonic()
        self.most = math.inf

    def are_over(self):
        return time.monotonic() > self.begun + self.most

    def end_of_check(self, seconds):
        """When a check that may take so many seconds by the clock has to end."""
        return min(time.monotonic() + seconds, self.begun + self.most + Hours.SPARE)


HOURS = Hours()


class Room:
    """Room for checks, of which there are at most as many as processors: one begins while none is running, or when there is as much memory
    as the dearest takes at its most, for it and for each that has just begun."""

    NEED = 5_000_000_000
    SECONDS_TO_FILL = 180

    def __init__(self):
        self.lock = threading.Lock()
        self.lanes = RT.processors()
        self.running = 0
        self.begun = []

    @contextlib.contextmanager
    def taken(self):
        while not self.take():
            time.sleep(2)
        try:
            yield
        finally:
            with self.lock:
                self.running -= 1

    def take(self):
        with self.lock:
            now = time.monotonic()
            self.begun = [it for it in self.begun if now - it < Room.SECONDS_TO_FILL]
            fits = self.running == 0 or (self.running < self.lanes and RT.free() >= Room.NEED * (1 + len(self.begun)))
            if fits:
                self.running += 1
                self.begun.append(now)
            return fits


ROOM = Room()


def ended_within(words, folder, seconds):
    """What a command says that may take so many seconds of a processor, or None where the system killed it, most likely for memory. It
    gives way to other work, as the proofs of `rt ci` beside it, and so may take four times as many by the clock."""
    most = math.ceil(seconds)
    words = ["nice", "-n", "10", "prlimit", f"--cpu={most}:{most + 60}", *words]
    with tempfile.TemporaryFile("w+", errors="replace") as said:
        how = {"cwd": folder, "stdin": subprocess.DEVNULL, "stdout": said, "stderr": subprocess.STDOUT}
        run = subprocess.Popen(words, **how)
        status, taken = ended_by(run.pid, HOURS.end_of_check(4 * seconds))
        if status == -signal.SIGKILL:
            return None
        said.seek(0)
        return Checked(said.read(), status is not None and status >= 0, taken)


def ended_by(process, deadline):
    """The status of a process, negative for a signal and None where it hasn't ended by the deadline and is killed, and the seconds of a
    processor that it took."""
    is_late = False
    while True:
        ended, status, used = os.wait4(process, os.WNOHANG)
        if ended:
            return None if is_late else os.waitstatus_to_exitcode(status), used.ru_utime + used.ru_stime
        if not is_late and time.monotonic() > deadline:
            is_late = True
            os.kill(process, signal.SIGKILL)
        time.sleep(0.2)
