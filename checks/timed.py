#!/usr/bin/env python3
"""Runs a stage of the gate, and prints how long it took: by the clock, and of all processors, in all and by crate.

    checks/timed.py COMMAND WORD ..     ends with the command's status

What a process took is read from the system about once a second, so a process counts with what it had taken when it was last seen, and
one that ends sooner counts among the rest. A proof that takes more than LIMIT minutes of a processor is ended, so that a search without
end doesn't eat the gate's time; the crate then isn't proved.
"""
import collections
import contextlib
import os
import re
import signal
import subprocess
import sys
import threading
import time

TICK = os.sysconf("SC_CLK_TCK")
EVERY = 1.0
# the dearest crate takes less than a third of this
LIMIT = 40


class Process:
    """What was last seen of a process: what it works on, and the seconds that it has taken."""

    def __init__(self, what, seconds):
        self.what = what
        self.seconds = seconds


def words_of(process):
    with open(f"/proc/{process}/cmdline", "rb") as file:
        return file.read().decode(errors="replace").split("\0")


def state_of(process):
    """The parent of a process and the seconds that it has taken, without its children."""
    with open(f"/proc/{process}/stat", encoding="utf-8", errors="replace") as file:
        fields = file.read().rpartition(")")[2].split()
    return int(fields[1]), (int(fields[11]) + int(fields[12])) / TICK


def work_of(words):
    """What a process works on: the proof of a crate, bugs planted in one, or a program that is compiled or run."""
    if "--crate-name" not in words:
        return None
    crate = words[words.index("--crate-name") + 1]
    if "--crate-checked" in words:
        return f"compile {crate}"
    return f"bugs {crate}" if "--incremental" in words else f"proof {crate}"


class Watch:
    """The processes below this one, as they are seen from time to time."""

    def __init__(self):
        self.seen = {}
        self.ended = threading.Event()

    def look(self):
        parents, seconds = {}, {}
        for name in filter(str.isdigit, os.listdir("/proc")):
            try:
                parents[int(name)], seconds[int(name)] = state_of(name)
            except (OSError, ValueError, IndexError):
                continue
        for process in parents:
            if not is_below(process, parents):
                continue
            known = self.seen.get(process)
            # (a process begins as a copy of its parent, before its own words are there)
            if known is None or known.what is None:
                try:
                    known = self.seen[process] = Process(work_of(words_of(process)), 0)
                except OSError:
                    continue
            known.seconds = seconds[process]
            if known.what and known.seconds > LIMIT * 60:
                print(f"gate: {known.what} has taken more than {LIMIT} minutes of a processor, and is ended", flush=True)
                with contextlib.suppress(ProcessLookupError):
                    os.kill(process, signal.SIGTERM)

    def run(self):
        while not self.ended.wait(EVERY):
            self.look()

    def by_work(self):
        found = collections.Counter()
        for process in self.seen.values():
            if process.what:
                found[process.what] += process.seconds
        return found


def is_below(process, parents):
    """Whether a process stands below this one, but isn't it."""
    at = parents.get(process)
    while at and at != os.getpid():
        at = parents.get(at)
    return at == os.getpid()


def main(words):
    watch = Watch()
    begun = time.monotonic()
    looking = threading.Thread(target=watch.run, daemon=True)
    looking.start()
    status = subprocess.run(words).returncode
    watch.ended.set()
    looking.join()
    taken = os.times()
    whole, found = taken.children_user + taken.children_system, watch.by_work()
    for what in sorted(found, key=lambda it: (it.split()[0], -found[it])):
        print(f"gate: {found[what] / 60:6.1f} min of one processor: {what}")
    rest = max(0, whole - sum(found.values()))
    print(f"gate: {rest / 60:6.1f} min of one processor: all else")
    name = " ".join(re.sub(r".*/", "", it) for it in words)
    print(f"gate: {name}: {(time.monotonic() - begun) / 60:.1f} min by the clock, {whole / 60:.1f} min of one processor", flush=True)
    return status if status >= 0 else 128 - status


if __name__ == "__main__":
    if len(sys.argv) < 2:
        sys.exit(__doc__)
    sys.exit(main(sys.argv[1:]))
