#!/usr/bin/env python3
"""Tries the planted bugs of this folder: the prover has to refuse each for what it means.

    python3 edits/try.py CRATE ..       from the top: all edits of these crates, and writes their lists (REFUSED.md)
    python3 edits/try.py CRATE/NAME ..  these edits alone, and writes their rows
    python3 edits/try.py --all          those of all crates
    python3 edits/try.py --beside WORD ..
                                        as the gate does: runs the command, which is `rt ci`, and tries the edits of this landing, those of
                                        each crate as soon as the command says that the crates below it are proved; it writes nothing
    python3 edits/try.py --due          which edits this landing tries and which it leaves
    python3 edits/try.py --lists        looks whether the lists name the edits that are here, and README.md counts them rightly
    python3 edits/try.py --next         writes LANDING anew: a session begins with it
"""
import os
import re
import subprocess
import sys
import threading
import time
from concurrent.futures import ThreadPoolExecutor

HERE = os.path.dirname(os.path.abspath(__file__))
TOP = os.path.dirname(HERE)
sys.path.insert(0, HERE)
# (the modules leave nothing behind)
sys.dont_write_bytecode = True

from driver import choice, edit, kit, lists, trying  # noqa: E402

# what the command says of a crate that is proved
PROVED = re.compile(r"rt: (\w+) (?:proved$|is kept: )")

printing = threading.Lock()
# how long after its beginning the gate begins no further check of edits, in seconds, so that a slow machine doesn't lose a landing
MOST_SECONDS = 6600
# what has been said of edits that show nothing; it is said again at the end, where it is found
nothing = []


def say(text):
    with printing:
        print(f"edits: {text}", flush=True)


def folders():
    return sorted(it for it in os.listdir(HERE) if os.path.isdir(f"{HERE}/{it}") and lists.paths_in(f"{HERE}/{it}"))


def listed():
    """The crates whose edits have a list. The gate tries no others: whoever makes the first list of a crate sees what shows nothing."""
    return [it for it in folders() if lists.read_list(f"{HERE}/{it}")]


def try_one(crate, only, is_landing):
    """The verdicts on the edits of a crate, or on those of these names, and what can't be planted. Beside a landing it writes the list."""
    folder = f"{HERE}/{crate.name}"
    good, bad = edit.edits_in(folder, crate.folder)
    good = [it for it in good if only is None or it.name in only]
    begun = time.monotonic()
    verdicts, seconds = trying.try_crate(crate, good, say, is_landing)
    rows = lists.read_list(folder)
    for name in sorted(verdicts):
        tell(crate.name, name, verdicts[name], rows.get(name))
    for name, why in bad:
        tell_nothing(f"{crate.name}/{name}: SHOWS NOTHING: {why}")
    say(f"{crate.name}: {len(good)} edits in {time.monotonic() - begun:.0f} s, {seconds:.0f} s of a processor")
    if not is_landing:
        there = {edit.name_of(it) for it in lists.paths_in(folder)}
        kept = {it: rows[it] for it in rows if only is not None and it in there and it not in verdicts}
        lists.write_list(folder, {**kept, **lists.rows_of(folder, verdicts)})
    return verdicts, bad


def tell(crate, name, verdict, row):
    """Prints what becomes of an edit, on one line."""
    what = f"`{verdict.goal}` of {verdict.function()}" if verdict.goal else ""
    if verdict.is_left():
        say(f"{crate}/{name}: not tried, since the gate's time for planted bugs was over")
    elif verdict.is_refused():
        is_other = row and (row.function, row.goal, row.how) != (verdict.function(), verdict.goal, verdict.how)
        other = "; its list has another goal" if is_other else ""
        say(f"{crate}/{name}: refused, {verdict.how}: {what}{other}")
    else:
        tell_nothing(f"{crate}/{name}: SHOWS NOTHING: {verdict.how}: {what} {verdict.said[:200]}")


def tell_nothing(text):
    say(text)
    nothing.append(text)


def try_all(names, single):
    """Tries the edits of these crates side by side, and single ones of others; how many were tried, and how many show nothing."""
    crates = kit.crates_of(TOP)
    work = [(crates[it], None) for it in names] + [(crates[it], single[it]) for it in sorted(single)]
    work.sort(key=lambda it: -it[0].count(rb"\n"))
    with ThreadPoolExecutor(kit.RT.processors()) as pool:
        return counted(pool.map(lambda it: try_one(*it, False), work))


def counted(found):
    """How many edits were tried, and how many show nothing."""
    found = list(found)
    tried = [it for verdicts, _ in found for it in verdicts.values() if not it.is_left()]
    bad = sum(len(it) for _, it in found)
    return len(tried) + bad, sum(not it.is_refused() for it in tried) + bad


def landing():
    """What the gate tries and what it leaves."""
    now = choice.landing_of(HERE)
    there = listed()
    edits = {it: [edit.name_of(path) for path in lists.paths_in(f"{HERE}/{it}")] for it in kit.crates_of(TOP) if it in there}
    what = choice.chosen(TOP, edits, now)
    say(f"landing {now.number} tries {numbers(what.tried)}")
    if what.left:
        say(f"landing {now.number} leaves for later ones {numbers(what.left)}")
    return what


def numbers(edits):
    """How many of each crate's edits there are, and in all."""
    each = ", ".join(f"{len(edits[it])} of {it}" for it in edits)
    return f"{sum(map(len, edits.values()))}: {each or 'none'}"


def beside(words):
    """Runs a command that proves the crates, and tries a crate's edits once it says that the crates below are proved. Its status, how many
    edits were tried, and how many show nothing."""
    crates, left, proved, tried = kit.crates_of(TOP), landing().tried, set(), []
    wanted = set(left)

    def begin():
        for name in [it for it in left if all(below.name in proved for below in crates[it].below())]:
            tried.append(pool.submit(try_one, crates[name], left.pop(name), True))

    with ThreadPoolExecutor(kit.RT.processors()) as pool:
        begin()
        run = subprocess.Popen(words, cwd=TOP, stdout=subprocess.PIPE, stderr=subprocess.STDOUT, text=True, errors="replace")
        for line in run.stdout:
            with printing:
                print(line, end="", flush=True)
            found = PROVED.match(line)
            if found:
                proved.add(found[1])
                begin()
        status = run.wait()
        count, lost = counted(it.result() for it in tried)
    if wanted - proved:
        say(f"not proved: {' '.join(sorted(wanted - proved))}")
    return status or (1 if wanted - proved else 0), count, lost


def main(words):
    if words == ["--next"]:
        choice.next_landing(TOP, HERE)
        return 0
    if words == ["--due"]:
        for crate, names in landing().left.items():
            say(f"left: {' '.join(f'{crate}/{it}' for it in sorted(names))}")
        return 0
    if words == ["--lists"]:
        found = [why for it in listed() for why in lists.complaints(f"{HERE}/{it}")] + lists.miscounts(HERE, listed())
        for why in found:
            say(why)
        lacking = [it for it in folders() if it not in listed()]
        if lacking:
            say(f"no list yet, and not tried by the gate: {' '.join(lacking)}")
        return 1 if found else 0
    status = 0
    if words[:1] == ["--beside"] and len(words) > 1:
        kit.HOURS.most = MOST_SECONDS
        status, tried, lost = beside(words[1:])
    else:
        names = folders() if words == ["--all"] else [it for it in words if "/" not in it]
        single = {}
        for crate, _, name in (it.partition("/") for it in words if "/" in it):
            single.setdefault(crate, set()).add(name)
        if not words or not {*names, *single} <= set(folders()):
            sys.exit(__doc__)
        tried, lost = try_all(names, single)
    for text in nothing:
        say(text)
    say(f"{tried - lost} refused, {lost} show nothing")
    return status or (1 if lost else 0)


if __name__ == "__main__":
    sys.exit(main(sys.argv[1:]))
