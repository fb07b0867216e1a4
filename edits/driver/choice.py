"""Which edits the gate tries: those that have changed, those of crates that have changed, and of the others a third; at most so many."""
import os
import re
import subprocess

FILE = "LANDING"
PARTS = 3
# how many edits one landing tries at most: they take about as long as the proofs
MOST = 90


class Landing:
    """A landing: its number, and the commit of the one before."""

    def __init__(self, number, before):
        self.number = number
        self.before = before


def landing_of(folder):
    """The landing that the file of this folder names."""
    with open(f"{folder}/{FILE}", encoding="utf-8") as file:
        found = re.fullmatch(r"landing (\d+) over ([0-9a-f]{7,40})\n", file.read())
    if not found:
        raise SystemExit(f"edits: {FILE} is not of the form 'landing NUMBER over COMMIT'")
    return Landing(int(found[1]), found[2])


def changed_since(top, commit):
    """The paths below `top` that have changed since a commit, without those that were only moved; None where git doesn't know it."""
    words = ["git", "diff", "--name-status", "--find-renames=100%", commit, "--"]
    ran = subprocess.run(words, cwd=top, capture_output=True, text=True)
    if ran.returncode:
        return None
    rows = [line.split("\t") for line in ran.stdout.splitlines()]
    return {row[-1] for row in rows if row[0] != "R100" and row[0] != "D"}


def third_of(names, number):
    """The names that the landing of this number tries whatever has changed."""
    return {it for at, it in enumerate(names) if at % PARTS == number % PARTS}


def by_turns(edits, number):
    """These edits from another one on with each landing, so that the first MOST of them are others each time."""
    at = number * MOST % max(len(edits), 1)
    return edits[at:] + edits[:at]


def due(edits, changed, landing):
    """The edits that this landing should try, those that matter most first. `edits` has the names of each crate's, in the order of crates.txt;
    `changed` the paths that have changed, or None where that isn't known."""
    if changed is None:
        return by_turns([(crate, it) for crate in edits for it in edits[crate]], landing.number)
    crates = {found[1] for found in (re.match(r"crates/(\w+)/(?:src|specs|proofs)/", it) for it in changed) if found}
    every = [(crate, it) for crate in edits for it in edits[crate]]
    new = [(crate, it) for crate, it in every if f"edits/{crate}/{it}.edit" in changed]
    of_changed = [it for it in every if it[0] in crates and it not in new]
    thirds = third_of(list(edits), landing.number)
    others = [it for it in every if it[0] in thirds - crates and it not in new]
    return by_turns(new, landing.number) + by_turns(of_changed, landing.number) + others


class Choice:
    """What a landing tries and what it leaves for later ones: the names of edits by their crates."""

    def __init__(self, edits):
        self.tried = by_crate(edits[:MOST])
        self.left = by_crate(edits[MOST:])


def by_crate(edits):
    found = {}
    for crate, name in edits:
        found.setdefault(crate, set()).add(name)
    return found


def chosen(top, edits, landing):
    """What this landing tries of these edits."""
    changed = changed_since(top, landing.before)
    if changed is None:
        print(f"edits: git has no commit {landing.before}, so nothing is known of what has changed")
    return Choice(due(edits, changed, landing))


def next_landing(top, folder):
    """Writes the landing that follows the commit that stands."""
    head = subprocess.run(["git", "rev-parse", "HEAD"], cwd=top, capture_output=True, text=True, check=True).stdout.strip()
    number = landing_of(folder).number + 1 if os.path.isfile(f"{folder}/{FILE}") else 1
    with open(f"{folder}/{FILE}", "w", encoding="utf-8") as file:
        file.write(f"landing {number} over {head}\n")
