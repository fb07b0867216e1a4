#!/usr/bin/env python3
"""Tests of the driver: on a crate of a few functions, edits of each sort get the verdict that they should.

    python3 edits/tests.py      its last line is `N passed, M failed`
"""
import math
import os
import shutil
import subprocess
import sys
import tempfile

HERE = os.path.dirname(os.path.abspath(__file__))
sys.path.insert(0, HERE)
# (the modules leave nothing behind)
sys.dont_write_bytecode = True

from driver import choice, edit, judge, kit, lists, trying  # noqa: E402

SOURCE = """//! A few functions, for the tests of the driver.
#![tactic(auto)]

ghost use Rattle.std.specs.Prelude.{◌≡◌, ◌+◌, ◌<◌, nat_lt};

/// The least number that is too large.
const LIMIT: u32 = 1000;

/// A number and the one behind it.
pub struct Pair {
    /// The number.
    pub first: u32,
    /// The one behind it.
    pub second: u32,
}

/// The number behind a number.
pub fn next(number: u32) -> u32
    requires { number < 2000 }
    ensures { result ≡ number + 1 }
{
    number + 1
}

/// The number two behind a number.
pub fn after_next(number: u32) -> u32
    requires { number < 1000 }
    ensures { result ≡ number + 2 }
{
    let one = next(number);
    next(one)
}

/// Whether a number is small.
pub fn is_small(number: u32) -> bool
    ensures { result ≡ nat_lt number 1000 }
{
    number < LIMIT
}

/// A number with the one behind it.
pub fn with_next(number: u32) -> Pair
    requires { number < 1000 }
    ensures first { result.first ≡ number }
    ensures second { result.second ≡ number + 1 }
{
    Pair {
        first: number,
        second: number + 1,
    }
}

/// A number and itself.
pub fn twice(number: u32) -> u32
    requires { number < 1000 }
    ensures { result ≡ number + number }
{
    number + number
}

/// The number behind a number.
pub fn named(number: u32) -> u32
    requires { number < 1000 }
    ensures { result ≡ number + 1 }
{
    let behind = next(number);
    behind
}
"""
PROOFS = {
    "twice": "use Rattle.std.proofs.Common.{refl}\nuse Rattle.trial.proofs.twice.Goals as goal\n\npub returns : goal.returns\nreturns c = refl\n",
    "named": "use Rattle.trial.proofs.named.Goals as goal\n\npub returns : goal.returns\nreturns c = c.next-behind.ensures\n",
}
# each edit: its pairs, and what has to be said of it
EDITS = {
    "harmless": ([("    number + 1", "    1 + number")], judge.PROVED),
    "wrong": ([("    number + 1", "    number + 2")], judge.FALSE),
    "harmless_above_a_wrong_one": ([("    next(one)", "    { next(one) }")], judge.PROVED),
    "first_of_a_function": ([("    next(one)", "    one")], judge.FALSE),
    "second_of_a_function": ([("    next(one)", "    next(one) - 2")], judge.FALSE),
    "only_an_answer": ([("    number + number", "    number * 2")], judge.UNFIT),
    "wrong_under_an_answer": ([("    number + number", "    number + number + 1")], judge.FALSE),
    "name_that_an_answer_has": ([("    let behind = next(number);", "    let other = next(number);"), ("    behind", "    other")], judge.NAME),
    "no_such_name": ([("    number < LIMIT", "    missing < LIMIT")], judge.NAME),
    "no_such_type": ([("    number < LIMIT", "    u64::from(number) < LIMIT")], judge.TYPE),
    "a_type": ([("    pub first: u32,", "    pub first: u64,")], judge.TYPE),
    "a_constant": ([("u32 = 1000;", "u32 = 1001;")], judge.FALSE),
    "condition_of_an_added_call": ([("    next(one)", "    let _ = next(number + 1500); next(one)")], judge.CALL),
}


# the texts of edits that can't be planted, and how the reason begins
UNFITTING = {
    "no_pair": ("file: src/lib.rt\n", "it has no"),
    "no_old_text": ("file: src/lib.rt\nnew: one\n", "a 'new:' line"),
    "text_that_stands_nowhere": ("file: src/lib.rt\nold: nowhere\nnew: one\n", "an 'old:' text"),
    "text_that_stands_twice": ("file: src/lib.rt\nold: next(\nnew: one(\n", "an 'old:' text"),
    "a_second_line": ("file: src/lib.rt\nold:     next(one)\nnew:     next(one);\n    next(one)\n", "a line begins"),
    "nothing_changed": ("file: src/lib.rt\nold:     next(one)\nnew:     next(one)\n", "it changes nothing"),
    "a_definition": ("file: specs/Lib.antt\nold: one\nnew: two\n", "it changes specs"),
}


class Report:
    """Counts what is as it should be."""

    def __init__(self):
        self.passed = 0
        self.failed = 0

    def check(self, name, found, wanted):
        if found == wanted:
            self.passed += 1
        else:
            self.failed += 1
            print(f"FAILED {name}: found {found!r}, wanted {wanted!r}")


def write(path, text):
    os.makedirs(os.path.dirname(path), exist_ok=True)
    with open(path, "w", encoding="utf-8") as file:
        file.write(text)


def make(top):
    """A repository with the crate, and the edits beside it."""
    write(f"{top}/crates.txt", "trial:\n")
    write(f"{top}/HANDLES", "Handles allowed: none.\n")
    write(f"{top}/crates/trial/src/lib.rt", SOURCE)
    for name, text in PROOFS.items():
        write(f"{top}/crates/trial/proofs/{name}/Answers.antt", text)
    for name, (pairs, _) in EDITS.items():
        write(f"{top}/edits/trial/{name}.edit", "file: src/lib.rt\n" + "".join(f"old: {old}\nnew: {new}\n" for old, new in pairs))


def unfitting(report, top, crate):
    """An edit that can't be planted is told with the reason."""
    for name, (text, _) in UNFITTING.items():
        write(f"{top}/unfitting/{name}.edit", text)
    good, bad = edit.edits_in(f"{top}/unfitting", crate.folder)
    report.check("edits that can't be planted", sorted(it for it, _ in bad), sorted(UNFITTING))
    report.check("none of them can be tried", good, [])
    for name, why in bad:
        report.check(f"why {name} can't be planted", why.startswith(UNFITTING[name][1]), True)


def groups(report, good):
    """Two edits of one function, and one of a type, don't stand in one group with others of the same."""
    found = edit.groups_of(good)
    report.check("each edit is in one group", sorted(it.name for group in found for it in group), sorted(EDITS))
    for group in found:
        functions = [it for each in group for it in each.functions]
        report.check("a function stands once in a group", len(functions), len(set(functions)))
        report.check("what changes no function stands alone", len(group) == 1 or not any(it.is_lone for it in group), True)


def verdicts(report, crate, good):
    found, seconds = trying.try_crate(crate, good, lambda text: None)
    report.check("what it took", seconds > 1, True)
    for name, (_, wanted) in EDITS.items():
        report.check(name, found[name].how, wanted)
    report.check("the goal of a wrong one", (found["wrong"].function(), found["wrong"].goal), ("next", "returns"))
    report.check("the goal of a constant", found["a_constant"].function(), "is_small")
    return found


def limits(report, crate, good):
    """A check that takes too long shows nothing, and none begins when the time for them is over."""
    usual, trying.FROM_NOTHING = trying.FROM_NOTHING, 0.1
    slow, _ = trying.try_crate(crate, [it for it in good if it.name == "wrong"], lambda text: None)
    trying.FROM_NOTHING = usual
    report.check("a check without end", slow["wrong"].how, judge.TIME)
    kit.HOURS.most = 0
    left, _ = trying.try_crate(crate, good, lambda text: None)
    kit.HOURS.most = math.inf
    report.check("edits for which no time is left", {it.how for it in left.values()}, {judge.LEFT})


def pages(report, folder, found):
    """A list names what is refused, and says what it lacks."""
    refused = {it for it in EDITS if EDITS[it][1] in judge.REFUSED}
    lists.write_list(folder, lists.rows_of(folder, found))
    report.check("a list's rows", set(lists.read_list(folder)), refused)
    report.check("a list's gaps", len(lists.complaints(folder)), len(EDITS) - len(refused))
    write(f"{folder}/wrong.edit", "file: src/lib.rt\nold:     number + 1\nnew:     number + 3\n")
    report.check("a list behind a changed edit", [it for it in lists.complaints(folder) if "changed" in it], ["trial/wrong: it has changed since it was tried"])
    os.remove(f"{folder}/wrong.edit")
    report.check("a list behind an edit that is gone", [it for it in lists.complaints(folder) if "not there" in it], ["trial/wrong: it is on the list and not there"])


def beside(report, top):
    """Beside a command, the edits of a crate are tried once the command says that the crates below are proved, of which this one has none; a
    crate that it doesn't say to be proved fails."""
    for path in lists.paths_in(f"{top}/edits/trial"):
        if edit.name_of(path) != "first_of_a_function":
            os.remove(path)
    for name in ("try.py", "LANDING"):
        shutil.copy2(f"{HERE}/{name}", f"{top}/edits/{name}")
    shutil.copytree(f"{HERE}/driver", f"{top}/edits/driver", ignore=shutil.ignore_patterns("__pycache__"))
    for said, status, wanted in (
        ("rt: trial proved", 0, "edits: trial/first_of_a_function: refused, false: `returns` of after_next"),
        ("rt: trial NOT PROVED", 1, "edits: not proved: trial"),
    ):
        words = [sys.executable, f"{top}/edits/try.py", "--beside", "echo", said]
        ran = subprocess.run(words, capture_output=True, text=True, cwd=top)
        report.check(f"beside a command that says {said!r}", (ran.returncode, wanted in ran.stdout), (status, True))


def thirds(report):
    """Three landings in which nothing changed try every crate, and what has changed comes first."""
    edits = {f"crate_{it}": ["one", "two"] for it in range(20)}
    every = [(crate, it) for crate in edits for it in edits[crate]]
    tried = [it for number in (7, 8, 9) for it in choice.due(edits, set(), choice.Landing(number, ""))]
    report.check("three landings", sorted(tried), sorted(every))
    changed = {"edits/crate_3/two.edit", "crates/crate_4/src/lib.rt", "crates/crate_4/stdout", "docs/FORMAT.md"}
    found = choice.due(edits, changed, choice.Landing(7, ""))
    report.check("an edit that has changed", found[:1], [("crate_3", "two")])
    report.check("a crate that has changed", sorted(found[1:3]), [("crate_4", "one"), ("crate_4", "two")])
    report.check("each edit once", len(found), len(set(found)))


def turns(report):
    """What is too much for one landing is left for the next ones, which try all of it; a commit that isn't known leaves nothing out."""
    edits = {f"crate_{it}": [f"edit_{at}" for at in range(3 * choice.MOST // 10)] for it in range(10)}
    every = [(crate, it) for crate in edits for it in edits[crate]]
    tried = set()
    for number in (5, 6, 7):
        what = choice.chosen(HERE, edits, choice.Landing(number, "0000000"))
        found = [(crate, it) for crate in what.tried for it in what.tried[crate]]
        report.check("no more than one landing tries", len(found), choice.MOST)
        report.check("what isn't tried is left", sum(map(len, what.left.values())), len(every) - choice.MOST)
        tried |= set(found)
    report.check("three landings by turns", sorted(tried), sorted(every))


def main():
    report = Report()
    with tempfile.TemporaryDirectory(prefix="edits-tests-") as top:
        make(top)
        crate = kit.crates_of(top)["trial"]
        good, bad = edit.edits_in(f"{top}/edits/trial", crate.folder)
        report.check("edits that can be planted", bad, [])
        unfitting(report, top, crate)
        groups(report, good)
        found = verdicts(report, crate, good)
        limits(report, crate, good)
        pages(report, f"{top}/edits/trial", found)
        beside(report, top)
    thirds(report)
    turns(report)
    print(f"{report.passed} passed, {report.failed} failed")
    return 1 if report.failed else 0


if __name__ == "__main__":
    sys.exit(main())
