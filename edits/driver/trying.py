"""Trying a crate's edits: in groups, then alone where that showed nothing, then without the written answers that no longer fit."""
import os
import shutil
import tempfile
import threading
from concurrent.futures import ThreadPoolExecutor

from . import judge
from .copies import planted_in_copies, texts_with
from .edit import functions_of, groups_of, planted, text_of
from .kit import RT, Late, check

# how long one check may take, in seconds: from nothing, and over kept work
FROM_NOTHING = 1800
OVER_KEPT = 900
# how many bugs one check gets in copies of their functions: with each it takes more memory, and more time before the next can begin
MOST_COPIES = 12
# how many the first gets, which checks the whole crate too, and for which the others wait
FIRST_COPIES = 6


class Unfinished(Exception):
    """A check that gave no verdict on the crate: it took too long or wasn't begun, or the front end refused the text, for these faults."""

    def __init__(self, faults=None, is_left=False):
        super().__init__()
        self.faults = faults
        self.is_left = is_left

    def verdict(self):
        """What it says of an edit that was planted alone."""
        if self.is_left:
            return judge.Verdict(judge.LEFT)
        return judge.Verdict(judge.TIME if self.faults is None else judge.UNREAD)


def linked(source, to):
    """The file under a second name, or a copy of it where the system gives none: a check replaces files and writes into none."""
    try:
        os.link(source, to)
    except OSError:
        shutil.copy2(source, to)


def side_by_side(work, parts):
    """What this gives for each of these parts. How many checks there are at a time is for `Room` to say."""
    with ThreadPoolExecutor(max(len(parts), 1)) as pool:
        return list(pool.map(work, parts))


class Trial:
    """The checks of one crate's edits, each over a copy of the same kept work."""

    def __init__(self, crate, room, kept, say):
        self.crate = crate
        self.room = room
        self.kept = kept
        self.say = say
        self.adding = threading.Lock()
        # what its checks took, in seconds of a processor
        self.seconds = 0

    def add(self, seconds):
        with self.adding:
            self.seconds += seconds

    def check(self, texts, without=()):
        """Checks the crate with these texts in the place of its own, and without the answers of these functions."""
        work = tempfile.mkdtemp(prefix="kept-", dir=self.room)
        seconds = FROM_NOTHING
        if self.kept:
            shutil.copytree(self.kept, work, dirs_exist_ok=True, copy_function=linked)
            seconds = OVER_KEPT
        try:
            said = check(self.crate, texts, without, work, seconds)
        except Late:
            raise Unfinished(is_left=True) from None
        self.add(said.seconds)
        if said.is_stale:
            raise SystemExit(f"edits: the kept work of {self.crate.name} or of a library can't be used: remove its out/")
        if self.kept or not said.is_whole:
            shutil.rmtree(work)
        else:
            self.kept = work
        return said

    def functions_in(self, texts):
        """The functions of the crate's sources, with these texts in the place of its own."""
        found = []
        for at, _, files in os.walk(f"{self.crate.folder}/src"):
            for name in sorted(files):
                if name.endswith(".rt"):
                    file = os.path.relpath(f"{at}/{name}", self.crate.folder)
                    found += functions_of(file, texts.get(file) or text_of(f"{self.crate.folder}/{file}"))
        return found

    def judged(self, edits, without=()):
        """The faults and the states of a check with these edits planted."""
        return self.judged_texts(planted(edits, self.crate.folder), without)

    def judged_texts(self, texts, without):
        """The faults and the states of a check with these texts."""
        said = self.check(texts, without)
        if not said.ended:
            raise Unfinished()
        faults = judge.faults_in(said.text, self.functions_in(texts))
        if not said.is_whole:
            raise Unfinished(faults)
        return faults, judge.states_of(said.text)

    def try_copies(self, edits):
        """The verdicts on those edits that are refused in copies of their functions. The first check leaves the work over which the others go,
        side by side."""
        first, rest = edits[:FIRST_COPIES], edits[FIRST_COPIES:]
        parts = [rest[at : at + MOST_COPIES] for at in range(0, len(rest), MOST_COPIES)]
        found = [self.refused_in_copies(first)] + side_by_side(self.refused_in_copies, parts)
        return {name: verdict for it in found for name, verdict in it.items()}

    def refused_in_copies(self, edits):
        """The same of edits whose copies are all planted at once."""
        copies = planted_in_copies(edits, self.crate.folder)
        found = self.verdicts_of_copies(copies)
        unfit = {it: copies[it] for it in found if found[it].how == judge.ANSWER and found[it].path}
        found.update(self.verdicts_without_answers(unfit, found))
        refused = {it: verdict for it, verdict in found.items() if verdict.is_refused()}
        for name, verdict in refused.items():
            verdict.path = copies[name].copy.original.path
        self.say(f"{self.crate.name}: {len(refused)} of {len(copies)} refused in copies of their functions")
        return refused

    def verdicts_of_copies(self, copies):
        """The verdicts on edits in copies of their functions, by name, of those of which the copy without the bug is proved. Copies that the
        front end refuses are left out."""
        if not copies:
            return {}
        try:
            both = [copy for it in copies.values() for copy in (it.copy, it.control)]
            faults, states = self.judged_texts(texts_with(both, self.crate.folder), ())
        except Unfinished as why:
            bad = {it for it in copies if why.faults and judge.of_front_end(copies[it].as_edit(), why.faults)}
            return self.verdicts_of_copies({it: copies[it] for it in copies if it not in bad}) if bad else {}
        sound = [it for it in copies if judge.is_proved(copies[it].control.path(), states, self.crate.name)]
        return {it: judge.verdict_of(copies[it].as_edit(), faults, states, self.crate.name) for it in sound}

    def verdicts_without_answers(self, copies, verdicts):
        """The verdicts on edits in copies by which answers no longer fit, from a check without these answers."""
        if not copies:
            return {}
        texts = texts_with([it.copy for it in copies.values()], self.crate.folder)
        try:
            faults, states = self.judged_texts(texts, [it.copy.path() for it in copies.values()])
        except Unfinished as why:
            return {it: why.verdict() for it in copies} if why.is_left else {}
        return {it: judge.without_answer(verdicts[it], faults, states, self.crate.name) for it in copies}

    def try_group(self, edits):
        """The verdict on each edit of a group that is planted at once. Where there is none, those that the front end refuses are taken out,
        or each half is tried by itself."""
        try:
            faults, states = self.judged(edits)
            return {it.name: judge.verdict_of(it, faults, states, self.crate.name) for it in edits}
        except Unfinished as why:
            faults, verdict = why.faults, why.verdict()
        found = {it.name: judge.of_front_end(it, faults) for it in edits if faults}
        found = {name: it for name, it in found.items() if it}
        if len(edits) == 1:
            return found or {edits[0].name: verdict}
        rest = [it for it in edits if it.name not in found]
        parts = [rest] if found else [rest[: len(rest) // 2], rest[len(rest) // 2 :]]
        for part in parts:
            found.update(self.try_group(part) if part else {})
        return found

    def try_alone(self, edit):
        """The verdict on an edit by every fault of the crate with it alone."""
        try:
            return judge.verdict_alone(edit, *self.judged([edit]))
        except Unfinished as why:
            return why.verdict()

    def try_without_answers(self, edits, verdicts):
        """The verdicts on edits by which an answer no longer fits, from a check without the answers of those functions."""
        try:
            faults, states = self.judged(edits, [verdicts[it.name].path for it in edits])
        except Unfinished as why:
            return {it.name: why.verdict() if why.is_left else verdicts[it.name] for it in edits}
        return {it.name: judge.without_answer(verdicts[it.name], faults, states, self.crate.name) for it in edits}

    def verdicts_of(self, group):
        """The verdict on each edit of a group, by its name. Those of functions that call what another edit of the group broke are planted
        once more without it; what is still unsure is tried alone."""
        found = self.try_group(group)
        # (a lemma that no longer holds, of no function, has no answer that could go)
        unfit = [it for it in group if found[it.name].how == judge.ANSWER and found[it.name].path]
        if unfit:
            found.update(self.try_without_answers(unfit, found))
        callers = [it for it in group if found[it.name].how == judge.CALLEE]
        if callers and len(callers) < len(group):
            found.update(self.verdicts_of(callers))
        else:
            callers = []
        unsure = [it for it in group if found[it.name].how in judge.UNSURE and it not in callers]
        found.update(zip([it.name for it in unsure], side_by_side(self.try_alone, unsure)))
        return found

    def all_verdicts(self, edits):
        """The verdict on each edit, by its name. What isn't refused in a copy of its function is planted in its place, in groups, of which the
        first leaves the work over which the others are checked, side by side."""
        refused = self.try_copies(edits)
        groups = list(enumerate(groups_of([it for it in edits if it.name not in refused])))

        def verdicts(numbered):
            number, group = numbered
            found = self.verdicts_of(group)
            self.say(f"{self.crate.name}: group {number + 1} of {len(groups)}, {len(group)} edits")
            return found

        found = [verdicts(it) for it in groups[:1]] + side_by_side(verdicts, groups[1:])
        return {**refused, **{name: verdict for it in found for name, verdict in it.items()}}


def kept_of(crate):
    """The folder of what earlier checks kept of a crate, where it and the libraries below it are built."""
    kept = f"{crate.folder}/{RT.rtlib.KEPT[1]}"
    return kept if crate.has_kept() and all(it.is_built() for it in crate.below()) else None


def try_crate(crate, edits, say, from_nothing=False):
    """The verdict on each of these edits of a crate, by their names, and how many seconds of a processor the checks took."""
    with tempfile.TemporaryDirectory(prefix="edits-") as room:
        kept = None if from_nothing else kept_of(crate)
        linked_kept = f"{room}/kept"
        if kept:
            shutil.copytree(kept, linked_kept, copy_function=linked)
        trial = Trial(crate, room, linked_kept if kept else None, say)
        return trial.all_verdicts(edits), trial.seconds
