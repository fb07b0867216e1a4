"""What a check says of each planted bug: which goal refused it, or why it shows nothing."""
import re

# how a bug is refused, strongest first
FALSE = "false"
OPEN = "open"
ANSWER = "answer"
REFUSED = (FALSE, OPEN, ANSWER)
# why it shows nothing
PROVED = "still proved"
UNFIT = "only a written answer no longer fits"
NAME = "a name that is gone"
TYPE = "a type that doesn't fit"
CALLEE = "a callee without a proof"
CALL = "a condition of a call that the edit adds"
SAFETY = "only a sum, a cast or the like that isn't safe any more"
TIME = "no end in time"
# what wasn't tried at all
LEFT = "left for a later landing"
UNREAD = "the prover can't read it"
ELSEWHERE = "no error of its own"
# what a check of other edits at the same time can hide
UNSURE = (PROVED, ELSEWHERE, CALLEE)

STATE = re.compile(r"^fn (\S+): (proved|not proved|no proof|could not tell)(.*)")
PLACE = re.compile(r"^(?:note: )?(?:\./)?((?:src|specs|proofs)/\S+?):(\d+):\d+: (.*)")
GOAL = re.compile(r"error: `([^`]+)`: (.*)")
UNPROVED = re.compile(r"it is not proved that (.*?) \(`([^`]+)`\)(.*)")
NAMES = re.compile(r"is not in scope|has no field|has no `|is no name|was not admitted|error\[unknown-")
TYPES = re.compile(r"error\[mismatched-")
READS = re.compile(r"operand is missing|expected the end|cannot continue|error\[")
UNSAFE = re.compile(r"(?:overflow|cast|div|rem|shl|shr|neg)_")
ALLOWS = "the facts known there allow values at which this goal is false"


class Verdict:
    """What becomes of one edit: how it is refused or why it shows nothing, by which function and goal."""

    def __init__(self, how, path=(), goal="", said="", goals=()):
        self.how = how
        self.path = path
        self.goal = goal
        self.said = said
        # every goal of the edit's functions that has a fault
        self.goals = goals

    def is_refused(self):
        return self.how in REFUSED

    def is_left(self):
        return self.how == LEFT

    def function(self):
        return "::".join(self.path)


def by_fault(how, fault, goals=()):
    return Verdict(how, fault.function or (), fault.goal, fault.said, goals)


class Fault:
    """An error of a check: the function or the file that it is in, the goal that it speaks of, and what it says."""

    def __init__(self, function, file, goal, how, said):
        self.function = function
        self.file = file
        self.goal = goal
        self.how = how
        self.said = said


def lines_with_rests(text):
    """The lines that begin a message, each with those that go on with it."""
    found = []
    for line in text.split("\n"):
        if line.startswith("  ") and found:
            found[-1] += line
        else:
            found.append(line)
    return found


def states_of(text):
    """Each function's state, and what is said of it."""
    return {found[1]: (found[2], found[3]) for found in map(STATE.match, text.split("\n")) if found}


def faults_in(text, functions):
    """The faults of a check. `functions` are those of the files as they were checked."""
    found = []
    for message in lines_with_rests(text):
        place = PLACE.match(message)
        if not place:
            continue
        file, line, said = place[1], int(place[2]), place[3]
        function = function_of(file, line, functions)
        goal, open_goal = GOAL.match(said), UNPROVED.match(said)
        if open_goal:
            found.append(Fault(function, file, open_goal[2], FALSE if ALLOWS in open_goal[3] else OPEN, open_goal[1]))
        elif goal:
            found.append(Fault(function, file, goal[1], how_of(goal[2]), goal[2]))
        elif said.startswith("error"):
            found.append(Fault(function, file, "", how_of(said), said))
    return found


def how_of(said):
    """What an error in a written answer, or one without a goal, amounts to."""
    for words, how in ((NAMES, NAME), (TYPES, TYPE), (READS, UNREAD)):
        if words.search(said):
            return how
    return ANSWER


def function_of(file, line, functions):
    """The function that a place in a file belongs to: of a source by its lines, of a proof by its folder."""
    if file.startswith("src/"):
        return next((it.path for it in functions if it.file == file and it.first < line <= it.behind), None)
    parts = tuple(file[len("proofs/") :].split("/")[:-1])
    return parts if any(it.path == parts for it in functions) else None


def verdict_of(edit, faults, states, crate):
    """The verdict on an edit of a group, by the faults of its own functions."""
    if edit.is_lone:
        return verdict_alone(edit, faults, states)
    own = [it for it in faults if any(it.function == path for _, path in edit.functions)]
    return by_faults(edit, own) or without_fault(edit, states, crate)


def of_front_end(edit, faults):
    """The verdict on an edit that the front end refuses by these faults, or None where it is another that it refuses."""
    own = [it for it in faults if any(it.function == path for _, path in edit.functions) or edit.is_lone]
    first = next((it for it in own if it.how in (NAME, TYPE, UNREAD)), None)
    return by_fault(first.how, first) if first else None


def verdict_alone(edit, faults, states):
    """The verdict on an edit that was planted alone, by the faults of any function."""
    found = by_faults(edit, faults)
    if found:
        return found
    proved = bool(states) and all(state == "proved" for state, _ in states.values())
    return Verdict(PROVED if proved else ELSEWHERE)


def by_faults(edit, faults):
    """The verdict by these faults: what can't be read comes first, then goals, then what isn't there and what doesn't fit."""
    goals = [it for it in faults if it.how in REFUSED and it.goal]
    added = [it for it in goals if is_of_added_call(it.goal, edit)]
    unsafe = [it for it in goals if UNSAFE.match(it.goal)]
    own = [it for it in goals if it not in added and it not in unsafe]
    for how, among in ((UNREAD, faults), *((it, own) for it in REFUSED), (NAME, faults), (TYPE, faults)):
        for fault in among:
            if fault.how == how:
                return by_fault(how, fault, {it.goal for it in own})
    for how, among in ((CALL, added), (SAFETY, unsafe)):
        if among:
            return by_fault(how, among[0])
    return None


def without_fault(edit, states, crate):
    """The verdict on an edit of a group whose functions have no fault."""
    own = [states[it] for it in states if any(it == "::".join((crate, *path)) for _, path in edit.functions)]
    if any("not proved" in said for state, said in own if state == "no proof"):
        return Verdict(CALLEE)
    return Verdict(PROVED if own and all(state == "proved" for state, _ in own) else ELSEWHERE)


def is_proved(path, states, crate):
    """Whether a function is proved, by the parts of its name."""
    return states.get("::".join((crate, *path)), ("", ""))[0] == "proved"


def without_answer(verdict, faults, states, crate):
    """The verdict on an edit by which answers no longer fit, by a check without the answers of its function: whether a goal of those
    is open even so, or the function is proved."""
    same = [it for it in faults if it.function == verdict.path and it.goal in verdict.goals and it.how in REFUSED]
    false = next((it for it in same if it.how == FALSE), None)
    if false:
        return by_fault(FALSE, false)
    if same:
        return by_fault(ANSWER, same[0])
    state, _ = states.get("::".join((crate, *verdict.path)), ("", ""))
    return Verdict(UNFIT, verdict.path, verdict.goal) if state == "proved" else verdict


def is_of_added_call(goal, edit):
    """Whether a goal is the condition of a call that the edit adds: `NAME-requires` where the new texts call NAME more often than the old ones."""
    named = re.match(r"(?:.*-)?([A-Za-z_]\w*?)(?:-\d+)?-requires", goal)
    if not named:
        return False
    calls = re.compile(rf"\b{re.escape(named[1])}\b")
    count = lambda texts: sum(len(calls.findall(it)) for it in texts)
    return count(new for _, _, new in edit.pairs) > count(old for _, old, _ in edit.pairs)
