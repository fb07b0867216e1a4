"""The list of a crate's edits: which goal refused each when it was last tried."""
import hashlib
import os

from .edit import ENDING, name_of, text_of
from .judge import REFUSED

NAME = "REFUSED.md"
HEAD = """# {crate}: what refuses each planted bug

Made by `python3 edits/try.py {crate}`; [README.md](../README.md) says what the last column means. The marks are the first digits of the SHA-256 of the edit.

| planted bug | mark | function | goal | how |
|---|---|---|---|---|
"""


class Row:
    """One edit of a list."""

    def __init__(self, name, mark, function, goal, how):
        self.name = name
        self.mark = mark
        self.function = function
        self.goal = goal
        self.how = how

    def line(self):
        return f"| {self.name} | {self.mark} | `{self.function}` | `{self.goal}` | {self.how} |\n"


def mark_of(path):
    return hashlib.sha256(text_of(path).encode()).hexdigest()[:8]


def paths_in(folder):
    return [f"{folder}/{it}" for it in sorted(os.listdir(folder)) if it.endswith(ENDING)]


def read_list(folder):
    """The rows of a folder's list by the names of the edits."""
    if not os.path.isfile(f"{folder}/{NAME}"):
        return {}
    cells = [[it.strip(" `") for it in line.split("|")[1:-1]] for line in text_of(f"{folder}/{NAME}").split("\n") if line.startswith("| ")]
    return {it[0]: Row(*it) for it in cells if len(it) == 5 and it[0] != "planted bug"}


def write_list(folder, rows):
    """Writes the list of a folder anew."""
    with open(f"{folder}/{NAME}", "w", encoding="utf-8") as file:
        file.write(HEAD.format(crate=os.path.basename(folder)))
        file.writelines(rows[it].line() for it in sorted(rows))


def rows_of(folder, verdicts):
    """The rows of the edits that these verdicts refuse, by name."""
    found = {it: verdicts[it] for it in verdicts if verdicts[it].is_refused()}
    return {it: Row(it, mark_of(f"{folder}/{it}{ENDING}"), found[it].function(), found[it].goal, found[it].how) for it in found}


def complaints(folder):
    """What isn't as it should be in a folder's list: edits that it lacks, that have changed since, and that are gone."""
    rows, crate = read_list(folder), os.path.basename(folder)
    paths = {name_of(it): it for it in paths_in(folder)}
    found = [f"{crate}/{it}: it is on no list" for it in paths if it not in rows]
    found += [f"{crate}/{it}: it has changed since it was tried" for it in paths if it in rows and rows[it].mark != mark_of(paths[it])]
    found += [f"{crate}/{it}: it is on the list and not there" for it in rows if it not in paths]
    return found + [f"{crate}/{it}: the list has no way of being refused for it" for it in rows if rows[it].how not in REFUSED]


def miscounts(top, names):
    """What is wrong with the sentence of README.md that counts the rows of these lists."""
    rows = [row for it in names for row in read_list(f"{top}/{it}").values()]
    false, open_, answer = (sum(it.how == how for it in rows) for how in REFUSED)
    wanted = f"Of {len(rows)} bugs on the lists {false} are refused by a goal that is false, {open_} by one that is open, and {answer} as an answer."
    return [] if wanted in " ".join(text_of(f"{top}/README.md").split()) else [f"README.md doesn't say: {wanted}"]
