"""Bugs planted in copies of their functions. Beside the originals, which stay as they are, many can be checked at once: none hides
another, also where one function calls the other or both change one."""
import os
import re

from .edit import BLOCK, HEAD, Edit, Misfit, edited_texts, functions_of, text_of


class Copy:
    """A copy of a function: what is added to its name, the original, and the copy's lines."""

    def __init__(self, added, original, lines):
        self.original = original
        self.name = f"{original.path[-1]}_{added}"
        self.lines = [renamed(it, original.path[-1], self.name) for it in lines]

    def path(self):
        """The parts of the copy's name."""
        return (*self.original.path[:-1], self.name)


class Planted:
    """An edit in a copy of the function that it changes, and a copy of the same function without it, which has to be proved: what refuses the
    one is then the bug."""

    def __init__(self, edit, number, original, changed, lines):
        self.edit = edit
        self.copy = Copy(f"with_bug_{number}", original, changed)
        self.control = Copy("without_bug", original, lines)

    def as_edit(self):
        """The edit as one of the copy."""
        return Edit(self.edit.name, self.edit.pairs, [], {(self.copy.original.file, self.copy.path())}, False)


def renamed(line, name, other):
    """A line, with another name where it is the head of the function of this name."""
    head = HEAD.match(line)
    return re.sub(rf"\bfn {name}\b", f"fn {other}", line, count=1) if head and head[2] == name else line


def is_of_trait(text, first):
    """Whether the function that begins at this line stands in a trait or in what a trait's `impl` gives: no copy can stand beside it."""
    lines = text.split("\n")
    at = next(it for it in range(first, len(lines)) if HEAD.match(lines[it]))
    if not HEAD.match(lines[at])[1]:
        return False
    heads = [it for it in BLOCK.finditer(text) if text.count("\n", 0, it.start()) <= at]
    return not heads or heads[-1][0].startswith(("trait", "pub trait")) or re.search(r"\bfor\b", heads[-1][1]) is not None


def planted_in_copy(edit, number, folder):
    """This edit in a copy of the function that it changes, if it changes one alone that can have one."""
    if edit.is_lone or len(edit.functions) != 1:
        return None
    ((file, path),) = edit.functions
    try:
        before, after = text_of(f"{folder}/{file}"), edited_texts(edit.pairs, folder).get(file)
    except Misfit:
        return None
    original = [it for it in functions_of(file, before) if it.path == path]
    changed = [it for it in functions_of(file, after or "") if it.path == path]
    if len(original) != 1 or len(changed) != 1 or is_of_trait(before, original[0].first):
        return None
    lines_of = lambda text, it: text.split("\n")[it.first : it.behind]
    return Planted(edit, number, original[0], lines_of(after, changed[0]), lines_of(before, original[0]))


def planted_in_copies(edits, folder):
    """These edits in copies of the functions that they change, by name, of those that can have one."""
    found = [planted_in_copy(it, number, folder) for number, it in enumerate(edits)]
    return {it.edit.name: it for it in found if it}


def texts_with(copies, folder):
    """The texts of the files with these copies behind their originals, and of the copies' proofs. Two of one name are one."""
    texts, copies = {}, list({it.path(): it for it in copies}.values())
    for file in {it.original.file for it in copies}:
        lines = text_of(f"{folder}/{file}").split("\n")
        for copy in sorted((it for it in copies if it.original.file == file), key=lambda it: -it.original.behind):
            lines[copy.original.behind : copy.original.behind] = ["", *copy.lines]
        texts[file] = "\n".join(lines)
    for copy in copies:
        texts.update(proofs_of(copy, folder))
    return texts


def proofs_of(copy, folder):
    """The written proofs of the original, as those of the copy."""
    path = copy.original.path
    own = f"proofs/{'/'.join(path)}"
    if not os.path.isdir(f"{folder}/{own}"):
        return {}
    named = re.compile(rf"\bproofs\.{re.escape('.'.join(path))}(?=[.\s])")
    to, other = f"proofs/{'/'.join(copy.path())}", f"proofs.{'.'.join(copy.path())}"
    files = [it for it in os.listdir(f"{folder}/{own}") if it.endswith(".antt")]
    return {f"{to}/{it}": named.sub(other, text_of(f"{folder}/{own}/{it}")) for it in files}
